//! Measuring a phase on both sides.

use std::hint::black_box;

#[repr(C)]
struct Time {
    seconds: i64,
    nanoseconds: i64,
}

extern "C" {
    fn clock_gettime(clock: i32, time: *mut Time) -> i32;
}

/// The processor time of this process, in seconds: what else the machine does isn't in it.
fn processor_time() -> f64 {
    const PROCESS: i32 = 2; // CLOCK_PROCESS_CPUTIME_ID on Linux
    let mut time = Time {
        seconds: 0,
        nanoseconds: 0,
    };
    let answer = unsafe { clock_gettime(PROCESS, &mut time) };
    assert_eq!(answer, 0, "the system has a clock for a process");
    time.seconds as f64 + time.nanoseconds as f64 / 1e9
}

/// How often a phase is run on all its inputs: so many times in one measurement, which is taken so many times.
#[derive(Clone, Copy)]
pub struct Runs {
    pub together: u32,
    pub measured: u32,
}

/// The processor time of one input in seconds, where a phase gets all inputs in turn.
fn measure<T, A>(together: u32, inputs: &[T], phase: &mut impl FnMut(&T) -> A) -> f64 {
    let start = processor_time();
    for _ in 0..together {
        for input in inputs {
            black_box(phase(black_box(input)));
        }
    }
    (processor_time() - start) / f64::from(together) / inputs.len() as f64
}

/// A plain scan for byte 10, byte by byte.
fn scan(text: &[u8]) -> usize {
    let mut lines = 0;
    for &byte in text {
        if black_box(byte) == 10 {
            lines += 1;
        }
    }
    lines
}

pub fn heading() {
    println!(
        "{:<29}{:>14}{:>14}{:>8}{:>12}{:>12}{:>10}",
        "phase", "library us", "reference us", "ratio", "lib MB/s", "ref MB/s", "scan MB/s"
    );
}

/// One row: the least time of an input on each side, and of a scan of the texts that it reads or writes. The sides and the
/// scan are measured by turns, so that what else the machine does meets all of them.
pub fn row<T, U, A, B>(
    phase: &str,
    runs: Runs,
    texts: &[Vec<u8>],
    ours: &[T],
    theirs: &[U],
    mut library: impl FnMut(&T) -> A,
    mut reference: impl FnMut(&U) -> B,
) {
    assert_eq!(ours.len(), theirs.len());
    let (mut first, mut second, mut scanned) = (f64::INFINITY, f64::INFINITY, f64::INFINITY);
    for _ in 0..runs.measured {
        first = first.min(measure(runs.together, ours, &mut library));
        second = second.min(measure(runs.together, theirs, &mut reference));
        scanned = scanned.min(measure(runs.together, texts, &mut |text| scan(text)));
    }
    let bytes: usize = texts.iter().map(Vec::len).sum();
    let rate = |seconds: f64, inputs: usize| bytes as f64 / (seconds * inputs as f64) / 1e6;
    println!(
        "{phase:<29}{:>14.2}{:>14.2}{:>8.2}{:>12.0}{:>12.0}{:>10.0}",
        first * 1e6,
        second * 1e6,
        first / second,
        rate(first, ours.len()),
        rate(second, theirs.len()),
        rate(scanned, texts.len())
    );
}

/// How many times as long as the second phase the first takes on the same inputs: the least time of each, measured by turns.
pub fn ratio<T, A, B>(
    runs: Runs,
    inputs: &[T],
    mut first: impl FnMut(&T) -> A,
    mut second: impl FnMut(&T) -> B,
) -> f64 {
    let (mut one, mut other) = (f64::INFINITY, f64::INFINITY);
    for _ in 0..runs.measured {
        one = one.min(measure(runs.together, inputs, &mut first));
        other = other.min(measure(runs.together, inputs, &mut second));
    }
    one / other
}
