//! Texts and values that several tests use.
#![allow(dead_code)]

pub mod held;

use reference::{book, price_snapshot, CurveSet, Group, Record, Refusal, GROUPS};
use std::io::Write;
use std::process::{Command, Stdio};

pub fn refusal<T>(number: u32, line: u64) -> Result<T, Refusal> {
    Err(Refusal { number, line })
}

/// What a program prints for a refusal.
pub fn refused(number: u32, line: u64, text: &str) -> String {
    format!("refused={number}\nline={line}\ntext={text}\n")
}

/// Runs the command with this input; gives its output and its exit code.
pub fn run_command(arguments: &[&str], input: &[u8]) -> (Vec<u8>, Option<i32>) {
    let mut child = Command::new(env!("CARGO_BIN_EXE_reference"))
        .args(arguments)
        .stdin(Stdio::piped())
        .stdout(Stdio::piped())
        .stderr(Stdio::null())
        .spawn()
        .unwrap();
    // A command that has seen enough closes the pipe; that is no fault.
    let _ = child.stdin.take().unwrap().write_all(input);
    let output = child.wait_with_output().unwrap();
    (output.stdout, output.status.code())
}

/// A listing's text: its spaces and line breaks stand for byte 10.
pub fn text(listing: &str) -> String {
    listing
        .split_whitespace()
        .map(|line| format!("{line}\n"))
        .collect()
}

/// Replaces one whole line, which must stand in the text once.
pub fn with_line(text: &str, old: &str, new: &str) -> String {
    let old = format!("{old}\n");
    let framed = format!("\n{text}");
    assert_eq!(framed.matches(&format!("\n{old}")).count(), 1, "{old:?}");
    framed.replacen(&format!("\n{old}"), &format!("\n{new}\n"), 1)[1..].to_string()
}

/// Replaces the line with this number, counted from 1.
pub fn with_line_at(text: &str, line: usize, new: &str) -> String {
    let mut lines: Vec<&str> = text.lines().collect();
    lines[line - 1] = new;
    lines.iter().map(|line| format!("{line}\n")).collect()
}

/// The first `count` lines.
pub fn first_lines(text: &str, count: usize) -> String {
    text.split_inclusive('\n').take(count).collect()
}

/// An hour in the group of `month` and `hour` whose error is `error`.
pub fn hour_with_error(month: u32, hour: u32, error: i64) -> String {
    text(&format!(
        "month={month} hour={hour}
         ongen=0 load=0 tie={} ns=0 reg=0 rrs=0 nclr=0 offns=0 cold30=0 shed=0 runs=1
         hsl=0 base=0 rrs=0 nclr=0 reg=0 ns=0 offns=0 cold30=0 short=0",
        -error
    ))
}

/// A month and an hour of each group, in the groups' order. The hours are the
/// first ones of the blocks.
pub fn month_and_hour_of_groups() -> impl Iterator<Item = (u32, u32)> {
    [1, 4, 7, 10]
        .into_iter()
        .flat_map(|month| [22, 2, 6, 10, 14, 18].map(|hour| (month, hour)))
}

/// The hours that book each of these errors once in every group.
pub fn hours_with_errors(errors: &[i64]) -> Vec<String> {
    month_and_hour_of_groups()
        .flat_map(|(month, hour)| {
            errors
                .iter()
                .map(move |&error| hour_with_error(month, hour, error))
        })
        .collect()
}

/// A record in which every group has these errors.
pub fn record_of_errors(errors: &[i64]) -> Record {
    hours_with_errors(errors)
        .iter()
        .fold(Record::fresh(), |record, hour| {
            book(&record, hour.as_bytes()).unwrap()
        })
}

/// A fresh record but for its group 5.
pub fn record_of_group(count: u64, sum: i64, squares: i64) -> Record {
    let mut record = Record::fresh();
    record.groups[5] = Group {
        count,
        sum,
        squares,
    };
    record
}

/// The curves of the worked example.
pub fn example_curves() -> CurveSet {
    CurveSet {
        voll: 900_000,
        floor: 2_000_000,
        pairs: [(0, 1_000_000); GROUPS],
    }
}

pub fn example_curve_text() -> String {
    text("voll=900000 floor=2000000") + &text("mu=0 sigma=1000000").repeat(GROUPS)
}

/// The snapshot of the worked example.
pub fn example_snapshot() -> String {
    text(
        "month=7 hour=14 lambda=2500 factor=10000 prc=3000000 eea1=2300000 short=0 count=3
         id=A kind=gen status=ON net=200000 lsl=100000 hsl=2000000 base=200000 nonspin=0 cold30=0
         id=B kind=gen status=ON net=95000 lsl=100000 hsl=1000000 base=93000 nonspin=0 cold30=0
         id=C kind=gen status=OFFNS net=0 lsl=0 hsl=293000 base=0 nonspin=0 cold30=0",
    )
}

/// A snapshot of these resources, with factor 1, PRC above EEA Level 1 and
/// nothing short.
pub fn snapshot_of(resources: &[&str]) -> String {
    let header = text("month=7 hour=14 lambda=0 factor=10000 prc=1 eea1=0 short=0");
    let count = format!("count={}\n", resources.len());
    let resources: String = resources.iter().map(|resource| text(resource)).collect();
    header + &count + &resources
}

/// The group that an hour of this month and hour changes in a fresh record.
pub fn group_booked(month: u32, hour: u32) -> usize {
    let text = hour_with_error(month, hour, -5);
    let record = book(&Record::fresh(), text.as_bytes()).unwrap();
    let changed: Vec<usize> = (0..GROUPS)
        .filter(|&group| record.groups[group] != Group::default())
        .collect();
    let [group] = changed[..] else {
        panic!("month {month}, hour {hour} changed the groups {changed:?}");
    };
    let expected = Group {
        count: 1,
        sum: -5,
        squares: 25,
    };
    assert_eq!(record.groups[group], expected);
    group
}

/// The group whose pair prices a snapshot of this month and hour.
///
/// The load holds 500 kW on line and 1000 kW in all, X is 0, and group g has
/// the mean 1000 - g and the spread 2400. The fractions are then
/// 50000 × g / (707 × 2400) for piS and 100 × g / 2400 for piNS. They lie from
/// 0 up to below 1, between the knots T(0) 500000000 and T(1) 503989356, so
/// each group gives shares of its own.
pub fn group_priced(month: u32, hour: u32) -> usize {
    let curves = CurveSet {
        floor: 0,
        pairs: std::array::from_fn(|group| (1000 - group as i64, 2400)),
        ..example_curves()
    };
    let load = "id=L kind=clr base=1000 lpc=0 nonspin=500 regup=0";
    let snapshot = with_line(&snapshot_of(&[load]), "month=7", &format!("month={month}"));
    let snapshot = with_line(&snapshot, "hour=14", &format!("hour={hour}"));
    let prices = price_snapshot(&curves, snapshot.as_bytes()).unwrap();
    assert_eq!((prices.rs, prices.rsns), (500, 1000));
    let shares = |group: usize| {
        let group = group as i64;
        let pis = 500_000_000 - 3_989_356 * 50_000 * group / (707 * 2400);
        let pins = 500_000_000 - 3_989_356 * 100 * group / 2400;
        (pis, pins)
    };
    let used: Vec<usize> = (0..GROUPS)
        .filter(|&group| shares(group) == (prices.pis, prices.pins))
        .collect();
    let [group] = used[..] else {
        panic!("month {month}, hour {hour} may have used the pairs {used:?}");
    };
    group
}

/// Numbers that look random and are the same in every run.
pub struct Random(pub u64);

impl Random {
    pub fn below(&mut self, limit: u64) -> u64 {
        self.0 = self
            .0
            .wrapping_mul(6_364_136_223_846_793_005)
            .wrapping_add(1);
        (self.0 >> 33) % limit
    }
}
