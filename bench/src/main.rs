//! The library beside the second implementation, on the same inputs in the same order in one run: time by phase and their
//! ratio, bytes per second beside a plain scan for byte 10, and peak memory. A report, not a test.

mod held;
mod inputs;
mod measure;

use inputs::Ids;
use measure::{heading, row, Runs};
use std::hint::black_box;
use std::process::Command;

const VOLL: i64 = 900_000;
const FLOOR: i64 = 2_000_000;
const HOURS: u64 = 24_000;

/// How many different inputs a phase gets in turn: the branches of one that is repeated are learnt by the processor.
const DIFFERENT: u64 = 16;

/// A short phase is run often in one measurement, since the clock itself takes time.
const SHORT: Runs = Runs {
    together: 20,
    measured: 100,
};
const MIDDLE: Runs = Runs {
    together: 1,
    measured: 40,
};
const LONG: Runs = Runs {
    together: 1,
    measured: 4,
};

/// How many resources the snapshots have, how their ids look, and whether readings that count nowhere are marked.
const SNAPSHOTS: [(u64, Ids, bool, &str); 8] = [
    (1_500, Ids::Numbered, false, "resources"),
    (4_096, Ids::Numbered, false, "resources"),
    (1_024, Ids::Random, false, "ids at random"),
    (4_096, Ids::Random, false, "ids at random"),
    (1_024, Ids::Prefixed, false, "ids of one prefix"),
    (4_096, Ids::Prefixed, false, "ids of one prefix"),
    (1_500, Ids::Numbered, true, "resources, marks"),
    (4_096, Ids::Numbered, true, "resources, marks"),
];

/// Snapshots of one row, which are priced, read and written.
struct Snapshots {
    name: String,
    resources: usize,
    texts: Vec<Vec<u8>>,
}

impl Snapshots {
    fn of((count, ids, marks, name): (u64, Ids, bool, &str)) -> Snapshots {
        let plain = (0..DIFFERENT).map(|number| inputs::snapshot(count, ids, number));
        Snapshots {
            name: format!("{count} {name}"),
            resources: count as usize,
            texts: if marks {
                plain.map(|text| inputs::marked(&text)).collect()
            } else {
                plain.collect()
            },
        }
    }
}

fn booked_by_library(hours: &[Vec<u8>]) -> ordc::Record {
    let mut record = ordc::Record::default();
    for hour in hours {
        record.book(hour).expect("the hours are accepted");
    }
    record
}

fn booked_by_reference(hours: &[Vec<u8>]) -> reference::Record {
    let mut record = reference::Record::fresh();
    for hour in hours {
        record = reference::book(&record, hour).expect("the hours are accepted");
    }
    record
}

/// Snapshots whose reserves lie above X, so that N is evaluated for both probabilities.
fn price(curves: &ordc::CurveSet, plain: &reference::CurveSet, snapshots: &Snapshots) {
    let texts = &snapshots.texts;
    for text in texts {
        let ours = curves.price(text).expect("the snapshot is accepted");
        let theirs = reference::price_snapshot(plain, text).expect("the snapshot is accepted");
        assert_eq!(
            (ours.rs, ours.rsns, ours.online, ours.offline),
            (theirs.rs, theirs.rsns, theirs.online, theirs.offline)
        );
        assert!(ours.rs > FLOOR && ours.rsns > ours.rs);
        assert!(ours.pis > 0 && ours.pins > 0, "N is looked up in its table");
    }
    row(
        &format!("price {}", snapshots.name),
        MIDDLE,
        texts,
        texts,
        texts,
        |text| curves.price(text),
        |text| reference::price_snapshot(plain, text),
    );
}

/// Booking, and what follows from the booked hours: settling, and the texts and pages of the settled curves.
fn history() {
    let hours = inputs::hours(HOURS);
    row(
        &format!("book {HOURS} hours"),
        LONG,
        &hours,
        &[&hours],
        &[&hours],
        |hours| booked_by_library(hours),
        |hours| booked_by_reference(hours),
    );
    let parts = || hours.chunks((HOURS / DIFFERENT) as usize);
    let ours: Vec<_> = parts().map(booked_by_library).collect();
    let theirs: Vec<_> = parts().map(booked_by_reference).collect();
    let settled: Vec<_> = ours
        .iter()
        .map(|record| record.settle(VOLL, FLOOR).expect("the record is accepted"))
        .collect();
    let expected: Vec<_> = theirs
        .iter()
        .map(|record| reference::settle(record, VOLL, FLOOR).expect("the record is accepted"))
        .collect();
    let texts: Vec<_> = settled
        .iter()
        .map(|curves| curves.to_text().expect("the curves are accepted"))
        .collect();
    let (mut buffer, mut space) = ([0; ordc::CURVE_TEXT], [0; reference::WRITTEN_LIMIT]);
    for ((text, set), curves) in texts.iter().zip(&settled).zip(&expected) {
        let length =
            reference::write_curves(curves, &mut space).expect("the buffer is long enough");
        assert_eq!(text[..], space[..length]);
        assert_eq!(set.text_length(), Ok(length));
        assert_eq!(reference::curves_length(curves), Ok(length));
    }
    row(
        "settle 24 groups",
        SHORT,
        &texts,
        &ours,
        &theirs,
        |record| record.settle(VOLL, FLOOR),
        |record| reference::settle(record, VOLL, FLOOR),
    );
    row(
        "read curves",
        SHORT,
        &texts,
        &texts,
        &texts,
        |text| ordc::CurveSet::from_text(text),
        |text| reference::read_curves(text),
    );
    row(
        "curves length",
        SHORT,
        &texts,
        &settled,
        &expected,
        ordc::CurveSet::text_length,
        reference::curves_length,
    );
    row(
        "write curves",
        SHORT,
        &texts,
        &settled,
        &expected,
        |curves| curves.write_text(&mut buffer),
        |curves| reference::write_curves(curves, &mut space),
    );
    pages(&settled, &expected);
}

/// Pages of curves whose probabilities lie between 0 and 1, so that N is evaluated for each of them.
fn pages(settled: &[ordc::CurveSet], expected: &[reference::CurveSet]) {
    let (mut ours, mut theirs) = ([0; ordc::PAGE], [0; reference::PAGE_LENGTH]);
    let mut texts = Vec::new();
    for (set, curves) in settled.iter().zip(expected) {
        set.write_page(&mut ours).expect("the curves are accepted");
        reference::write_page(curves, &mut theirs).expect("the curves are accepted");
        assert_eq!(ours, theirs);
        for (mu, sigma) in curves.pairs {
            let least = reference::pi_ns(4_000_000, 0, mu, sigma);
            let most = reference::pi_ns(1_000_000, 0, mu, sigma);
            assert!(0 < least && most < reference::BILLION, "N is looked up");
        }
        texts.push(ours.to_vec());
    }
    row(
        "write page",
        SHORT,
        &texts,
        settled,
        expected,
        |curves| curves.write_page(&mut ours),
        |curves| reference::write_page(curves, &mut theirs),
    );
}

fn report() {
    reference::normal_table();
    let text = inputs::curve_text();
    let curves = ordc::CurveSet::from_text(&text).expect("the curves are accepted");
    let plain = reference::read_curves(&text).expect("the curves are accepted");
    heading();
    for each in SNAPSHOTS {
        price(&curves, &plain, &Snapshots::of(each));
    }
    let beside = SNAPSHOTS.map(|each| held::snapshots(&curves, &Snapshots::of(each)));
    history();
    println!("{}", held::heading());
    for line in beside {
        println!("{line}");
    }
}

/// The most memory that this process held, in kB.
fn peak() -> String {
    let status = std::fs::read_to_string("/proc/self/status").unwrap_or_default();
    let line = status.lines().find_map(|line| line.strip_prefix("VmHWM:"));
    line.map_or("unknown".into(), |rest| rest.trim().to_string())
}

/// Prices the large snapshot by one of the two alone and prints the peak.
fn memory(which: &str) {
    let text = inputs::curve_text();
    let snapshot = inputs::snapshot(4_096, Ids::Numbered, 0);
    match which {
        "library" => drop(black_box(
            ordc::CurveSet::from_text(&text).and_then(|curves| curves.price(&snapshot)),
        )),
        "reference" => drop(black_box(
            reference::read_curves(&text)
                .and_then(|curves| reference::price_snapshot(&curves, &snapshot)),
        )),
        _ => {}
    }
    println!("{}", peak());
}

fn main() {
    let arguments: Vec<String> = std::env::args().skip(1).collect();
    if let [flag, which] = &arguments[..] {
        if flag == "--memory" {
            return memory(which);
        }
    }
    report();
    println!(
        "\npeak memory, pricing 4096 resources in a process of its own (neither: the input alone)"
    );
    for which in ["neither", "library", "reference"] {
        let program = std::env::current_exe().expect("the program has a path");
        let output = Command::new(program)
            .args(["--memory", which])
            .output()
            .expect("the program runs");
        print!("{which:<29}{}", String::from_utf8_lossy(&output.stdout));
    }
}
