//! Cases of reading a snapshot's text into values.

use crate::price::*;
use crate::texts::*;
use crate::{Case, Input, Random, Text};
use reference::{ID_ROW, NUMBER_ROW};

pub fn add(cases: &mut Vec<Case>, random: &mut Random) {
    damaged_lines(cases);
    bytes_follow(cases);
    repeated(cases);
    counts(cases);
    lengths(cases);
    spaces(cases);
    words(cases);
    ids(cases);
    bounds(cases);
    random_texts(cases, random);
}

/// The text read into space of so many bytes and numbers.
pub fn read(text: impl Into<Text>, ids: usize, numbers: usize) -> Input {
    let text = text.into();
    Input::ReadValues { text, ids, numbers }
}

/// The text read into space for so many resources.
pub fn into_rows(text: impl Into<Text>, rows: usize) -> Input {
    read(text, rows * ID_ROW, rows * NUMBER_ROW)
}

/// The case of a text with space for three resources, and with none: what the
/// text itself is refused for comes first.
fn with_and_without_space(cases: &mut Vec<Case>, label: impl Into<String>, text: impl Into<Text>) {
    let (label, text) = (label.into(), text.into());
    cases.case(format!("values, {label}"), into_rows(text.clone(), 3));
    let label = format!("values, 14 comes last: {label}");
    cases.case(label, into_rows(text, 0));
}

/// Every line damaged in every way, and some of them where there is no space.
fn damaged_lines(cases: &mut Vec<Case>) {
    let (lines, dues) = one_of_each();
    for (at, &due) in (1..).zip(&dues) {
        for (label, text) in damages(&lines, at, due) {
            if matches!(at, 1 | 5 | 8 | 9 | 11 | 17 | 19 | 24 | 29) {
                with_and_without_space(cases, label, text);
            } else {
                cases.case(format!("values, {label}"), into_rows(text, 3));
            }
        }
    }
    for (key, due) in [
        ("id", Due::Id),
        ("kind", Due::Kind),
        ("status", Due::Status),
    ] {
        let at = line_of(&lines, 9, key);
        for turn in 0..10 {
            let bad = bad_value(due, turn);
            let text = bytes(&with_value(&lines, at, bad));
            cases.case(format!("values, {key} {bad:?}"), into_rows(text, 3));
        }
    }
    with_and_without_space(cases, "no byte at all", "");
    // A resource of one kind with the lines of another.
    for (at, kind) in [(10, "clr"), (10, "nclr"), (19, "nclr"), (25, "wind")] {
        let text = bytes(&with_value(&lines, at, kind));
        with_and_without_space(cases, format!("line {at} kind {kind}"), text);
    }
}

fn bytes_follow(cases: &mut Vec<Case>) {
    let (lines, _) = one_of_each();
    for more in ["\n", "x", "id=D\n", "\0"] {
        let text = Text::from(bytes(&lines)).then(1, more);
        with_and_without_space(cases, format!("bytes {more:?} follow the resources"), text);
        let text = Text::from(bytes(&snapshot(&HEADER, &[]))).then(1, more);
        with_and_without_space(cases, format!("bytes {more:?} follow the header"), text);
    }
}

fn repeated(cases: &mut Vec<Case>) {
    let sixteen = "ABCDEFGHIJKLMNOP";
    for ids in [
        &["A", "A"][..],
        &["A", "B", "A"],
        &["A", "B", "B"],
        &["A", "B", "C", "D", "E", "F", "G", "C"],
        &[sixteen, "A", sixteen],
        &[sixteen, "ABCDEFGHIJKLMNO", "ABCDEFGHIJKLMNOQ"],
    ] {
        let loads: Vec<String> = ids.iter().map(|id| nclr(id, 1, 5, 1, 2)).collect();
        let text = bytes(&snapshot(&HEADER, &loads));
        with_and_without_space(cases, format!("ids {}", ids.join(" ")), text);
    }
    let text = bytes(&listing(
        "month=7 hour=14 lambda=0 factor=0 prc=0 eea1=0 short=0 count=2
         id=A kind=nclr rrsok=0 net=0 lpc=0 rrs=0 id=A kind=none",
    ));
    with_and_without_space(cases, "8 comes before the next line's 6", text);
}

/// Texts that say another number of resources than they have.
fn counts(cases: &mut Vec<Case>) {
    let (lines, _) = one_of_each();
    for count in [0, 1, 2, 4, 4096, 4097] {
        let text = bytes(&with_value(&lines, 8, &count.to_string()));
        with_and_without_space(cases, format!("3 resources, said to be {count}"), text);
    }
}

fn lengths(cases: &mut Vec<Case>) {
    let header = bytes(&snapshot(&HEADER, &[]));
    let room = SNAPSHOT_LIMIT - header.len();
    for (name, length) in [("at", room), ("one over", room + 1)] {
        let text = Text::from(header.clone()).then(length, "x");
        with_and_without_space(cases, format!("a text {name} its limit of bytes"), text);
    }
    let text = Text::from("month=").then(1000, "9").then(1, "\n");
    with_and_without_space(cases, "a number of 1000 digits", text);
}

/// Space for fewer resources, for just as many and for more, and space that is
/// left over.
fn spaces(cases: &mut Vec<Case>) {
    let (lines, _) = one_of_each();
    let mut case = |ids: usize, numbers: usize| {
        let label = format!("3 resources into {ids} bytes and {numbers} numbers");
        cases.case(label, read(bytes(&lines), ids, numbers));
    };
    for ids in [0, 1, 16, 31, 32, 64, 95, 96, 97, 112, 127, 128, 160] {
        case(ids, 3 * NUMBER_ROW);
    }
    for numbers in [0, 1, 8, 9, 18, 26, 27, 28, 35, 36, 45] {
        case(3 * ID_ROW, numbers);
    }
    for (ids, numbers) in [(95, 26), (0, 0), (127, 35), (64, 1000), (5000, 26)] {
        case(ids, numbers);
    }
    let header = bytes(&snapshot(&HEADER, &[]));
    for (ids, numbers) in [(0, 0), (1, 0), (0, 1), (31, 8), (32, 9), (320, 90)] {
        let label = format!("no resource into {ids} bytes and {numbers} numbers");
        cases.case(label, read(header.clone(), ids, numbers));
    }
}

/// Every kind and status.
fn words(cases: &mut Vec<Case>) {
    for kind in ["gen", "wind", "irr", "nuke"] {
        for status in STATUSES {
            let unit = generator("A", kind, status, [-1, 2, 3, 4, 5, 1]);
            let text = bytes(&snapshot(&HEADER, &[unit]));
            let label = format!("values of a {kind} that is {status}");
            cases.case(label, into_rows(text, 1));
        }
    }
}

pub const STATUSES: [&str; 7] = ["ON", "OFF", "OFFNS", "ONTEST", "STARTUP", "SHUTDOWN", "OUT"];

/// Ids of every length, and the bounds of their bytes.
fn ids(cases: &mut Vec<Case>) {
    let sixteen = "AZ09_BCDEFGHIJKL";
    for length in 1..=16 {
        let id = &sixteen[..length];
        let text = bytes(&snapshot(&HEADER, &[clr(id, 1, 2, 3, 4)]));
        cases.case(format!("values, id {id}"), into_rows(text, 1));
    }
}

/// Every bound of every field, and one inside it.
fn bounds(cases: &mut Vec<Case>) {
    let (lines, dues) = one_of_each();
    for (at, due) in (1..).zip(&dues) {
        let Due::Number(low, high) = *due else {
            continue;
        };
        if at == 8 {
            continue;
        }
        let key = lines[at - 1].split('=').next().unwrap_or_default();
        let mut values = vec![low, low + 1, high - 1, high];
        values.dedup();
        for value in values {
            let text = bytes(&with_value(&lines, at, &value.to_string()));
            let label = format!("values, line {at} {key} at {value}");
            cases.case(label, into_rows(text, 3));
        }
    }
}

/// The text of a random snapshot of up to so many resources.
pub fn random_text(random: &mut Random, most: i64) -> Lines {
    let resources: Vec<String> = (0..random.within(0, most))
        .map(|place| random_resource(random, &format!("R{place}")))
        .collect();
    let header = Header {
        month: random.within(1, 12),
        hour: random.within(0, 23),
        lambda: random.within(-POWER, POWER),
        factor: random.within(0, 10_000),
        prc: random.within(0, 200_000_000),
        eea1: random.within(0, 200_000_000),
        short: random.within(0, 200_000_000),
    };
    snapshot(&header, &resources)
}

fn random_texts(cases: &mut Vec<Case>, random: &mut Random) {
    for number in 0..50 {
        let lines = random_text(random, 5);
        let mut text = bytes(&lines);
        if random.one_in(8) {
            let at = random.place(lines.len()) + 1;
            let mut all = damages(&lines, at, Due::Number(-POWER, 200_000_000));
            let one = random.place(all.len());
            text = all.swap_remove(one).1;
        }
        let rows = random.within(3, 6) as usize;
        let ids = rows * ID_ROW + random.place(ID_ROW);
        let numbers = rows * NUMBER_ROW + random.place(NUMBER_ROW);
        let label = format!("values of a random text {number}");
        cases.case(label, read(text, ids, numbers));
    }
}
