//! Cases of numbers that are marked suspect (W-206), in texts. Those of values
//! that are written stand in `marked_values`, but for the units, which go
//! through every operation together.

use crate::book::hour_with_error;
use crate::curve_text::curve_lines;
use crate::held::MARKS;
use crate::price::*;
use crate::programs::{fed, one_hour, program, SETTINGS};
use crate::read_values::{into_rows, STATUSES};
use crate::texts::*;
use crate::write_values::{number, Writing};
use crate::{Case, Input, Text};
use reference::{read_snapshot, CurveSet, Record};

pub fn add(cases: &mut Vec<Case>) {
    units(cases);
    loads(cases);
    forms(cases);
    ranges(cases);
    first_lines(cases);
    pairs(cases);
    not_markable(cases);
    other_texts(cases);
    with_faults(cases);
    with_repeated_ids(cases);
    with_bytes_after(cases);
    without_space(cases);
    programs(cases);
}

pub const GENERATOR_KEYS: [&str; 6] = ["net", "lsl", "hsl", "base", "nonspin", "cold30"];
const CLR_KEYS: [&str; 4] = ["base", "lpc", "nonspin", "regup"];
const NCLR_KEYS: [&str; 4] = ["rrsok", "net", "lpc", "rrs"];

/// The marks of every number of a generator that can have one.
pub const EVERY_NUMBER: i64 = 0b1_1111;

/// The lines with a mark at the end of some, counted from 1.
pub fn marked(lines: &[String], at: &[usize]) -> Lines {
    let mut lines = lines.to_vec();
    for at in at {
        lines[at - 1].push('?');
    }
    lines
}

/// The lines at which the numbers stand whose marks are set; `first` is the line
/// of the first number.
fn lines_of(marks: i64, first: usize) -> Vec<usize> {
    let set = (0..6).filter(|place| marks >> place & 1 == 1);
    set.map(|place| first + place).collect()
}

/// The case of a text priced, and read into space for so many resources.
fn priced_and_read(cases: &mut Vec<Case>, label: &str, text: impl Into<Text>, rows: usize) {
    let text = text.into();
    cases.case(label, priced(curves(), text.clone()));
    cases.case(format!("values, {label}"), into_rows(text, rows));
}

/// A load that counts, so that what stands after it is not at the first line that
/// it could have, and there is a price.
fn beside_a_load(resource: &str) -> Lines {
    snapshot(&HEADER, &[clr("FIRST", 500, 0, 0, 0), resource.to_string()])
}

/// One resource beside a load, with each of these marks: priced, read, and
/// written from values. `first` is the line of its first number.
fn each_mark(cases: &mut Vec<Case>, name: &str, resource: &str, first: usize, all: &[(&str, i64)]) {
    let lines = beside_a_load(resource);
    let text = |marks| bytes(&marked(&lines, &lines_of(marks, first)));
    let small = curves_of(900_000, 0, 0, 1000);
    for &(key, marks) in all {
        let label = format!("{name}, {key} marked");
        cases.case(label, priced(small, text(marks)));
    }
    for &(key, marks) in all {
        let label = format!("values, {name}, {key} marked");
        cases.case(label, into_rows(text(marks), 2));
    }
    for &(key, marks) in all {
        let label = format!("written, {name}, {key} marked");
        let writing = Writing::of(bytes(&lines), 2).edited(&[number(1, MARKS, marks)]);
        cases.case(label, writing.written_marked());
    }
}

/// Every kind and status, cold30, Non-Spin and side of the 95 percent, with a
/// mark on each number and on every one.
fn units(cases: &mut Vec<Case>) {
    for kind in ["gen", "wind", "irr", "nuke"] {
        for status in STATUSES {
            for cold30 in [0, 1] {
                for nonspin in [0, 70] {
                    for net in [190, 189] {
                        let numbers = [net, 200, 1000, 300, nonspin, cold30];
                        unit(cases, kind, status, numbers);
                    }
                }
            }
        }
    }
}

fn unit(cases: &mut Vec<Case>, kind: &str, status: &str, numbers: [i64; 6]) {
    let [net, _, _, _, nonspin, cold30] = numbers;
    let name = format!("{kind} {status} cold30 {cold30} nonspin {nonspin} net {net} of 200");
    let unit = generator("A", kind, status, numbers);
    let mut all: Vec<(&str, i64)> = (0..6)
        .map(|place| (GENERATOR_KEYS[place], 1 << place))
        .collect();
    all.push(("every number", EVERY_NUMBER));
    each_mark(cases, &name, &unit, 18, &all);
    let lines = beside_a_load(&unit);
    let text = bytes(&marked(&lines, &lines_of(EVERY_NUMBER, 18)));
    if read_snapshot(&text).is_ok() {
        let label = format!("written, {name}, every number marked in the text");
        cases.case(label, Writing::of(text, 2).written_marked());
    }
}

/// Every load enters a sum, also one that adds 0.
fn loads(cases: &mut Vec<Case>) {
    for (name, load, keys) in [
        ("clr", clr("A", 9, 2, 1, 3), CLR_KEYS),
        ("clr of zeros", clr("A", 0, 0, 0, 0), CLR_KEYS),
        ("nclr rrsok 1", nclr("A", 1, 20, 4, 9), NCLR_KEYS),
        ("nclr rrsok 0", nclr("A", 0, 20, 4, 9), NCLR_KEYS),
        ("nclr of zeros", nclr("A", 0, 0, 0, 0), NCLR_KEYS),
    ] {
        let all: Vec<(&str, i64)> = (0..4).map(|place| (keys[place], 1 << place)).collect();
        each_mark(cases, name, &load, 17, &all);
    }
}

/// A unit on which a mark is fine, then one of each form. Their numbers begin at
/// the lines 12, 21, 29 and 35.
fn fine_and_one_of_each() -> Lines {
    snapshot(
        &HEADER,
        &[
            generator("F", "gen", "ONTEST", [9, 5, 80, 7, 1, 0]),
            generator("A", "gen", "ON", [9, 5, 80, 7, 1, 0]),
            clr("B", 9, 2, 1, 3),
            nclr("C", 1, 20, 4, 9),
        ],
    )
}

/// The numbers of those resources, each with its line and range.
fn number_lines() -> Vec<(usize, i64, i64)> {
    let mut all = Vec::new();
    for first in [12, 21] {
        all.push((first, -POWER, POWER));
        all.extend((first + 1..first + 5).map(|at| (at, 0, POWER)));
        all.push((first + 5, 0, 1));
    }
    all.extend((29..33).map(|at| (at, 0, POWER)));
    all.push((35, 0, 1));
    all.extend((36..39).map(|at| (at, 0, POWER)));
    all
}

/// The lines among those whose number can be marked: all but the flags.
fn markable_lines() -> Vec<(usize, i64, i64)> {
    let numbers = number_lines().into_iter();
    numbers.filter(|&(_, _, high)| high > 1).collect()
}

/// Well written with a mark, and badly written.
const FORMS: [&str; 28] = [
    "0?", "5?", "-5?", "2000000?", "?", "-?", "??", "5??", "?5", "-0?", "05?", "00?", "-05?",
    "+5?", " 5?", "5 ?", "5? ", "5?\r", "5?5", "-5??", "?-5", "--5?", "5-?", "5.0?", "x?", "5?x",
    "5!", "5?\0",
];

/// Every form on every number, read; and some of them priced.
fn forms(cases: &mut Vec<Case>) {
    let lines = fine_and_one_of_each();
    for (at, _, _) in number_lines() {
        for form in FORMS {
            let text = bytes(&with_value(&lines, at, form));
            let label = format!("line {at} written {form:?}");
            if [12, 14, 21, 29, 36].contains(&at) {
                priced_and_read(cases, &label, text, 4);
            } else {
                cases.case(format!("values, {label}"), into_rows(text, 4));
            }
        }
    }
}

/// Marked numbers at their bounds and one beyond, and very long ones.
fn ranges(cases: &mut Vec<Case>) {
    let lines = fine_and_one_of_each();
    for (at, low, high) in markable_lines() {
        for value in [low - 1, low, high, high + 1] {
            let text = bytes(&with_value(&lines, at, &format!("{value}?")));
            let label = format!("line {at} marked at {value}");
            priced_and_read(cases, &label, text, 4);
        }
    }
    for at in [12, 16, 21, 38] {
        for sign in ["", "-"] {
            let value = format!("{sign}{}?", "9".repeat(1000));
            let text = bytes(&with_value(&lines, at, &value));
            let label = format!("line {at} marked, {sign}1000 digits");
            priced_and_read(cases, &label, text, 4);
        }
    }
}

/// The first line that can have a mark, by the kind of the first resource.
fn first_lines(cases: &mut Vec<Case>) {
    for (name, resource, at) in [
        ("clr", clr("B", 9, 2, 1, 3), 11),
        ("nclr", nclr("C", 1, 20, 4, 9), 12),
        ("gen", generator("A", "gen", "ON", [9, 5, 80, 7, 1, 0]), 12),
        (
            "wind",
            generator("A", "wind", "OFFNS", [9, 5, 80, 7, 1, 0]),
            12,
        ),
    ] {
        let lines = snapshot(&HEADER, &[resource]);
        let label = format!("a first {name} with a mark on line {at}");
        priced_and_read(cases, &label, bytes(&marked(&lines, &[at])), 1);
    }
}

/// Marks on any two numbers, on all of the unit where they are fine, and on all.
fn pairs(cases: &mut Vec<Case>) {
    let lines = fine_and_one_of_each();
    let all: Vec<usize> = markable_lines().iter().map(|&(at, _, _)| at).collect();
    for (place, &first) in all.iter().enumerate() {
        for &second in &all[place + 1..] {
            let text = bytes(&marked(&lines, &[first, second]));
            let label = format!("marks on the lines {first} and {second}");
            if (first + second) % 4 == 1 {
                priced_and_read(cases, &label, text, 4);
            } else {
                cases.case(format!("values, {label}"), into_rows(text, 4));
            }
        }
    }
    let text = bytes(&marked(&lines, &all[..5]));
    priced_and_read(cases, "marks on every line of the first unit", text, 4);
    let text = bytes(&marked(&lines, &all));
    priced_and_read(cases, "marks on every line that can have one", text, 4);
}

/// A mark where none can be: in the header, in words and in flags; and a mark in
/// the key.
fn not_markable(cases: &mut Vec<Case>) {
    let (lines, dues) = one_of_each();
    for (at, due) in (1..).zip(&dues) {
        let (key, value) = lines[at - 1].split_once('=').unwrap_or_default();
        if at > 8 && !matches!(due, Due::Number(_, 1) | Due::Id | Due::Kind | Due::Status) {
            let mut lines = lines.clone();
            lines[at - 1] = format!("{key}?={value}");
            let label = format!("line {at} {key}: a mark on the key");
            priced_and_read(cases, &label, bytes(&lines), 3);
            continue;
        }
        for form in [
            format!("{value}?"),
            "?".to_string(),
            format!("?{value}"),
            format!("{value}??"),
        ] {
            let text = bytes(&with_value(&lines, at, &form));
            let label = format!("line {at} {key} can have no mark, written {form:?}");
            priced_and_read(cases, &label, text, 3);
        }
    }
}

/// Hours and curve texts know no marks.
fn other_texts(cases: &mut Vec<Case>) {
    let hour = hour_with_error(7);
    for at in 1..=hour.len() {
        let text = Text::from(bytes(&marked(&hour, &[at])));
        let record = Record::fresh();
        let label = format!("hour with a mark on line {at}");
        cases.case(label, Input::Book { record, text });
    }
    let set = curve_lines(&curves());
    for at in 1..=set.len() {
        let text = Text::from(bytes(&marked(&set, &[at])));
        let label = format!("curve text with a mark on line {at}");
        cases.case(label, Input::Read { text });
    }
    for at in [1, 2, 3, 26, 50] {
        let text = Text::from(bytes(&marked(&set, &[at])));
        let label = format!("page: a mark on line {at}");
        cases.case(label, Input::PageProgram { text });
    }
    let settings = listing(SETTINGS);
    for at in [1, 2] {
        let text = [bytes(&marked(&settings, &[at])), one_hour()].concat();
        cases.case(format!("curves: a mark on line {at}"), fed(text));
    }
    for at in [1, 13, 22] {
        let text = [bytes(&settings), bytes(&marked(&hour, &[at]))].concat();
        cases.case(format!("curves: a mark on line {at} of an hour"), fed(text));
    }
}

/// Every fault of every line beside a mark that would be refused: the fault comes
/// first, be it above the mark or below it.
fn with_faults(cases: &mut Vec<Case>) {
    let (lines, dues) = one_of_each();
    for mark in [12, 16, 29] {
        let lines = marked(&lines, &[mark]);
        for (at, &due) in (1..).zip(&dues) {
            for (label, text) in damages(&lines, at, due) {
                let label = format!("a mark on line {mark}, and {label}");
                if mark == 16 {
                    cases.case(label, priced(curves(), text));
                } else {
                    cases.case(format!("values, {label}"), into_rows(text, 3));
                }
            }
        }
    }
}

fn with_repeated_ids(cases: &mut Vec<Case>) {
    let (lines, _) = one_of_each();
    for mark in [12, 16, 20, 23, 27, 29] {
        for (at, id) in [(18, "A"), (24, "A"), (24, "B")] {
            let text = bytes(&marked(&with_value(&lines, at, id), &[mark]));
            let label = format!("a mark on line {mark}, the id {id} again on line {at}");
            priced_and_read(cases, &label, text, 3);
        }
    }
}

/// 9 and 2 come before 15, and 1 does.
fn with_bytes_after(cases: &mut Vec<Case>) {
    let (lines, _) = one_of_each();
    for mark in [12, 29] {
        let text = Text::from(bytes(&marked(&lines, &[mark])));
        for more in ["\n", "x", "id=D\n", "?", "?\n"] {
            let label = format!("a mark on line {mark}, bytes {more:?} follow");
            priced_and_read(cases, &label, text.clone().then(1, more), 3);
        }
        for count in [0, 1, 2, 4] {
            let lines = with_value(&lines, 8, &count.to_string());
            let text = bytes(&marked(&lines, &[mark]));
            let label = format!("a mark on line {mark}, 3 resources said to be {count}");
            priced_and_read(cases, &label, text, 3);
        }
        let room = SNAPSHOT_LIMIT - text.bytes().len();
        for (name, length) in [("at", room), ("one over", room + 1)] {
            let label = format!("a mark on line {mark}, a text {name} its limit of bytes");
            priced_and_read(cases, &label, text.clone().then(length, "?"), 3);
        }
        let impossible = CurveSet {
            voll: -1,
            ..curves()
        };
        let label = format!("a mark on line {mark}, 1 comes first");
        cases.case(label, priced(impossible, text));
    }
}

/// 15 comes before 14, which comes where the marks are fine.
fn without_space(cases: &mut Vec<Case>) {
    let lines = fine_and_one_of_each();
    for mark in [12, 16, 21, 25, 29, 32, 36, 38] {
        let text = bytes(&marked(&lines, &[mark]));
        for rows in [0, 3, 4, 5] {
            let label = format!("a mark on line {mark}, into {rows} rows");
            cases.case(label, into_rows(text.clone(), rows));
        }
    }
}

/// The program `price`: each line of both of its texts with a mark, then each kind
/// and status.
fn programs(cases: &mut Vec<Case>) {
    let set = curve_lines(&curves());
    let on_curves = |lines: &[String]| [bytes(&set), b"\n".to_vec(), bytes(lines)].concat();
    let lines = example();
    for at in 1..=lines.len() {
        let text = on_curves(&marked(&lines, &[at]));
        let label = format!("price: the worked example, a mark on line {at}");
        cases.case(label, program(text));
    }
    for at in [1, 2, 3, 4, 49, 50] {
        let text = [bytes(&marked(&set, &[at])), b"\n".to_vec(), bytes(&lines)].concat();
        let label = format!("price: a mark on line {at} of the curves");
        cases.case(label, program(text));
    }
    for kind in ["gen", "wind", "irr", "nuke"] {
        for status in STATUSES {
            for cold30 in [0, 1] {
                let unit = generator("A", kind, status, [190, 200, 1000, 300, 0, cold30]);
                let text = on_curves(&marked(&beside_a_load(&unit), &[20]));
                let label = format!("price: {kind} {status} cold30 {cold30}, hsl marked");
                cases.case(label, program(text));
            }
        }
    }
}
