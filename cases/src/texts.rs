//! Texts, line by line, and ways to damage a line.

use crate::{Case, Input};
use reference::{CurveSet, Group, Record, GROUPS};

pub type Lines = Vec<String>;

/// The text of these lines, each with its byte 10.
pub fn bytes(lines: &[String]) -> Vec<u8> {
    lines
        .iter()
        .flat_map(|line| line.bytes().chain([b'\n']))
        .collect()
}

/// A listing's lines: its spaces and line breaks stand for byte 10.
pub fn listing(text: &str) -> Lines {
    text.split_whitespace().map(str::to_string).collect()
}

/// The lines with one of them given another value; `at` is counted from 1.
pub fn with_value(lines: &[String], at: usize, value: &str) -> Lines {
    let mut lines = lines.to_vec();
    let (key, _) = lines[at - 1].split_once('=').expect("a line has a key");
    lines[at - 1] = format!("{key}={value}");
    lines
}

/// The place, counted from 1, of the first line from `from` on with this key.
pub fn line_of(lines: &[String], from: usize, key: &str) -> usize {
    let starts = format!("{key}=");
    let place = lines[from - 1..]
        .iter()
        .position(|line| line.starts_with(&starts));
    place.expect("the key is there") + from
}

/// What a line's value may be.
#[derive(Clone, Copy, Debug, PartialEq, Eq)]
pub enum Due {
    Number(i64, i64),
    Id,
    Kind,
    Status,
}

const BAD_NUMBERS: [&str; 16] = [
    "-", "-0", "00", "01", "+1", " 1", "1 ", "1\r", "1.0", "1e1", "--1", "x", "0x1", "1-", "1,0",
    "-01",
];
const BAD_IDS: [&str; 10] = [
    "a",
    "A-",
    "A ",
    "A.B",
    "@",
    "[",
    "/",
    ":",
    "`",
    "ABCDEFGHIJKLMNOPQ",
];
const BAD_KINDS: [&str; 6] = ["Gen", "ge", "genn", "load", "NUKE", "gen "];
const BAD_STATUSES: [&str; 8] = ["on", "O", "ONN", "OFFN", "OFFNSX", "START", " ON", "0"];

/// A badly written value; which one is told by `turn`.
pub fn bad_value(due: Due, turn: usize) -> &'static str {
    let all: &[&str] = match due {
        Due::Number(..) => &BAD_NUMBERS,
        Due::Id => &BAD_IDS,
        Due::Kind => &BAD_KINDS,
        Due::Status => &BAD_STATUSES,
    };
    all[turn % all.len()]
}

/// Every damage of one line, by 3 to 7 and in their order; `at` counts from 1.
pub fn damages(lines: &[String], at: usize, due: Due) -> Vec<(String, Vec<u8>)> {
    let line = &lines[at - 1];
    let (key, value) = line.split_once('=').expect("a line has a key");
    let replaced = |new: String| {
        let mut lines = lines.to_vec();
        lines[at - 1] = new;
        bytes(&lines)
    };
    let above = bytes(&lines[..at - 1]);
    let unended = [above.clone(), line.clone().into_bytes()].concat();
    let wrong_key = match at % 4 {
        0 => format!("{key}{value}"),
        1 => format!("{key}s={value}"),
        2 => format!(" {key}={value}"),
        _ => format!("{}={value}", &key[1..]),
    };
    let bad = bad_value(due, at);
    let mut all = vec![
        ("absent".to_string(), above),
        ("lacks its byte 10".to_string(), unended),
        ("wrong key".to_string(), replaced(wrong_key)),
        ("empty line".to_string(), replaced(String::new())),
        ("empty value".to_string(), replaced(format!("{key}="))),
        (
            "badly written".to_string(),
            replaced(format!("{key}={bad}")),
        ),
    ];
    if let Due::Number(low, high) = due {
        for (name, beyond) in [("below", low - 1), ("above", high + 1)] {
            let text = replaced(format!("{key}={beyond}"));
            all.push((format!("{name} its range"), text));
        }
    }
    for (label, _) in &mut all {
        *label = format!("line {at} {key}: {label}");
    }
    all
}

/// The cases so far, and a short way to add one.
pub trait Add {
    fn case(&mut self, label: impl Into<String>, input: Input);
}

impl Add for Vec<Case> {
    fn case(&mut self, label: impl Into<String>, input: Input) {
        let label = label.into();
        self.push(Case { label, input });
    }
}

/// The group of these errors.
pub fn group(errors: &[i64]) -> Group {
    Group {
        count: errors.len() as u64,
        sum: errors.iter().sum(),
        squares: errors.iter().map(|error| error * error).sum(),
    }
}

/// A record of equal groups.
pub fn record_of(group: Group) -> Record {
    Record {
        groups: [group; GROUPS],
    }
}

/// The record with one group replaced.
pub fn with_group(mut record: Record, place: usize, group: Group) -> Record {
    record.groups[place] = group;
    record
}

/// A curve set of equal pairs.
pub fn curves_of(voll: i64, floor: i64, mu: i64, sigma: i64) -> CurveSet {
    CurveSet {
        voll,
        floor,
        pairs: [(mu, sigma); GROUPS],
    }
}

/// Groups that no list of errors can have, or no record may.
pub fn impossible_groups() -> Vec<(&'static str, Group)> {
    let group = |count, sum, squares| Group {
        count,
        sum,
        squares,
    };
    let most = 20_000_000;
    vec![
        ("count 1001", group(1001, 0, 0)),
        ("count far too large", group(i64::MAX as u64, 0, 0)),
        (
            "sum above its bound",
            group(2, 2 * most + 1, 2 * most * most),
        ),
        (
            "sum below its bound",
            group(2, -2 * most - 1, 2 * most * most),
        ),
        ("sum far too large", group(1, i64::MAX, 1)),
        ("sum far too small", group(1, -i64::MAX, 1)),
        ("sum without hours", group(0, 1, 0)),
        ("squares without hours", group(0, 0, 1)),
        ("squares below 0", group(2, 0, -1)),
        ("squares far below 0", group(2, 0, -i64::MAX)),
        (
            "squares above their bound",
            group(2, 0, 2 * most * most + 1),
        ),
        ("squares far too large", group(1000, 0, i64::MAX)),
        ("V below 0", group(2, 2, 1)),
        ("V below 0, mean below 0", group(3, -9, 26)),
        ("V below 0 about mu + 1 only", group(3, 2, 0)),
        ("V below 0 about mu + 1 only, mean below 0", group(3, -4, 4)),
    ]
}
