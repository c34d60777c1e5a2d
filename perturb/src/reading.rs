//! The readings of a snapshot: its lines, and what each may hold.

use reference::{Snapshot, Unit};
use std::ops::RangeInclusive;

/// What a line's value may be.
#[derive(Clone, Debug, PartialEq, Eq)]
pub enum Holds {
    Number(RangeInclusive<i64>),
    Id,
    /// One of these words.
    Word(&'static [&'static str]),
}

/// One line of an accepted snapshot.
#[derive(Clone, Debug, PartialEq, Eq)]
pub struct Reading {
    /// Counted from 1.
    pub line: usize,
    pub key: &'static str,
    pub value: String,
    pub holds: Holds,
    /// The resource's place, counted from 0; none in the header.
    pub resource: Option<usize>,
    /// The resource's id; empty in the header.
    pub id: String,
}

impl Reading {
    /// The line without its byte 10.
    pub fn text(&self) -> String {
        self.with_value(&self.value)
    }

    /// The line with another value.
    pub fn with_value(&self, value: &str) -> String {
        format!("{}={value}", self.key)
    }

    /// The number held, if a number is due.
    pub fn number(&self) -> Option<i64> {
        match self.holds {
            Holds::Number(_) => self.unmarked().parse().ok(),
            _ => None,
        }
    }

    /// The value without its mark.
    pub fn unmarked(&self) -> &str {
        self.value.strip_suffix('?').unwrap_or(&self.value)
    }

    /// Whether the number is marked suspect.
    pub fn is_marked(&self) -> bool {
        self.unmarked() != self.value
    }

    /// The value with another number, marked as the one held is.
    pub fn value_with(&self, number: impl std::fmt::Display) -> String {
        let mark = if self.is_marked() { "?" } else { "" };
        format!("{number}{mark}")
    }
}

type Field = (&'static str, Holds);

const KINDS: &[&str] = &["gen", "wind", "irr", "nuke", "clr", "nclr"];
const STATUSES: &[&str] = &["ON", "OFF", "OFFNS", "ONTEST", "STARTUP", "SHUTDOWN", "OUT"];

fn header() -> Vec<Field> {
    let system_power = || Holds::Number(0..=200_000_000);
    vec![
        ("month", Holds::Number(1..=12)),
        ("hour", Holds::Number(0..=23)),
        ("lambda", Holds::Number(-2_000_000..=2_000_000)),
        ("factor", Holds::Number(0..=10_000)),
        ("prc", system_power()),
        ("eea1", system_power()),
        ("short", system_power()),
        ("count", Holds::Number(0..=4096)),
    ]
}

fn resource(unit: &Unit) -> Vec<Field> {
    let power = || Holds::Number(0..=2_000_000);
    let flag = || Holds::Number(0..=1);
    let mut fields = vec![("id", Holds::Id), ("kind", Holds::Word(KINDS))];
    fields.extend(match unit {
        Unit::Generator(_) => vec![
            ("status", Holds::Word(STATUSES)),
            ("net", Holds::Number(-2_000_000..=2_000_000)),
            ("lsl", power()),
            ("hsl", power()),
            ("base", power()),
            ("nonspin", power()),
            ("cold30", flag()),
        ],
        Unit::Clr(_) => vec![
            ("base", power()),
            ("lpc", power()),
            ("nonspin", power()),
            ("regup", power()),
        ],
        Unit::Nclr(_) => vec![
            ("rrsok", flag()),
            ("net", power()),
            ("lpc", power()),
            ("rrs", power()),
        ],
    });
    fields
}

/// The readings of a text that was read as this snapshot.
pub fn readings(text: &[u8], snapshot: &Snapshot) -> Vec<Reading> {
    let text = std::str::from_utf8(text).expect("an accepted snapshot is plain ASCII");
    let mut due: Vec<(Option<usize>, &str, Field)> = header()
        .into_iter()
        .map(|field| (None, "", field))
        .collect();
    for (place, one) in snapshot.resources.iter().enumerate() {
        let fields = resource(&one.unit).into_iter();
        due.extend(fields.map(|field| (Some(place), one.id, field)));
    }
    text.lines()
        .zip(due)
        .enumerate()
        .map(|(above, (line, (resource, id, (key, holds))))| Reading {
            line: above + 1,
            key,
            value: line[key.len() + 1..].to_string(),
            holds,
            resource,
            id: id.to_string(),
        })
        .collect()
}

/// The text of these lines.
pub(crate) fn text_of<'a>(lines: impl Iterator<Item = &'a str>) -> Vec<u8> {
    let mut text = Vec::new();
    for line in lines {
        text.extend_from_slice(line.as_bytes());
        text.push(b'\n');
    }
    text
}
