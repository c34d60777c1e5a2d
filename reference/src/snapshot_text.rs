//! The text of a snapshot, line by line from its values.

use crate::marks::is_marked;
use crate::snapshot::{Clr, Generator, GeneratorKind, Nclr, Snapshot, Status, Unit};

/// The text of a snapshot whose values are in their ranges.
pub(crate) fn snapshot_text(snapshot: &Snapshot) -> Vec<u8> {
    let mut text = Vec::with_capacity(text_length(snapshot));
    for_each_line(snapshot, |key, value| {
        text.extend_from_slice(key.as_bytes());
        text.push(b'=');
        match value {
            Value::Word(word) => text.extend_from_slice(word.as_bytes()),
            Value::Number(number) => push_number(&mut text, number),
            Value::Marked(number) => {
                push_number(&mut text, number);
                text.push(b'?');
            }
        }
        text.push(b'\n');
    });
    text
}

/// The length of that text, which is not written for it.
pub(crate) fn text_length(snapshot: &Snapshot) -> usize {
    let mut length = 0;
    for_each_line(snapshot, |key, value| {
        let value_length = match value {
            Value::Word(word) => word.len(),
            Value::Number(number) => number_length(number),
            Value::Marked(number) => number_length(number) + 1,
        };
        // The two more are the `=` and byte 10.
        length += key.len() + value_length + 2;
    });
    length
}

/// What stands after a line's `=`.
enum Value<'a> {
    Word(&'a str),
    Number(i64),
    /// A number marked suspect.
    Marked(i64),
}

/// Hands each line's key and value to `line`, in the order of the lines.
fn for_each_line(snapshot: &Snapshot, mut line: impl FnMut(&str, Value)) {
    for (key, number) in [
        ("month", snapshot.month),
        ("hour", snapshot.hour),
        ("lambda", snapshot.lambda),
        ("factor", snapshot.factor),
        ("prc", snapshot.prc),
        ("eea1", snapshot.eea1),
        ("short", snapshot.short),
        ("count", snapshot.resources.len() as i64),
    ] {
        line(key, Value::Number(number));
    }
    for resource in &snapshot.resources {
        line("id", Value::Word(resource.id));
        let marks = resource.marks;
        match &resource.unit {
            Unit::Generator(unit) => for_each_generator_line(unit, marks, &mut line),
            Unit::Clr(load) => for_each_clr_line(load, marks, &mut line),
            Unit::Nclr(load) => for_each_nclr_line(load, marks, &mut line),
        }
    }
}

fn for_each_generator_line(unit: &Generator, marks: u8, line: &mut impl FnMut(&str, Value)) {
    line("kind", Value::Word(kind_word(unit.kind)));
    line("status", Value::Word(status_word(unit.status)));
    let numbers = [
        ("net", unit.net),
        ("lsl", unit.lsl),
        ("hsl", unit.hsl),
        ("base", unit.base),
        ("nonspin", unit.nonspin),
        ("cold30", i64::from(unit.cold30)),
    ];
    for_each_number_line(&numbers, marks, line);
}

fn for_each_clr_line(load: &Clr, marks: u8, line: &mut impl FnMut(&str, Value)) {
    line("kind", Value::Word("clr"));
    let numbers = [
        ("base", load.base),
        ("lpc", load.lpc),
        ("nonspin", load.nonspin),
        ("regup", load.regup),
    ];
    for_each_number_line(&numbers, marks, line);
}

fn for_each_nclr_line(load: &Nclr, marks: u8, line: &mut impl FnMut(&str, Value)) {
    line("kind", Value::Word("nclr"));
    let numbers = [
        ("rrsok", i64::from(load.rrsok)),
        ("net", load.net),
        ("lpc", load.lpc),
        ("rrs", load.rrs),
    ];
    for_each_number_line(&numbers, marks, line);
}

/// Hands on the numbers of one unit, each with its mark.
fn for_each_number_line(numbers: &[(&str, i64)], marks: u8, line: &mut impl FnMut(&str, Value)) {
    for (place, &(key, number)) in numbers.iter().enumerate() {
        if is_marked(marks, place) {
            line(key, Value::Marked(number));
        } else {
            line(key, Value::Number(number));
        }
    }
}

fn kind_word(kind: GeneratorKind) -> &'static str {
    match kind {
        GeneratorKind::Gen => "gen",
        GeneratorKind::Wind => "wind",
        GeneratorKind::Irr => "irr",
        GeneratorKind::Nuke => "nuke",
    }
}

fn status_word(status: Status) -> &'static str {
    match status {
        Status::On => "ON",
        Status::Off => "OFF",
        Status::OffNs => "OFFNS",
        Status::OnTest => "ONTEST",
        Status::Startup => "STARTUP",
        Status::Shutdown => "SHUTDOWN",
        Status::Out => "OUT",
    }
}

/// The most digits that a machine word can have.
const MOST_DIGITS: usize = 20;

/// Appends the number as it is written in a text.
fn push_number(text: &mut Vec<u8>, number: i64) {
    if number < 0 {
        text.push(b'-');
    }
    // The digits come last first and are put in place from the end.
    let mut digits = [0; MOST_DIGITS];
    let mut first = MOST_DIGITS;
    let mut size = number.unsigned_abs();
    loop {
        first -= 1;
        digits[first] = b'0' + (size % 10) as u8;
        size /= 10;
        if size == 0 {
            break;
        }
    }
    text.extend_from_slice(&digits[first..]);
}

/// How many bytes the number has in a text.
pub(crate) fn number_length(number: i64) -> usize {
    let digits = number.unsigned_abs().checked_ilog10().unwrap_or(0) + 1;
    usize::from(number < 0) + digits as usize
}

#[cfg(test)]
mod tests {
    use super::*;

    #[test]
    fn numbers_are_written_in_decimal() {
        let mut numbers = vec![i64::MIN, i64::MAX, 0];
        for power in 0..19 {
            let ten = 10_i64.pow(power);
            numbers.extend([ten - 1, ten, ten + 1, 1 - ten, -ten, -ten - 1]);
        }
        for number in numbers {
            let mut text = b"before".to_vec();
            push_number(&mut text, number);
            assert_eq!(text, format!("before{number}").into_bytes());
            assert_eq!(number_length(number), number.to_string().len());
        }
    }
}
