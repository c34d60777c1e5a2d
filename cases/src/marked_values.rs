//! Cases of writing values with marks (W-206), and those of the longest text,
//! which has a mark on every number that can have one.

use crate::held::{LONGEST_BUFFER, MARKS};
use crate::marks::{marked, EVERY_NUMBER};
use crate::price::*;
use crate::read_values::{into_rows, random_text};
use crate::texts::*;
use crate::write_values::*;
use crate::{Case, Edit, Random, Text};

pub fn add(cases: &mut Vec<Case>, random: &mut Random) {
    every_set(cases);
    far_numbers(cases);
    flags(cases);
    flags_and_faults(cases);
    with_faults(cases);
    first_mark(cases);
    out_of_range(cases);
    buffers(cases);
    rows(cases);
    free_places(cases);
    random_marks(cases, random);
    longest(cases);
}

/// The marks of a row.
fn marks(row: usize, held: i64) -> Edit {
    number(row, MARKS, held)
}

/// The case of `one_of_every_kind` with these edits: a gen that is ON, a wind OUT,
/// an irr ONTEST, a nuke SHUTDOWN, a clr and an nclr.
fn with(cases: &mut Vec<Case>, label: impl Into<String>, edits: &[Edit]) {
    let label = format!("written, {}", label.into());
    cases.case(label, one_of_every_kind().edited(edits).written_marked());
}

/// Every set of marks, on a unit that counts, on one that does not and on both
/// kinds of loads; below 0 the magnitude counts.
fn every_set(cases: &mut Vec<Case>) {
    for row in [0, 2, 4, 5] {
        for held in -64..=64 {
            with(
                cases,
                format!("marks {held} in row {row}"),
                &[marks(row, held)],
            );
        }
    }
}

/// Numbers with binary digits beyond those that count, of both signs.
fn far_numbers(cases: &mut Vec<Case>) {
    let mut far = vec![
        i64::MIN,
        i64::MIN + 1,
        i64::MIN + 31,
        i64::MIN + 32,
        i64::MIN + 64,
        i64::MAX,
        i64::MAX - 63,
        i64::MAX - 15,
        i64::MAX - 32,
    ];
    for high in [1 << 6, 1 << 7, 1 << 8, 1 << 31, 1 << 32, 1 << 62] {
        for low in [0, 1, 16, 31, 32] {
            far.extend([high + low, -high - low]);
        }
    }
    for row in 0..6 {
        for &held in &far {
            with(
                cases,
                format!("marks {held} in row {row}"),
                &[marks(row, held)],
            );
        }
    }
}

/// The flag of a row: its place and its mark.
fn flag_of(row: usize) -> (usize, i64) {
    match row {
        0..=3 => (7, 32),
        _ => (2, 1),
    }
}

/// A marked flag is refused by 6, whatever its number is.
fn flags(cases: &mut Vec<Case>) {
    for row in [0, 1, 2, 3, 5] {
        let (place, mark) = flag_of(row);
        for value in [0, 1, 2, -1, i64::MIN, i64::MAX] {
            for held in [mark, -mark, mark + 2, mark + (1 << 40)] {
                let label = format!("marks {held} and a flag of {value} in row {row}");
                with(cases, label, &[marks(row, held), number(row, place, value)]);
            }
        }
    }
}

/// A marked flag against the faults of other lines: the first line is told.
fn flags_and_faults(cases: &mut Vec<Case>) {
    for row in [0, 1, 3, 5] {
        let (place, mark) = flag_of(row);
        for (name, edits) in faults() {
            let edits = [&edits[..], &[marks(row, mark)]].concat();
            with(
                cases,
                format!("a marked flag in row {row}, and {name}"),
                &edits,
            );
        }
        for other in [0, 1, 3, 5] {
            let edits = [
                marks(row, mark),
                marks(other, flag_of(other).1),
                number(row, place, 2),
            ];
            let label = format!("marked flags in the rows {row} and {other}");
            with(cases, label, &edits);
        }
    }
}

/// Rows with a mark that is refused by 15, the line of that mark, and the mark.
const REFUSED: [(usize, usize, i64); 4] = [(0, 12, 1), (0, 16, 16), (4, 47, 1), (5, 56, 8)];

/// 6, 7 and 8 of any line come before 15, and 15 before 14.
fn with_faults(cases: &mut Vec<Case>) {
    for (row, line, mark) in REFUSED {
        for (name, edits) in faults() {
            let edits = [&edits[..], &[marks(row, mark)]].concat();
            with(cases, format!("a mark on line {line}, and {name}"), &edits);
        }
        let writing = one_of_every_kind().edited(&[marks(row, mark)]);
        for length in [0, 1, writing.fits_marked() - 1, writing.fits_marked()] {
            let label = format!("written, a mark on line {line}, buffer of {length}");
            cases.case(label, writing.clone().into(length));
        }
    }
}

/// Of several marks the first line is told, and marks that are fine are not.
fn first_mark(cases: &mut Vec<Case>) {
    for (first, _, mark) in REFUSED {
        for (second, _, other) in REFUSED {
            let edits = [
                marks(first, mark),
                marks(second, other),
                marks(1, EVERY_NUMBER),
                marks(2, EVERY_NUMBER),
            ];
            let label = format!("marks {mark} in row {first}, {other} in row {second}, fine ones");
            with(cases, label, &edits);
        }
    }
    // The status and the kind that are written tell what a mark does.
    for row in 0..4 {
        for status in 0..7 {
            for kind in 0..4 {
                let edits = [
                    number(row, 0, kind),
                    number(row, 1, status),
                    marks(row, EVERY_NUMBER),
                ];
                let label = format!("row {row} of kind {kind} and status {status}, all marked");
                with(cases, label, &edits);
            }
        }
    }
}

/// A marked number out of its range is refused by 7, and at a bound by 15 or not
/// at all.
fn out_of_range(cases: &mut Vec<Case>) {
    for row in [0, 1, 4, 5] {
        let (flag, _) = flag_of(row);
        let last = if row < 4 { 7 } else { 6 };
        for place in (2..last).filter(|&place| place != flag || row == 4) {
            for value in [i64::MIN, -POWER - 1, -1, 0, POWER, POWER + 1, i64::MAX] {
                let label = format!("row {row} place {place} marked at {value}");
                let edits = [number(row, place, value), marks(row, 1 << (place - 2))];
                with(cases, label, &edits);
            }
        }
    }
}

/// Buffers for a text with marks that are fine.
fn buffers(cases: &mut Vec<Case>) {
    let fine = [marks(1, 31), marks(2, -5), marks(3, 64 + 16)];
    for some in 0..=fine.len() {
        let writing = one_of_every_kind().edited(&fine[..some]);
        let fits = writing.fits_marked();
        for length in [0, fits - 3, fits - 1, fits, fits + 1, fits + 300] {
            let label = format!("{some} rows with marks, buffer of {length}");
            cases.case(label, writing.clone().into(length));
        }
    }
}

/// Marks in a row that is not handed over are not looked at.
fn rows(cases: &mut Vec<Case>) {
    let edits = [marks(0, 0), marks(1, 31), marks(4, 1), marks(5, 2)];
    for (ids, numbers) in [
        (192, 54),
        (160, 54),
        (192, 45),
        (128, 54),
        (192, 44),
        (128, 36),
        (192, 36),
        (64, 17),
        (32, 9),
    ] {
        let writing = one_of_every_kind().edited(&edits).handing(ids, numbers);
        let label = format!("{ids} bytes and {numbers} numbers with marks handed over");
        cases.case(label, writing.written_marked());
    }
}

/// Numbers in the places that a load has no use for, which are not the marks.
fn free_places(cases: &mut Vec<Case>) {
    for value in [1, -1, 2, i64::MAX] {
        let free = [1, 6, 7].map(|place| [number(4, place, value), number(5, place, value)]);
        with(
            cases,
            format!("{value} where no line comes from"),
            &free.concat(),
        );
    }
}

/// Random values with marks, often on a unit on which they are fine.
fn random_marks(cases: &mut Vec<Case>, random: &mut Random) {
    for part in 0..16 {
        let text = bytes(&random_text(random, 5));
        let held = text
            .split(|&byte| byte == b'\n')
            .filter(|line| line.starts_with(b"id="))
            .count();
        for turn in 0..8 {
            let mut edits = Vec::new();
            for row in 0..held {
                if random.one_in(2) {
                    edits.push(marks(row, random_held(random)));
                }
                if !random.one_in(3) {
                    // A status that is never counted, of which loads have no use.
                    edits.push(number(row, 1, *random.pick(&[3, 5, 6])));
                }
            }
            let writing = Writing::of(text.clone(), held).edited(&edits);
            let length = (writing.fits_marked() as i64 + random.within(-1, 2)) as usize;
            let label = format!("random values with marks {part}.{turn}");
            cases.case(label, writing.into(length));
        }
    }
}

/// Marks of a generator or of a load, sometimes on a flag, sometimes with more.
fn random_held(random: &mut Random) -> i64 {
    match random.within(0, 5) {
        0 => random.bits() as i64,
        1 => -random.within(0, 31),
        2 => 64 * random.within(0, 1 << 50) + random.within(0, 31),
        _ => random.within(0, 31),
    }
}

/// The longest text that can be, with a mark on every number that can have one,
/// and marks that are refused in its first, middle and last resource.
fn longest(cases: &mut Vec<Case>) {
    let (above, last) = longest_text(&[4, 5, 6, 7, 8]);
    longest_written(cases, above.clone().then(1, bytes(&last)));
    longest_read(cases, &above, &last);
}

/// The text as it is and with its last resource changed, priced and read.
fn longest_read(cases: &mut Vec<Case>, above: &Text, last: &[String]) {
    let mut case = |label: &str, last: Vec<u8>| {
        let text = above.clone().then(1, last);
        let label = format!("the longest marked text, {label}");
        cases.case(label.clone(), priced(curves(), text.clone()));
        for rows in [4096, 4095, 0] {
            let label = format!("values, {label}, into {rows} rows");
            cases.case(label, into_rows(text.clone(), rows));
        }
    };
    let on = with_value(last, 3, "ON");
    let marked_alone = |at: usize| {
        let mut lines = with_value(&on, at, "5");
        for (place, line) in lines.iter_mut().enumerate() {
            *line = line.trim_end_matches('?').to_string();
            if place + 1 == at {
                line.push('?');
            }
        }
        bytes(&lines)
    };
    case("as it is", bytes(last));
    case("the last ON", bytes(&on));
    for (key, at) in [("net", 4), ("hsl", 6), ("nonspin", 8)] {
        case(
            &format!("the last ON, {key} marked alone"),
            marked_alone(at),
        );
    }
    case("the last flag marked", bytes(&marked(last, &[9])));
    case("the last ON, its flag marked", bytes(&marked(&on, &[9])));
    case(
        "the last ON, its flag at 2",
        bytes(&with_value(&on, 9, "2")),
    );
    let again = with_value(&on, 1, "LONGEST_UNIT0000");
    case("the last ON, its id again", bytes(&again));
    case(
        "the last ON, a byte follows",
        [bytes(&on), b"\n".to_vec()].concat(),
    );
    case(
        "the last a load",
        bytes(&listing("id=L kind=clr base=1 lpc=1 nonspin=1 regup=1?")),
    );
}

fn longest_written(cases: &mut Vec<Case>, text: Text) {
    let full = Writing::of(text, 4096);
    let fits = full.fits_marked();
    for length in [0, fits - 1, fits, fits + 1, LONGEST_BUFFER] {
        let label = format!("the longest marked text written, buffer of {length}");
        cases.case(label, full.clone().into(length));
    }
    let on = |row: usize| number(row, 1, 0);
    for (label, edits) in [
        ("the first ON", vec![on(0)]),
        ("one in the middle ON", vec![on(2047)]),
        ("the last ON", vec![on(4095)]),
        (
            "the last ON, its Non-Spin marked alone",
            vec![on(4095), marks(4095, 16)],
        ),
        ("the last ON, not marked", vec![on(4095), marks(4095, 0)]),
        ("the first and the last ON", vec![on(4095), on(0)]),
        ("the last flag marked", vec![marks(4095, 32)]),
        (
            "the first ON, the last flag marked",
            vec![on(0), marks(4095, 32)],
        ),
        (
            "the first ON, the last flag at 2",
            vec![on(0), number(4095, 7, 2)],
        ),
        (
            "the first ON, the last id ill-formed",
            vec![on(0), id_byte(4095, 15, b'a')],
        ),
        ("one in the middle not marked", vec![marks(2047, 0)]),
    ] {
        let writing = full.clone().edited(&edits);
        let label = format!("the longest marked text written, {label}");
        cases.case(label.clone(), writing.clone().into(fits));
        cases.case(format!("{label}, no buffer"), writing.into(0));
    }
}
