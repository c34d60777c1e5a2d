//! Cases of writing values as a snapshot's text, and those of a snapshot of as
//! many resources as there can be.

use crate::held::{edited_length, unmarked_length, LONGEST_BUFFER, MARKS, ROWS};
use crate::marks::marked;
use crate::price::*;
use crate::read_values::{into_rows, random_text, read, STATUSES};
use crate::texts::*;
use crate::{Case, Edit, Input, Random, Text};
use reference::{ID_ROW, NUMBER_ROW};

pub fn add(cases: &mut Vec<Case>, random: &mut Random) {
    buffers(cases);
    counts(cases);
    words(cases);
    bounds(cases);
    lengths_of_numbers(cases);
    ids(cases);
    repeated(cases);
    two_faults(cases);
    buffers_come_last(cases);
    not_looked_at(cases);
    rows(cases);
    no_text(cases);
    random_values(cases, random);
    longest(cases);
}

/// Numbers that a list of words has not, and of which some bits alone are those
/// of one that it has.
const FAR: [i64; 6] = [i64::MIN, i64::MAX, 256, -256, 1 << 32, i64::MIN + 1];

/// A writing: a text's values, edited, and how much of them is handed over.
#[derive(Clone)]
pub struct Writing {
    text: Text,
    edits: Vec<Edit>,
    ids: usize,
    numbers: usize,
}

impl Writing {
    /// The values of a text with so many resources, as they are.
    pub fn of(text: impl Into<Text>, rows: usize) -> Writing {
        Writing {
            text: text.into(),
            edits: Vec::new(),
            ids: rows * ID_ROW,
            numbers: rows * NUMBER_ROW,
        }
    }

    pub fn edited(mut self, edits: &[Edit]) -> Writing {
        self.edits.extend(edits);
        self
    }

    pub fn handing(mut self, ids: usize, numbers: usize) -> Writing {
        self.ids = ids;
        self.numbers = numbers;
        self
    }

    /// The length that the text has without marks; that of the text read where
    /// none is written.
    fn fits(&self) -> usize {
        let text = self.text.bytes();
        unmarked_length(&text, &self.edits, self.ids, self.numbers).unwrap_or(text.len())
    }

    /// The length of the text with its marks; that without them where it is
    /// refused.
    pub fn fits_marked(&self) -> usize {
        let text = self.text.bytes();
        let length = edited_length(&text, &self.edits, self.ids, self.numbers);
        length.unwrap_or_else(|| self.fits())
    }

    /// Into a buffer of so many bytes.
    pub fn into(self, length: usize) -> Input {
        Input::WriteValues {
            text: self.text,
            edits: self.edits,
            ids: self.ids,
            numbers: self.numbers,
            length,
        }
    }

    /// Into a buffer that is two bytes longer than the text, so that it is seen
    /// that they stay.
    fn written(self) -> Input {
        let length = self.fits() + 2;
        self.into(length)
    }

    /// The same where the text has marks.
    pub fn written_marked(self) -> Input {
        let length = self.fits_marked() + 2;
        self.into(length)
    }
}

/// A byte of the id in a row.
pub fn id_byte(row: usize, place: usize, byte: u8) -> Edit {
    Edit::Ids(row * ID_ROW + place, byte)
}

/// An id in its row, ended by a byte 0 where it is short; what stood there after
/// it stays.
fn id(row: usize, id: &[u8]) -> Vec<Edit> {
    let end = [0];
    let bytes = id.iter().chain(&end[..usize::from(id.len() < 16)]);
    let bytes = bytes.enumerate();
    bytes
        .map(|(place, &byte)| id_byte(row, place, byte))
        .collect()
}

pub fn number(row: usize, place: usize, value: i64) -> Edit {
    Edit::Numbers(row * NUMBER_ROW + place, value)
}

/// One resource of every kind. The generators start at the lines 9, 18, 27 and
/// 36, the loads at 45 and 51; the last line is 56.
pub fn one_of_every_kind() -> Writing {
    let header = Header {
        lambda: -2500,
        factor: 9750,
        prc: 3_000_000,
        eea1: 2_300_000,
        short: 10,
        ..HEADER
    };
    let resources = [
        generator("G", "gen", "ON", [200, 100, 2000, 150, 20, 1]),
        generator("W1", "wind", "OUT", [-3, 4, 5, 6, 7, 0]),
        generator("I", "irr", "ONTEST", [8, 9, 10, 11, 12, 1]),
        generator("ABCDEFGHIJKLMNOP", "nuke", "SHUTDOWN", [0, 0, 0, 0, 0, 0]),
        clr("0", 21, 22, 23, 24),
        nclr("_", 1, 31, 32, 33),
    ];
    Writing::of(bytes(&snapshot(&header, &resources)), resources.len())
}

/// The case of values with these edits.
fn with(cases: &mut Vec<Case>, label: impl Into<String>, edits: &[Edit]) {
    let label = format!("written, {}", label.into());
    cases.case(label, one_of_every_kind().edited(edits).written());
}

/// Buffers that are too short, just long enough and longer.
fn buffers(cases: &mut Vec<Case>) {
    let empty = Writing::of(bytes(&snapshot(&HEADER, &[])), 0);
    for (name, writing) in [("every kind", one_of_every_kind()), ("no resource", empty)] {
        let fits = writing.fits();
        for length in [0, 1, 7, 8, fits - 2, fits - 1, fits, fits + 1, fits + 300] {
            let label = format!("{name}, buffer of {length}");
            cases.case(label, writing.clone().into(length));
        }
    }
}

/// The count handed in, which is not looked at.
fn counts(cases: &mut Vec<Case>) {
    for count in [0, -1, 5, 7, 4096, 4097, i64::MIN, i64::MAX] {
        with(cases, format!("count {count}"), &[Edit::Header(7, count)]);
    }
}

/// Every kind and status, and numbers that stand for none.
fn words(cases: &mut Vec<Case>) {
    for kind in 0..4 {
        for (status, word) in (0..).zip(STATUSES) {
            let edits = [number(0, 0, kind), number(0, 1, status)];
            with(cases, format!("kind {kind} that is {word}"), &edits);
        }
    }
    for row in 0..6 {
        for kind in [-1, 6, 7].into_iter().chain(FAR) {
            with(
                cases,
                format!("row {row} of kind {kind}"),
                &[number(row, 0, kind)],
            );
        }
        for status in [-1, 7, 8].into_iter().chain(FAR) {
            // Loads have none, whatever stands there.
            let label = format!("row {row} of status {status}");
            with(cases, label, &[number(row, 1, status)]);
        }
    }
    // The numbers of a row are those of its kind.
    for kind in 0..6 {
        for row in [0, 1, 4, 5] {
            let label = format!("row {row} made kind {kind}");
            with(cases, label, &[number(row, 0, kind)]);
        }
    }
}

/// The range of every number in the header, but for the count.
const HEADER_RANGES: [(i64, i64); 7] = [
    (1, 12),
    (0, 23),
    (-POWER, POWER),
    (0, 10_000),
    (0, 200_000_000),
    (0, 200_000_000),
    (0, 200_000_000),
];

/// The range of every number in a row, from place 2 on.
fn ranges(row: usize) -> &'static [(i64, i64)] {
    const POWERS: (i64, i64) = (0, POWER);
    match row {
        0..=3 => &[(-POWER, POWER), POWERS, POWERS, POWERS, POWERS, (0, 1)],
        4 => &[POWERS; 4],
        _ => &[(0, 1), POWERS, POWERS, POWERS],
    }
}

/// Every bound of every number, one beyond, and the ends of a machine number.
fn bounds(cases: &mut Vec<Case>) {
    let at_ends = |(low, high): (i64, i64)| {
        let mut values = vec![
            i64::MIN,
            low - 1,
            low,
            low + 1,
            high - 1,
            high,
            high + 1,
            i64::MAX,
        ];
        values.sort_unstable();
        values.dedup();
        values
    };
    for (place, range) in HEADER_RANGES.into_iter().enumerate() {
        for value in at_ends(range) {
            let label = format!("line {} at {value}", place + 1);
            with(cases, label, &[Edit::Header(place, value)]);
        }
    }
    for row in [0, 3, 4, 5] {
        for (place, &range) in (2..).zip(ranges(row)) {
            for value in at_ends(range) {
                let label = format!("row {row} place {place} at {value}");
                with(cases, label, &[number(row, place, value)]);
            }
        }
    }
    for (row, place) in [(1, 7), (2, 7), (5, 2)] {
        for value in [256, 257, 1 << 32, (1 << 32) + 1] {
            with(
                cases,
                format!("row {row} with a flag of {value}"),
                &[number(row, place, value)],
            );
        }
    }
}

/// Every number of every length that its range has, of both signs.
fn lengths_of_numbers(cases: &mut Vec<Case>) {
    for power in 1..=9 {
        for value in [10_i64.pow(power) - 1, 10_i64.pow(power)] {
            let within = |(low, high): (i64, i64)| (low <= value && value <= high).then_some(value);
            let signed = |range: (i64, i64), place: usize| {
                let turned = place.is_multiple_of(2) && range.0 < 0;
                within(range).map(|value| if turned { -value } else { value })
            };
            let mut edits = Vec::new();
            for (place, range) in HEADER_RANGES.into_iter().enumerate() {
                edits.extend(signed(range, place).map(|value| Edit::Header(place, value)));
            }
            for row in 0..6 {
                for (place, &range) in (2..).zip(ranges(row)) {
                    let value = signed(range, row + place);
                    edits.extend(value.map(|value| number(row, place, value)));
                }
            }
            with(
                cases,
                format!("every number at {value} that may be"),
                &edits,
            );
        }
    }
}

fn ids(cases: &mut Vec<Case>) {
    // Each bound of the bytes that an id may have, and one beyond.
    for byte in b"AZ09_@[/:^`az- =\n\r\x01\x7f\x80\xff" {
        for (row, place) in [(0, 0), (3, 0), (3, 8), (3, 15), (5, 0)] {
            let label = format!("byte {byte} at {place} of the id in row {row}");
            with(cases, label, &[id_byte(row, place, *byte)]);
        }
    }
    for row in 0..6 {
        with(
            cases,
            format!("an empty id in row {row}"),
            &[id_byte(row, 0, 0)],
        );
        let length = [1, 2, 1, 16, 1, 1][row];
        if length < 16 {
            // What stands after the id is part of it where no byte 0 ends it.
            let label = format!("a longer id in row {row}");
            with(cases, label.clone(), &[id_byte(row, length, b'X')]);
            with(cases, label + ", ill-formed", &[id_byte(row, length, b'x')]);
        }
    }
    for length in 1..16 {
        let label = format!("an id of {length} bytes with more after it");
        with(cases, label, &[id_byte(3, length, 0)]);
    }
    // Sixteen bytes are all of an id, whatever comes after.
    for byte in [b'Q', b'a', 255, 10] {
        let label = format!("byte {byte} after an id of 16 bytes");
        with(cases, label, &[id_byte(3, 16, byte)]);
        let label = format!("byte {byte} in the free bytes of an id's row");
        with(cases, label, &[id_byte(0, 16, byte), id_byte(5, 31, byte)]);
    }
}

/// Ids that are repeated, and some that nearly are.
fn repeated(cases: &mut Vec<Case>) {
    let sixteen = b"ABCDEFGHIJKLMNOP";
    for (row, again) in [
        (1, "G"),
        (2, "G"),
        (5, "G"),
        (2, "W1"),
        (4, "W1"),
        (5, "W1"),
        (4, "I"),
        (5, "I"),
        (5, "0"),
        (0, "_"),
        (0, "0"),
        (0, "W1"),
    ] {
        let label = format!("the id {again} again in row {row}");
        with(cases, label, &id(row, again.as_bytes()));
    }
    for row in [0, 2, 4, 5] {
        let edits = id(row, sixteen);
        with(
            cases,
            format!("the id of 16 bytes again in row {row}"),
            &edits,
        );
        // What comes after the 16 bytes doesn't tell them apart.
        let edits = [edits, vec![id_byte(row, 16, b'Q'), id_byte(3, 16, b'R')]].concat();
        let label = format!("the id of 16 bytes again in row {row}, more after it");
        with(cases, label, &edits);
    }
    for (name, other) in [
        ("the first byte", b"BBCDEFGHIJKLMNOP"),
        ("a middle byte", b"ABCDEFGHHJKLMNOP"),
        ("the last byte", b"ABCDEFGHIJKLMNOQ"),
    ] {
        with(
            cases,
            format!("two ids that differ in {name}"),
            &id(5, other),
        );
    }
    with(
        cases,
        "an id that another begins with",
        &id(5, &sixteen[..15]),
    );
    // Bytes after a byte 0 don't tell two ids apart, nor make them alike.
    let edits = [id(1, b"G"), vec![id_byte(1, 2, b'A'), id_byte(0, 2, b'B')]].concat();
    with(cases, "the id G again with more after it", &edits);
    let edits = [id_byte(0, 2, b'1'), id_byte(0, 1, 0), id_byte(0, 0, b'W')];
    with(
        cases,
        "the ids W and W1 with the same bytes but one",
        &edits,
    );
    // A load in front makes the second id come at line 15.
    let mut edits = vec![number(0, 0, 4), number(0, 2, 0)];
    edits.extend(id(1, b"G"));
    with(cases, "the id of a load in front again", &edits);
    // Two ids that are alike and ill-formed, or empty.
    for byte in [b'x', 0] {
        let edits = [id_byte(0, 0, byte), id_byte(1, 0, byte), id_byte(1, 1, 0)];
        with(cases, format!("byte {byte} for two ids"), &edits);
    }
    let mut edits = id(2, b"G");
    edits.extend(id(1, b"G"));
    edits.extend(id(5, b"G"));
    with(cases, "the id G in four rows", &edits);
}

/// Faults at lines that follow one another, with what makes each.
pub fn faults() -> Vec<(&'static str, Vec<Edit>)> {
    vec![
        ("month at line 1", vec![Edit::Header(0, 13)]),
        ("lambda at line 3", vec![Edit::Header(2, -2_000_001)]),
        ("short at line 7", vec![Edit::Header(6, -1)]),
        ("the id at line 9", vec![id_byte(0, 0, b'g')]),
        ("the kind at line 10", vec![number(0, 0, 6)]),
        ("the status at line 11", vec![number(0, 1, 7)]),
        ("net at line 12", vec![number(0, 2, 2_000_001)]),
        ("cold30 at line 17", vec![number(0, 7, 2)]),
        ("the id again at line 18", id(1, b"G")),
        ("the kind at line 19", vec![number(1, 0, -1)]),
        ("the status at line 20", vec![number(1, 1, -1)]),
        ("hsl at line 23", vec![number(1, 4, -1)]),
        ("no id at line 27", vec![id_byte(2, 0, 0)]),
        ("the id again at line 36", id(3, b"W1")),
        ("cold30 at line 44", vec![number(3, 7, -1)]),
        ("the id again at line 45", vec![id_byte(4, 0, b'I')]),
        ("the kind at line 46", vec![number(4, 0, i64::MIN)]),
        ("regup at line 50", vec![number(4, 5, 2_000_001)]),
        ("the id again at line 51", vec![id_byte(5, 0, b'0')]),
        ("the kind at line 52", vec![number(5, 0, i64::MAX)]),
        ("rrsok at line 53", vec![number(5, 2, 2)]),
        ("rrs at line 56", vec![number(5, 5, -1)]),
    ]
}

/// Each fault alone, and with each that comes at a later line.
fn two_faults(cases: &mut Vec<Case>) {
    let faults = faults();
    for (place, (name, edits)) in faults.iter().enumerate() {
        with(cases, *name, edits);
        for (later, more) in &faults[place + 1..] {
            let edits = [&edits[..], more].concat();
            with(cases, format!("{name}, then {later}"), &edits);
        }
    }
    let all: Vec<Edit> = faults.iter().flat_map(|(_, edits)| edits.clone()).collect();
    with(cases, "every fault", &all);
}

/// A short buffer comes after every fault.
fn buffers_come_last(cases: &mut Vec<Case>) {
    for (name, edits) in faults() {
        let writing = one_of_every_kind().edited(&edits);
        let label = format!("written, 14 comes last: {name}");
        cases.case(label, writing.into(0));
    }
    let fits = one_of_every_kind().fits();
    for (name, edits) in faults().iter().skip(3).step_by(5) {
        let writing = one_of_every_kind().edited(edits);
        let label = format!("written, 14 comes last: {name}, a byte short");
        cases.case(label, writing.into(fits - 1));
    }
}

/// Bytes and numbers that no line carries, and the same in the marks, of which
/// only the lowest binary digits count.
fn not_looked_at(cases: &mut Vec<Case>) {
    let lengths = [1, 2, 1, 16, 1, 1];
    let used = [8, 8, 8, 8, 6, 6];
    for (name, byte, value) in [
        ("noise", 0xff, i64::MIN),
        ("what might be an id or a number", b'A', 1),
        ("line ends", b'\n', -1),
    ] {
        let mut edits = Vec::new();
        for row in 0..6 {
            let free = (lengths[row] + 1).min(16)..ID_ROW;
            edits.extend(free.map(|place| id_byte(row, place, byte)));
            let status = if row < 4 { 8..8 } else { 1..2 };
            let free = status.chain(used[row]..NUMBER_ROW);
            edits.extend(free.map(|place| number(row, place, value)));
        }
        let label = format!("{name} where no line comes from and in the marks");
        with(cases, label.clone(), &edits);
        // The same where a fault comes late.
        edits.push(number(5, 5, -1));
        with(cases, format!("{label}, and a fault"), &edits);
    }
    for row in [0, 4, 5] {
        for place in used[row]..NUMBER_ROW {
            for value in [i64::MIN, i64::MAX] {
                let name = match place {
                    MARKS => "marks",
                    _ => "no use",
                };
                let label = format!("place {place} of row {row}, which has {name}, at {value}");
                with(cases, label, &[number(row, place, value)]);
            }
        }
    }
}

/// Rows of unequal number, and bytes and numbers that are left over.
fn rows(cases: &mut Vec<Case>) {
    let mut case = |ids: usize, numbers: usize, edits: &[Edit]| {
        let writing = one_of_every_kind().handing(ids, numbers).edited(edits);
        let label = match edits {
            [] => format!("{ids} bytes and {numbers} numbers handed over"),
            _ => format!("{ids} bytes and {numbers} numbers handed over, edited"),
        };
        cases.case(label, writing.written());
    };
    for (ids, numbers) in [
        (0, 0),
        (0, 54),
        (192, 0),
        (31, 54),
        (192, 8),
        (32, 54),
        (192, 9),
        (160, 54),
        (192, 45),
        (191, 54),
        (192, 53),
        (96, 27),
        (97, 27),
        (96, 28),
        (127, 35),
        (128, 35),
        (127, 36),
        (192, 100),
        (300, 54),
        (223, 62),
    ] {
        case(ids, numbers, &[]);
    }
    // What is left over is not looked at, be it noise or a row.
    let noise = [
        id_byte(3, 0, 0xff),
        id_byte(3, 30, b'a'),
        number(3, 0, i64::MIN),
        number(3, 7, i64::MAX),
    ];
    for (ids, numbers) in [(127, 35), (127, 100), (400, 35), (96, 27), (128, 36)] {
        case(ids, numbers, &noise);
    }
    // Seven rows, of which the last has no id, or one.
    case(224, 63, &[]);
    case(224, 63, &[id_byte(6, 0, b'Z')]);
    case(224, 63, &[id_byte(6, 0, b'G')]);
}

/// Where no text is accepted, every value is 0 before the edits.
fn no_text(cases: &mut Vec<Case>) {
    let month = Edit::Header(0, 1);
    for (name, rows, edits) in [
        ("zeros", 0, vec![]),
        ("zeros in a row", 1, vec![]),
        ("zeros but for the month", 0, vec![month]),
        ("zeros but for the month, and a row", 1, vec![month]),
        ("a unit of zeros", 1, vec![month, id_byte(0, 0, b'A')]),
        (
            "a unit of zeros again",
            2,
            vec![month, id_byte(0, 0, b'A'), id_byte(1, 0, b'A')],
        ),
        ("a line too many", 4097, vec![month]),
        ("a line too many, no month", 4097, vec![]),
        (
            "a line too many, short beyond its range",
            4097,
            vec![month, Edit::Header(6, 200_000_001)],
        ),
        ("no id in any row", 4096, vec![month]),
    ] {
        for text in ["", "month=1\n"] {
            let writing = Writing::of(text, rows).edited(&edits);
            let label = format!("{name}, from the text {text:?}");
            cases.case(label, writing.into(200));
        }
    }
}

/// A value that may be in range, beyond it, or anywhere.
fn random_value(random: &mut Random) -> i64 {
    match random.within(0, 5) {
        0 => random.within(-1, 8),
        1 => *random.pick(&[i64::MIN, i64::MAX, -1, 2_000_001, 200_000_001]),
        2 => random.bits() as i64,
        _ => random.within(0, POWER),
    }
}

fn random_values(cases: &mut Vec<Case>, random: &mut Random) {
    for part in 0..12 {
        let lines = random_text(random, 5);
        let text = bytes(&lines);
        let held = lines.iter().filter(|line| line.starts_with("id=")).count();
        for number in 0..8 {
            let rows = held.max(1);
            let edits: Vec<Edit> = (0..random.within(0, 4))
                .map(|_| match random.within(0, 4) {
                    0 => Edit::Header(random.place(8), random_value(random)),
                    1 => Edit::Ids(random.place(rows * ID_ROW), *random.pick(b"\0AR01_x")),
                    _ => Edit::Numbers(random.place(rows * NUMBER_ROW), random_value(random)),
                })
                .collect();
            let mut writing = Writing::of(text.clone(), held).edited(&edits);
            if random.one_in(4) {
                writing.ids += random.place(40);
                writing.numbers += random.place(12);
            }
            let length = (writing.fits() as i64 + random.within(-1, 2)) as usize;
            let label = format!("random values {part}.{number}");
            cases.case(label, writing.into(length));
        }
    }
}

/// The longest text with marks on these lines of each resource, counted from 1:
/// what stands above its last resource, and that one.
pub fn longest_text(marks: &[usize]) -> (Text, Lines) {
    let header = bytes(&with_value(&snapshot(&LONGEST_HEADER, &[]), 8, "4096"));
    let numbers = [-POWER, POWER, POWER, POWER, POWER, 1];
    let unit = |id: &str| {
        let lines = listing(&generator(id, "wind", "SHUTDOWN", numbers));
        marked(&lines, marks)
    };
    let above = Text::from(header).then(4095, bytes(&unit("LONGEST_UNIT#")));
    (above, unit("LONGEST_UNIT4095"))
}

/// The longest text that can be, of as many resources as there can be, read
/// and written, and faults in its last lines.
fn longest(cases: &mut Vec<Case>) {
    let (above, last) = longest_text(&[]);
    let text = above.clone().then(1, bytes(&last));
    longest_read(cases, &above, &last, &text);
    longest_written(cases, text);
}

fn longest_read(cases: &mut Vec<Case>, above: &Text, last: &[String], text: &Text) {
    for rows in [4096, 4097, 4095, 0] {
        let label = format!("the longest text, into {rows} rows");
        cases.case(label, into_rows(text.clone(), rows));
    }
    let (ids, numbers) = (4096 * ID_ROW, 4096 * NUMBER_ROW);
    for (ids, numbers) in [
        (ids - 1, numbers),
        (ids, numbers - 1),
        (ids + 31, numbers + 8),
    ] {
        let label = format!("the longest text, into {ids} bytes and {numbers} numbers");
        cases.case(label, read(text.clone(), ids, numbers));
    }
    for rows in [4096, 0] {
        let mut case = |label: &str, text: Text| {
            let label = format!("the longest text, {label}, into {rows} rows");
            cases.case(label, into_rows(text, rows));
        };
        for (at, due) in [(1, Due::Id), (9, Due::Number(0, 1))] {
            for (label, last) in damages(last, at, due) {
                let label = label.replace(&format!("line {at}"), "last unit's line");
                case(&label, above.clone().then(1, last));
            }
        }
        for id in ["LONGEST_UNIT0000", "LONGEST_UNIT2047", "LONGEST_UNIT4094"] {
            let last = bytes(&with_value(last, 1, id));
            case(
                &format!("the last is {id} again"),
                above.clone().then(1, last),
            );
        }
        case("a byte follows", text.clone().then(1, "\n"));
    }
}

fn longest_written(cases: &mut Vec<Case>, text: Text) {
    let full = Writing::of(text, 4096);
    let fits = full.fits();
    for length in [0, fits - 1, fits, fits + 1, LONGEST_BUFFER] {
        let label = format!("the longest text written, buffer of {length}");
        cases.case(label, full.clone().into(length));
    }
    let mut case = |label: &str, writing: &Writing, edits: &[Edit], length: usize| {
        let label = format!("the longest text written, {label}");
        cases.case(label, writing.clone().edited(edits).into(length));
    };
    // The digits of an id in its row.
    let digits = |row: usize, id: usize| -> Vec<Edit> {
        let digits = format!("{id:04}").into_bytes();
        let digits = (12..).zip(digits);
        digits
            .map(|(place, digit)| id_byte(row, place, digit))
            .collect()
    };
    for (label, edits) in [
        ("the last flag at 2", vec![number(4095, 7, 2)]),
        ("the last flag at 0", vec![number(4095, 7, 0)]),
        (
            "the last Non-Spin beyond its range",
            vec![number(4095, 6, POWER + 1)],
        ),
        ("the last status at 7", vec![number(4095, 1, 7)]),
        ("the last kind at 6", vec![number(4095, 0, 6)]),
        ("the last id ill-formed", vec![id_byte(4095, 15, b'a')]),
        ("the last id empty", vec![id_byte(4095, 0, 0)]),
        ("the last id as the first", digits(4095, 0)),
        ("the last id as one in the middle", digits(4095, 2047)),
        ("the last id as the one before", digits(4095, 4094)),
        ("one in the middle as the first", digits(2048, 0)),
        ("one in the middle as the last", digits(2048, 4095)),
        (
            "a number in the middle beyond its range",
            vec![number(2048, 2, -POWER - 1)],
        ),
        ("the second as the first", digits(1, 0)),
        (
            "the last a load",
            vec![number(4095, 0, 4), number(4095, 2, 0)],
        ),
        ("the count at 0", vec![Edit::Header(7, 0)]),
    ] {
        case(label, &full, &edits, fits);
        if edits.len() == 1 {
            case(&format!("{label}, no buffer"), &full, &edits, 0);
        }
    }
    let most = full.clone().handing(ROWS * ID_ROW, ROWS * NUMBER_ROW);
    case("one held too many", &most, &[], LONGEST_BUFFER);
    case("one held too many, no buffer", &most, &[], 0);
    case(
        "one held too many, no first id",
        &most,
        &[id_byte(0, 0, 0)],
        fits,
    );
    let edits = [Edit::Header(6, -1)];
    case(
        "one held too many, short beyond its range",
        &most,
        &edits,
        fits,
    );
    for (ids, numbers) in [
        (ROWS * ID_ROW - 1, ROWS * NUMBER_ROW),
        (ROWS * ID_ROW, ROWS * NUMBER_ROW - 1),
        (4095 * ID_ROW, ROWS * NUMBER_ROW),
        (ROWS * ID_ROW, 4095 * NUMBER_ROW + 8),
    ] {
        let some = full.clone().handing(ids, numbers);
        let label = format!("{ids} bytes and {numbers} numbers handed over");
        case(&label, &some, &[id_byte(4096, 0, b'Z')], fits);
    }
}
