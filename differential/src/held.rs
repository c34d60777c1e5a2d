//! Snapshots held as values: random ones, and ways to damage them.

use crate::texts::{Entry, Resource, Snapshot};
use crate::{Header, Random};
use std::fmt::Write;

/// The bytes of an id's row, and how many of them an id can have.
pub const ID_ROW: usize = 32;
const LONGEST_ID: usize = 16;
/// The places of a resource's row of numbers, and the place of the marks.
pub const NUMBER_ROW: usize = 9;
pub const MARKS: usize = 8;

const KINDS: [&str; 6] = ["gen", "wind", "irr", "nuke", "clr", "nclr"];
const STATUSES: [&str; 7] = ["ON", "OFF", "OFFNS", "ONTEST", "STARTUP", "SHUTDOWN", "OUT"];
const CLR: i64 = 4;
const NCLR: i64 = 5;

/// What a host holds: a row of ids and one of numbers for each resource.
#[derive(Clone, Debug, PartialEq, Eq)]
pub struct Held {
    pub header: Header,
    pub ids: Vec<u8>,
    pub numbers: Vec<i64>,
}

fn number_of(list: &[&str], word: &str) -> i64 {
    let place = list.iter().position(|listed| *listed == word);
    place.expect("the word is in its list") as i64
}

impl Held {
    /// The values of a snapshot, with 0 in every place that it has no use for.
    pub fn of(snapshot: &Snapshot) -> Held {
        let mut header = [0; 8];
        header[..7].copy_from_slice(&snapshot.header);
        header[7] = snapshot.resources.len() as i64;
        let (mut ids, mut numbers) = (Vec::new(), Vec::new());
        for Entry {
            id,
            resource,
            marks,
        } in &snapshot.resources
        {
            let mut bytes = [0; ID_ROW];
            bytes[..id.len()].copy_from_slice(id.as_bytes());
            ids.extend(bytes);
            let mut row = [0; NUMBER_ROW];
            match resource {
                Resource::Generator {
                    kind,
                    status,
                    values,
                } => {
                    row[0] = number_of(&KINDS, kind);
                    row[1] = number_of(&STATUSES, status);
                    row[2..8].copy_from_slice(values);
                }
                Resource::Clr(values) => {
                    row[0] = CLR;
                    row[2..6].copy_from_slice(values);
                }
                Resource::Nclr(values) => {
                    row[0] = NCLR;
                    row[2..6].copy_from_slice(values);
                }
            }
            row[MARKS] = i64::from(*marks);
            numbers.extend(row);
        }
        Held {
            header,
            ids,
            numbers,
        }
    }

    /// The number of resources held.
    pub fn rows(&self) -> usize {
        (self.ids.len() / ID_ROW).min(self.numbers.len() / NUMBER_ROW)
    }

    /// The id's row of a resource.
    pub fn id_row(&mut self, row: usize) -> &mut [u8] {
        &mut self.ids[row * ID_ROW..][..ID_ROW]
    }

    /// The numbers' row of a resource.
    pub fn number_row(&mut self, row: usize) -> &mut [i64] {
        &mut self.numbers[row * NUMBER_ROW..][..NUMBER_ROW]
    }
}

/// The length of the id in its row.
pub fn id_length(row: &[u8]) -> usize {
    let end = row[..LONGEST_ID].iter().position(|&byte| byte == 0);
    end.unwrap_or(LONGEST_ID)
}

/// How many numbers a resource of this kind has.
fn numbers_of(kind: i64) -> usize {
    if kind == CLR || kind == NCLR {
        4
    } else {
        6
    }
}

/// The places of a row, from 2 on, that its kind has no use for.
fn free_places(kind: i64) -> std::ops::Range<usize> {
    2 + numbers_of(kind)..MARKS
}

/// Another number that stands for the same marks: below 0 its magnitude counts,
/// and binary digits beyond the numbers of the kind do not.
fn same_marks(random: &mut Random, kind: i64, marks: i64) -> i64 {
    let counted = (1 << numbers_of(kind)) - 1;
    if marks & counted == 0 && random.one_in(8) {
        return i64::MIN;
    }
    let more = match random.bits() % 4 {
        0 => 0,
        1 => counted + 1,
        2 => 1 << random.within(6, 62),
        _ => (random.bits() >> 1) as i64,
    };
    let size = more & !counted | marks & counted;
    if random.one_in(2) {
        -size
    } else {
        size
    }
}

/// A number that means nothing where it stands.
fn noise(random: &mut Random) -> i64 {
    match random.bits() % 4 {
        0 => random.within(-2, 8),
        1 => *random.pick(&[i64::MIN, i64::MAX, -1, 2_000_001]),
        _ => random.bits() as i64,
    }
}

/// Puts something into the places that are not looked at; true if it did.
pub fn disturb(random: &mut Random, held: &mut Held) -> bool {
    if random.one_in(4) {
        return false;
    }
    held.header[7] = noise(random);
    for row in 0..held.rows() {
        let id = held.id_row(row);
        // The byte 0 that ends an id stays.
        let free = (id_length(id) + 1).min(LONGEST_ID);
        for byte in &mut id[free..] {
            if random.one_in(2) {
                *byte = random.bits() as u8;
            }
        }
        let numbers = held.number_row(row);
        let kind = numbers[0];
        if kind >= CLR && random.one_in(2) {
            numbers[1] = noise(random);
        }
        for number in &mut numbers[free_places(kind)] {
            if random.one_in(2) {
                *number = noise(random);
            }
        }
        if random.one_in(2) {
            numbers[MARKS] = same_marks(random, kind, numbers[MARKS]);
        }
    }
    // Bytes and numbers that make no whole row, or rows of one sort alone.
    match random.bits() % 4 {
        0 => held
            .ids
            .extend((0..random.place(ID_ROW)).map(|_| random.bits() as u8)),
        1 => held
            .numbers
            .extend((0..random.place(NUMBER_ROW)).map(|_| random.bits() as i64)),
        2 => held
            .ids
            .resize(held.ids.len() + random.place(3 * ID_ROW), b'a'),
        _ => held
            .numbers
            .resize(held.numbers.len() + random.place(3 * NUMBER_ROW), -1),
    }
    true
}

/// Damages values once, or a few times.
pub fn damage_held(random: &mut Random, held: &mut Held) {
    damage_once(random, held);
    while random.one_in(3) {
        damage_once(random, held);
    }
}

fn damage_once(random: &mut Random, held: &mut Held) {
    let rows = held.rows();
    if rows == 0 || random.one_in(8) {
        return damage_header(random, &mut held.header);
    }
    let (row, other) = (random.place(rows), random.place(rows));
    match random.bits() % 9 {
        0..=2 => damage_id(random, held, row, other),
        3 => held.number_row(row)[0] = *random.pick(&[-1, 6, 7, 256, 1 << 32, i64::MIN, i64::MAX]),
        4 => held.number_row(row)[1] = *random.pick(&[-1, 7, 8, 256, 1 << 32, i64::MIN, i64::MAX]),
        5 => {
            // Another kind, with the numbers of the old one.
            held.number_row(row)[0] = random.within(0, 5);
        }
        6 => {
            // Rows that are cut, and so fewer of them.
            if random.one_in(2) {
                held.ids.truncate(held.ids.len() - random.place(ID_ROW));
            } else {
                held.numbers
                    .truncate(held.numbers.len() - random.place(NUMBER_ROW));
            }
        }
        7 => held.number_row(row)[MARKS] = any_marks(random),
        _ => damage_number(random, held.number_row(row)),
    }
}

/// Marks on numbers that may carry them, on flags, or both; or any number.
fn any_marks(random: &mut Random) -> i64 {
    let marks = match random.bits() % 4 {
        0 => 1 << random.within(0, 5),
        1 => random.within(0, 63),
        2 => return noise(random),
        _ => random.within(0, 127),
    };
    if random.one_in(4) {
        -marks
    } else {
        marks
    }
}

fn damage_header(random: &mut Random, header: &mut Header) {
    let place = random.place(7);
    let high = [
        12,
        23,
        2_000_000,
        10_000,
        200_000_000,
        200_000_000,
        200_000_000,
    ][place];
    let low = [1, 0, -2_000_000, 0, 0, 0, 0][place];
    header[place] = *random.pick(&[low - 1, low, high, high + 1, i64::MIN, i64::MAX]);
}

fn damage_number(random: &mut Random, row: &mut [i64]) {
    let place = 2 + random.place(free_places(row[0]).start - 2);
    row[place] = match random.bits() % 4 {
        0 => *random.pick(&[-1, 2, i64::MIN, i64::MAX]),
        1 => *random.pick(&[-2_000_001, -2_000_000, 2_000_000, 2_000_001]),
        2 => random.bits() as i64,
        _ => random.within(-3, 3),
    };
}

fn damage_id(random: &mut Random, held: &mut Held, row: usize, other: usize) {
    let again = held.id_row(other).to_vec();
    let id = held.id_row(row);
    match random.bits() % 6 {
        0 => id[random.place(LONGEST_ID)] = random.bits() as u8,
        1 => id[random.place(LONGEST_ID)] = *random.pick(b"@[/:^`a-\n \0"),
        2 => id[0] = 0,
        // The id of another, with what stood after it or with something else.
        3 => id.copy_from_slice(&again),
        _ => {
            let length = id_length(&again);
            id[..length].copy_from_slice(&again[..length]);
            if length < LONGEST_ID {
                id[length] = 0;
            }
        }
    }
}

/// The values, for people: a line for each row, and what is left over.
pub fn show_held(out: &mut String, held: &Held) {
    let Held {
        header,
        ids,
        numbers,
    } = held;
    writeln!(out, "  header {header:?}").unwrap();
    writeln!(out, "  {} bytes of ids:", ids.len()).unwrap();
    for row in ids.chunks(ID_ROW) {
        writeln!(out, "    \"{}\"", row.escape_ascii()).unwrap();
    }
    writeln!(out, "  {} numbers:", numbers.len()).unwrap();
    for row in numbers.chunks(NUMBER_ROW) {
        writeln!(out, "    {row:?}").unwrap();
    }
}
