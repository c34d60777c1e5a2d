//! Snapshots held as values: what a case lends, its edits, and the answers.

use crate::{buffer, checksum, Answer};
use reference::{held_length, read_held, write_held, ID_ROW, NUMBER_ROW};

/// The rows of the space that values are read into before they are written:
/// one more than a snapshot can have.
pub const ROWS: usize = 4097;

/// The bytes of the longest buffer that values are written to; the longest text
/// has 516198.
pub const LONGEST_BUFFER: usize = 524_288;

/// No case has more edits.
pub const MOST_EDITS: usize = 1000;

/// The place of a row that holds the marks of its numbers.
pub const MARKS: usize = 8;

/// A place of the values held, and what is put there.
#[derive(Clone, Copy, Debug, PartialEq, Eq)]
pub enum Edit {
    Header(usize, i64),
    Ids(usize, u8),
    Numbers(usize, i64),
}

/// Values as a host holds them.
struct Held {
    header: [i64; 8],
    ids: Vec<u8>,
    numbers: Vec<i64>,
}

impl Held {
    /// Space with 0 everywhere.
    fn empty() -> Held {
        Held {
            header: [0; 8],
            ids: vec![0; ROWS * ID_ROW],
            numbers: vec![0; ROWS * NUMBER_ROW],
        }
    }

    fn edit(&mut self, edit: &Edit) {
        match *edit {
            Edit::Header(place, value) => self.header[place] = value,
            Edit::Ids(place, byte) => self.ids[place] = byte,
            Edit::Numbers(place, value) => self.numbers[place] = value,
        }
    }
}

/// The values of a text, edited; 0 stays in every place where the text is not
/// accepted.
fn edited(text: &[u8], edits: &[Edit]) -> Held {
    let mut held = Held::empty();
    // What is refused leaves the zeros, which are as good as values.
    let _ = read_held(text, &mut held.header, &mut held.ids, &mut held.numbers);
    for edit in edits {
        held.edit(edit);
    }
    held
}

/// The exact length of the text of edited values, where they are accepted.
pub fn edited_length(text: &[u8], edits: &[Edit], ids: usize, numbers: usize) -> Option<usize> {
    length_of(&edited(text, edits), ids, numbers)
}

/// The length that the text of edited values has without its marks, where they
/// are accepted so.
pub fn unmarked_length(text: &[u8], edits: &[Edit], ids: usize, numbers: usize) -> Option<usize> {
    let mut held = edited(text, edits);
    for marks in held.numbers.iter_mut().skip(MARKS).step_by(NUMBER_ROW) {
        *marks = 0;
    }
    length_of(&held, ids, numbers)
}

fn length_of(held: &Held, ids: usize, numbers: usize) -> Option<usize> {
    held_length(&held.header, &held.ids[..ids], &held.numbers[..numbers]).ok()
}

/// A checksum of numbers, which takes two steps of that of bytes for each: one
/// with 1 where the number is below 0 and with 0 elsewhere, one with its size.
pub fn checksum_of_numbers(numbers: &[i64]) -> i64 {
    let modulus = 1_000_000_007;
    let step = |sum: i64, value: i64| (257 * sum + value + 1) % modulus;
    numbers.iter().fold(0, |sum, number| {
        let size = number.unsigned_abs() % modulus as u64;
        step(step(sum, i64::from(*number < 0)), size as i64)
    })
}

/// The answer of reading a text into space of so many bytes and numbers.
pub fn read_answer(text: &[u8], ids: usize, numbers: usize) -> Answer {
    let mut header = [crate::LENT; 8];
    let mut ids = buffer(ids);
    let mut numbers: Vec<i64> = (crate::LENT..).take(numbers).collect();
    let read = read_held(text, &mut header, &mut ids, &mut numbers);
    let mut lent = header.to_vec();
    lent.extend([checksum(&ids), checksum_of_numbers(&numbers)]);
    match read {
        Ok(()) => Answer::Accepted(lent),
        Err(refusal) => Answer::Refused(refusal, lent),
    }
}

/// The answers of asking for the length of values and of writing them.
pub fn write_answer(
    text: &[u8],
    edits: &[Edit],
    ids: usize,
    numbers: usize,
    length: usize,
) -> Answer {
    let held = edited(text, edits);
    let (ids, numbers) = (&held.ids[..ids], &held.numbers[..numbers]);
    let mut buffer = buffer(length);
    let asked = held_length(&held.header, ids, numbers);
    let written = write_held(&held.header, ids, numbers, &mut buffer);
    let sum = checksum(&buffer);
    let asked = match asked {
        Ok(length) => Answer::Accepted(vec![length as i64]),
        Err(refusal) => Answer::Refused(refusal, vec![crate::LENT]),
    };
    let written = match written {
        Ok(length) => Answer::Accepted(vec![length as i64, sum]),
        Err(refusal) => Answer::Refused(refusal, vec![crate::LENT, sum]),
    };
    Answer::Two(Box::new(asked), Box::new(written))
}
