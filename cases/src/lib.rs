//! Stored cases: inputs of every operation, with the reference's answers.
//!
//! README.md says how they are written down.

mod book;
mod curve_text;
mod curves_length;
mod format;
mod held;
mod marked_values;
mod marks;
mod page;
mod price;
mod programs;
mod read_values;
mod settle;
mod texts;
mod write_values;

pub use format::{decode, encode};
pub use held::{checksum_of_numbers, Edit, LONGEST_BUFFER, MARKS, MOST_EDITS, ROWS};
pub use random::Random;

use reference::{
    book, curves_length, price_snapshot, read_curves, run_curves, run_page, run_price, settle,
    write_curves, write_page, CurveSet, Record, Refusal,
};
use std::collections::BTreeMap;

/// A text in pieces, each of which stands there a number of times.
///
/// In a piece, the byte `#` stands for the number of the repeat, 0 for the
/// first, in four digits: so that many resources with ids of their own take
/// little room.
#[derive(Clone, Debug, Default, PartialEq, Eq)]
pub struct Text {
    pub pieces: Vec<(usize, Vec<u8>)>,
}

impl Text {
    /// The text itself.
    pub fn bytes(&self) -> Vec<u8> {
        let mut bytes = Vec::new();
        for (times, piece) in &self.pieces {
            for repeat in 0..*times {
                for &byte in piece {
                    if byte == b'#' {
                        bytes.extend(format!("{repeat:04}").into_bytes());
                    } else {
                        bytes.push(byte);
                    }
                }
            }
        }
        bytes
    }

    /// Adds a piece.
    pub fn then(mut self, times: usize, piece: impl Into<Vec<u8>>) -> Text {
        self.pieces.push((times, piece.into()));
        self
    }
}

impl<T: Into<Vec<u8>>> From<T> for Text {
    fn from(bytes: T) -> Text {
        Text::default().then(1, bytes)
    }
}

/// One call of an operation.
#[derive(Clone, Debug, PartialEq, Eq)]
pub enum Input {
    Book {
        record: Record,
        text: Text,
    },
    Settle {
        record: Record,
        voll: i64,
        floor: i64,
    },
    Read {
        text: Text,
    },
    Write {
        curves: CurveSet,
        length: usize,
    },
    Price {
        curves: CurveSet,
        text: Text,
    },
    /// The program `price` on an input.
    PriceProgram {
        text: Text,
    },
    /// The program `curves` on an input in two parts, of which the first has so
    /// many bytes.
    CurvesProgram {
        text: Text,
        first: usize,
    },
    WritePage {
        curves: CurveSet,
        length: usize,
    },
    /// The program `page` on an input.
    PageProgram {
        text: Text,
    },
    /// A snapshot's text read into space of so many bytes and so many numbers.
    ReadValues {
        text: Text,
        ids: usize,
        numbers: usize,
    },
    /// The values of a snapshot's text, edited, of which so many bytes and so
    /// many numbers are written into a buffer of so many bytes.
    WriteValues {
        text: Text,
        edits: Vec<Edit>,
        ids: usize,
        numbers: usize,
        length: usize,
    },
    /// The length of a curve set's text, before it is written.
    CurvesLength {
        curves: CurveSet,
    },
}

impl Input {
    pub fn letter(&self) -> char {
        match self {
            Input::Book { .. } => 'B',
            Input::Settle { .. } => 'S',
            Input::Read { .. } => 'R',
            Input::Write { .. } => 'W',
            Input::Price { .. } => 'P',
            Input::PriceProgram { .. } => 'p',
            Input::CurvesProgram { .. } => 'c',
            Input::WritePage { .. } => 'G',
            Input::PageProgram { .. } => 'g',
            Input::ReadValues { .. } => 'V',
            Input::WriteValues { .. } => 'T',
            Input::CurvesLength { .. } => 'L',
        }
    }
}

/// A call, and what it is there for.
#[derive(Clone, Debug)]
pub struct Case {
    pub label: String,
    pub input: Input,
}

/// What the reference answers.
#[derive(Clone, Debug, PartialEq, Eq)]
pub enum Answer {
    Accepted(Vec<i64>),
    /// With the numbers of what was lent, which stand as before.
    Refused(Refusal, Vec<i64>),
    /// The lines that a program prints.
    Printed(String),
    /// The answers of two calls on the same values.
    Two(Box<Answer>, Box<Answer>),
}

impl Answer {
    /// The answer's line in `expected.txt`, without its byte 10.
    pub fn line(&self) -> String {
        let numbers =
            |numbers: &[i64]| -> String { numbers.iter().map(|one| format!(" {one}")).collect() };
        match self {
            Answer::Accepted(values) => format!("accepted{}", numbers(values)),
            Answer::Refused(Refusal { number, line }, values) => {
                format!("refused {number} line {line}{}", numbers(values))
            }
            Answer::Printed(lines) => lines.replace('\n', " "),
            Answer::Two(first, second) => format!("{} {}", first.line(), second.line()),
        }
    }

    /// The number of the refusal, 0 where the input is accepted. Of two answers
    /// the second counts.
    pub fn number(&self) -> u32 {
        match self {
            Answer::Accepted(_) => 0,
            Answer::Refused(refusal, _) => refusal.number,
            Answer::Printed(lines) => {
                let number = lines
                    .lines()
                    .next()
                    .and_then(|line| line.strip_prefix("refused="));
                number.map_or(0, |number| number.parse().expect("a refusal has a number"))
            }
            Answer::Two(_, second) => second.number(),
        }
    }
}

/// A buffer before anything is written to it.
pub fn buffer(length: usize) -> Vec<u8> {
    (0..length).map(|place| (place % 251) as u8).collect()
}

/// A checksum that needs no number above 300 000 000 000.
pub fn checksum(bytes: &[u8]) -> i64 {
    let add = |sum: i64, &byte: &u8| (257 * sum + i64::from(byte) + 1) % 1_000_000_007;
    bytes.iter().fold(0, add)
}

/// The 72 numbers of a record: count, sum and squares of each group.
pub fn record_numbers(record: &Record) -> Vec<i64> {
    let groups = record.groups.iter();
    groups
        .flat_map(|group| [group.count as i64, group.sum, group.squares])
        .collect()
}

/// The 50 numbers of a curve set: VOLL, X, then mu and sigma of each group.
pub fn curve_numbers(curves: &CurveSet) -> Vec<i64> {
    let pairs = curves.pairs.iter().flat_map(|&(mu, sigma)| [mu, sigma]);
    [curves.voll, curves.floor]
        .into_iter()
        .chain(pairs)
        .collect()
}

/// What stands in each number of an array that an answer is lent.
const LENT: i64 = 7;

/// The reference's answer.
pub fn answer(input: &Input) -> Answer {
    let refused = |lent| move |refusal| Answer::Refused(refusal, vec![LENT; lent]);
    match input {
        Input::Book { record, text } => match book(record, &text.bytes()) {
            Ok(record) => Answer::Accepted(record_numbers(&record)),
            Err(refusal) => Answer::Refused(refusal, record_numbers(record)),
        },
        Input::Settle {
            record,
            voll,
            floor,
        } => settle(record, *voll, *floor).map_or_else(refused(50), curves_answer),
        Input::Read { text } => read_curves(&text.bytes()).map_or_else(refused(50), curves_answer),
        Input::Write { curves, length } => {
            let mut buffer = buffer(*length);
            match write_curves(curves, &mut buffer) {
                Ok(written) => Answer::Accepted(vec![written as i64, checksum(&buffer)]),
                Err(refusal) => Answer::Refused(refusal, vec![LENT, checksum(&buffer)]),
            }
        }
        Input::Price { curves, text } => match price_snapshot(curves, &text.bytes()) {
            Ok(prices) => Answer::Accepted(vec![
                prices.rs,
                prices.rsns,
                prices.pis,
                prices.pins,
                prices.online,
                prices.offline,
            ]),
            Err(refusal) => refused(6)(refusal),
        },
        Input::PriceProgram { text } => printed(run_price(&text.bytes())),
        Input::CurvesProgram { text, .. } => printed(run_curves(&text.bytes())),
        Input::WritePage { curves, length } => {
            let mut buffer = buffer(*length);
            match write_page(curves, &mut buffer) {
                Ok(_) => Answer::Accepted(vec![checksum(&buffer)]),
                Err(refusal) => Answer::Refused(refusal, vec![checksum(&buffer)]),
            }
        }
        Input::PageProgram { text } => printed(run_page(&text.bytes())),
        Input::ReadValues { text, ids, numbers } => {
            held::read_answer(&text.bytes(), *ids, *numbers)
        }
        Input::WriteValues {
            text,
            edits,
            ids,
            numbers,
            length,
        } => held::write_answer(&text.bytes(), edits, *ids, *numbers, *length),
        Input::CurvesLength { curves } => match curves_length(curves) {
            Ok(length) => Answer::Accepted(vec![length as i64]),
            Err(refusal) => refused(1)(refusal),
        },
    }
}

fn curves_answer(curves: CurveSet) -> Answer {
    Answer::Accepted(curve_numbers(&curves))
}

fn printed(output: Vec<u8>) -> Answer {
    Answer::Printed(String::from_utf8(output).expect("a program prints ASCII alone"))
}

/// All cases that follow from the seed.
pub fn all_cases(seed: u64) -> Vec<Case> {
    let mut random = Random::new(seed);
    let mut cases = Vec::new();
    book::add(&mut cases, &mut random);
    settle::add(&mut cases, &mut random);
    curve_text::add(&mut cases, &mut random);
    price::add(&mut cases, &mut random);
    programs::add(&mut cases, &mut random);
    page::add(&mut cases, &mut random);
    read_values::add(&mut cases, &mut random);
    write_values::add(&mut cases, &mut random);
    curves_length::add(&mut cases);
    marks::add(&mut cases);
    marked_values::add(&mut cases, &mut random);
    cases
}

/// The refusal numbers that each operation can give.
pub const CAN_REFUSE: [(char, &[u32]); 12] = [
    ('B', &[1, 2, 3, 4, 5, 6, 7, 9, 10, 11]),
    ('S', &[1, 7, 12, 13]),
    ('R', &[2, 3, 4, 5, 6, 7, 9]),
    ('W', &[1, 14]),
    ('P', &[1, 2, 3, 4, 5, 6, 7, 8, 9, 15]),
    ('p', &[2, 3, 4, 5, 6, 7, 8, 9, 15]),
    ('c', &[2, 3, 4, 5, 6, 7, 9, 10, 11, 12, 13]),
    ('G', &[1, 14]),
    ('g', &[2, 3, 4, 5, 6, 7, 9]),
    ('V', &[2, 3, 4, 5, 6, 7, 8, 9, 14, 15]),
    ('T', &[6, 7, 8, 14, 15]),
    ('L', &[1]),
];

/// How often each answer came: by operation and refusal number, 0 standing
/// for an accepted input.
pub fn tally<'a>(
    answers: impl Iterator<Item = (&'a Case, &'a Answer)>,
) -> BTreeMap<(char, u32), usize> {
    let mut tally = BTreeMap::new();
    for (case, answer) in answers {
        let answer = (case.input.letter(), answer.number());
        *tally.entry(answer).or_insert(0) += 1;
    }
    tally
}
