//! How cases are written down, and a reader of it.

use crate::{buffer, curve_numbers, record_numbers, Case, Edit, Input, Text};
use reference::{CurveSet, Group, Record, GROUPS};

/// The numbers of the operations.
const BOOK: i64 = 0;
const SETTLE: i64 = 1;
const READ: i64 = 2;
const WRITE: i64 = 3;
const PRICE: i64 = 4;
const PRICE_PROGRAM: i64 = 5;
const CURVES_PROGRAM: i64 = 6;
const WRITE_PAGE: i64 = 7;
const PAGE_PROGRAM: i64 = 8;
const READ_VALUES: i64 = 9;
const WRITE_VALUES: i64 = 10;
const CURVES_LENGTH: i64 = 11;

/// The numbers of the arrays that an edit can be of.
const HEADER: i64 = 0;
const IDS: i64 = 1;
const NUMBERS: i64 = 2;

/// Equal bytes at the end of a text that are written down once.
const LONG_RUN: usize = 24;

/// The bytes of `cases.bin`.
pub fn encode(cases: &[Case]) -> Vec<u8> {
    let mut writer = Writer::default();
    writer.numbers(&[cases.len() as i64]);
    for case in cases {
        writer.case(&case.input);
    }
    writer.out
}

#[derive(Default)]
struct Writer {
    out: Vec<u8>,
    /// The text before, where it is known.
    held: Vec<u8>,
}

impl Writer {
    fn numbers(&mut self, numbers: &[i64]) {
        for number in numbers {
            self.out.extend(number.to_be_bytes());
        }
    }

    fn case(&mut self, input: &Input) {
        match input {
            Input::Book { record, text } => {
                self.text(text.bytes(), BOOK);
                self.numbers(&record_numbers(record));
            }
            Input::Settle {
                record,
                voll,
                floor,
            } => {
                self.text(Vec::new(), SETTLE);
                self.numbers(&record_numbers(record));
                self.numbers(&[*voll, *floor]);
            }
            Input::Read { text } => self.text(text.bytes(), READ),
            Input::Write { curves, length } => self.written(curves, *length, WRITE),
            Input::WritePage { curves, length } => self.written(curves, *length, WRITE_PAGE),
            Input::Price { curves, text } => {
                self.text(text.bytes(), PRICE);
                self.numbers(&curve_numbers(curves));
            }
            Input::PriceProgram { text } => self.text(text.bytes(), PRICE_PROGRAM),
            Input::PageProgram { text } => self.text(text.bytes(), PAGE_PROGRAM),
            Input::CurvesProgram { text, first } => {
                self.text(text.bytes(), CURVES_PROGRAM);
                self.numbers(&[*first as i64]);
            }
            Input::ReadValues { text, ids, numbers } => {
                self.text(text.bytes(), READ_VALUES);
                self.numbers(&[*ids as i64, *numbers as i64]);
            }
            Input::WriteValues {
                text,
                edits,
                ids,
                numbers,
                length,
            } => {
                self.text(text.bytes(), WRITE_VALUES);
                self.edits(edits);
                self.numbers(&[*ids as i64, *numbers as i64, *length as i64]);
            }
            Input::CurvesLength { curves } => {
                self.text(Vec::new(), CURVES_LENGTH);
                self.numbers(&curve_numbers(curves));
            }
        }
    }

    /// So many edits, each its array, place and value.
    fn edits(&mut self, edits: &[Edit]) {
        self.numbers(&[edits.len() as i64]);
        for edit in edits {
            let (array, place, value) = match *edit {
                Edit::Header(place, value) => (HEADER, place, value),
                Edit::Ids(place, byte) => (IDS, place, i64::from(byte)),
                Edit::Numbers(place, value) => (NUMBERS, place, value),
            };
            self.numbers(&[array, place as i64, value]);
        }
    }

    /// A writing, whose buffer is the text; what stands there after it is not
    /// known here.
    fn written(&mut self, curves: &CurveSet, length: usize, operation: i64) {
        self.text(buffer(length), operation);
        self.numbers(&curve_numbers(curves));
        self.held.clear();
    }

    /// A text, and the number of the operation on it.
    fn text(&mut self, text: Vec<u8>, operation: i64) {
        let last = text.last().copied().unwrap_or(0);
        let run = text.iter().rev().take_while(|&&byte| byte == last).count();
        let stop = text.len() - if run < LONG_RUN { 0 } else { run };
        let both = text[..stop].iter().zip(&self.held);
        let start = both.take_while(|(byte, held)| byte == held).count();
        self.numbers(&[text.len() as i64, stop as i64, start as i64]);
        self.out.extend(&text[start..stop]);
        self.numbers(&[i64::from(last), operation]);
        self.held = text;
    }
}

/// Reads the inputs back, each text as one piece. `None` where the bytes are
/// no cases.
pub fn decode(bytes: &[u8]) -> Option<Vec<Input>> {
    let mut reader = Reader { rest: bytes };
    let mut text = Vec::new();
    let mut inputs = Vec::new();
    for _ in 0..reader.number()? {
        let end = reader.number()? as usize;
        let stop = reader.number()? as usize;
        let start = reader.number()? as usize;
        text.truncate(start);
        text.extend(reader.take(stop.checked_sub(start)?)?);
        text.resize(end, reader.number()? as u8);
        inputs.push(reader.input(&text)?);
    }
    reader.rest.is_empty().then_some(inputs)
}

struct Reader<'a> {
    rest: &'a [u8],
}

impl<'a> Reader<'a> {
    fn take(&mut self, length: usize) -> Option<&'a [u8]> {
        let (front, rest) = self.rest.split_at_checked(length)?;
        self.rest = rest;
        Some(front)
    }

    fn number(&mut self) -> Option<i64> {
        let bytes = self.take(8)?.try_into().ok()?;
        Some(i64::from_be_bytes(bytes))
    }

    fn record(&mut self) -> Option<Record> {
        let mut groups = [Group::default(); GROUPS];
        for group in &mut groups {
            group.count = self.number()? as u64;
            group.sum = self.number()?;
            group.squares = self.number()?;
        }
        Some(Record { groups })
    }

    fn curves(&mut self) -> Option<CurveSet> {
        let (voll, floor) = (self.number()?, self.number()?);
        let mut pairs = [(0, 0); GROUPS];
        for pair in &mut pairs {
            *pair = (self.number()?, self.number()?);
        }
        Some(CurveSet { voll, floor, pairs })
    }

    fn length(&mut self) -> Option<usize> {
        usize::try_from(self.number()?).ok()
    }

    fn edit(&mut self) -> Option<Edit> {
        let (array, place, value) = (self.number()?, self.length()?, self.number()?);
        Some(match array {
            HEADER => Edit::Header(place, value),
            IDS => Edit::Ids(place, value.try_into().ok()?),
            NUMBERS => Edit::Numbers(place, value),
            _ => return None,
        })
    }

    fn input(&mut self, text: &[u8]) -> Option<Input> {
        let length = text.len();
        let text = Text::from(text);
        Some(match self.number()? {
            BOOK => Input::Book {
                record: self.record()?,
                text,
            },
            SETTLE => Input::Settle {
                record: self.record()?,
                voll: self.number()?,
                floor: self.number()?,
            },
            READ => Input::Read { text },
            WRITE => Input::Write {
                curves: self.curves()?,
                length,
            },
            PRICE => Input::Price {
                curves: self.curves()?,
                text,
            },
            PRICE_PROGRAM => Input::PriceProgram { text },
            PAGE_PROGRAM => Input::PageProgram { text },
            WRITE_PAGE => Input::WritePage {
                curves: self.curves()?,
                length,
            },
            CURVES_PROGRAM => Input::CurvesProgram {
                text,
                first: self.number()? as usize,
            },
            READ_VALUES => Input::ReadValues {
                text,
                ids: self.length()?,
                numbers: self.length()?,
            },
            WRITE_VALUES => Input::WriteValues {
                text,
                edits: (0..self.number()?)
                    .map(|_| self.edit())
                    .collect::<Option<_>>()?,
                ids: self.length()?,
                numbers: self.length()?,
                length: self.length()?,
            },
            CURVES_LENGTH => Input::CurvesLength {
                curves: self.curves()?,
            },
            _ => return None,
        })
    }
}
