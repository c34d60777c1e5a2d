//! One call of one operation, its outcome, and the counts of outcomes.

use crate::held::{show_held, Held};
use crate::{Curves, Header, Library, RecordNumbers, Refusal};
use std::fmt::Write;

#[derive(Clone, Debug, PartialEq, Eq)]
pub enum Input {
    Book {
        record: Box<RecordNumbers>,
        text: Vec<u8>,
    },
    Settle {
        record: Box<RecordNumbers>,
        voll: i64,
        floor: i64,
    },
    Read {
        text: Vec<u8>,
    },
    Write {
        curves: Curves,
        length: usize,
    },
    Price {
        curves: Curves,
        text: Vec<u8>,
    },
    WritePage {
        curves: Curves,
        length: usize,
    },
    /// Into space of so many bytes and so many numbers.
    ReadSnapshot {
        text: Vec<u8>,
        ids: usize,
        numbers: usize,
    },
    SnapshotLength {
        held: Held,
    },
    WriteSnapshot {
        held: Held,
        length: usize,
    },
    CurvesLength {
        curves: Curves,
    },
}

impl Input {
    /// The operation's place in [`CAN_REFUSE`].
    pub fn operation(&self) -> usize {
        match self {
            Input::Book { .. } => 0,
            Input::Settle { .. } => 1,
            Input::Read { .. } => 2,
            Input::Write { .. } => 3,
            Input::Price { .. } => 4,
            Input::WritePage { .. } => 5,
            Input::ReadSnapshot { .. } => 6,
            Input::SnapshotLength { .. } => 7,
            Input::WriteSnapshot { .. } => 8,
            Input::CurvesLength { .. } => 9,
        }
    }
}

const OPERATIONS: usize = 10;

/// The operations, with the refusal numbers that each can give.
pub const CAN_REFUSE: [(&str, &[u64]); OPERATIONS] = [
    ("book", &[1, 2, 3, 4, 5, 6, 7, 9, 10, 11]),
    ("settle", &[1, 7, 12, 13]),
    ("read_curves", &[2, 3, 4, 5, 6, 7, 9]),
    ("write_curves", &[1, 14]),
    ("price", &[1, 2, 3, 4, 5, 6, 7, 8, 9, 15]),
    ("write_page", &[1, 14]),
    ("read_snapshot", &[2, 3, 4, 5, 6, 7, 8, 9, 14, 15]),
    ("snapshot_length", &[6, 7, 8, 15]),
    ("write_snapshot", &[6, 7, 8, 14, 15]),
    ("curves_length", &[1]),
];

/// Everything that a call gives back or may have changed.
#[derive(Clone, Debug, PartialEq, Eq)]
pub struct Outcome {
    pub refusal: Refusal,
    /// The lent array after the call; of values, the header and the numbers.
    pub numbers: Vec<i64>,
    /// The lent buffer after the call; of values, the ids.
    pub buffer: Vec<u8>,
}

/// What stands in a lent array before the call: no answer looks like it.
fn before<const N: usize>() -> [i64; N] {
    std::array::from_fn(number_before)
}

fn number_before(place: usize) -> i64 {
    -7_000_000_000_000 - place as i64
}

/// What stands in a lent length before the call.
const LENGTH_BEFORE: usize = 7_000_000_000_000;

/// A buffer before the call: each byte tells its place.
fn buffer_before(length: usize) -> Vec<u8> {
    (0..length).map(|place| (place % 251) as u8).collect()
}

/// Makes the call.
pub fn run(library: &dyn Library, input: &Input) -> Outcome {
    let outcome = |refusal, numbers: &[i64]| Outcome {
        refusal,
        numbers: numbers.to_vec(),
        buffer: Vec::new(),
    };
    match input {
        Input::Book { record, text } => {
            let mut record = **record;
            let refusal = library.book(&mut record, text);
            outcome(refusal, &record)
        }
        Input::Settle {
            record,
            voll,
            floor,
        } => {
            let mut curves: Curves = before();
            let refusal = library.settle(record, *voll, *floor, &mut curves);
            outcome(refusal, &curves)
        }
        Input::Read { text } => {
            let mut curves: Curves = before();
            let refusal = library.read_curves(text, &mut curves);
            outcome(refusal, &curves)
        }
        Input::Write { curves, length } => {
            let mut buffer = buffer_before(*length);
            let [mut written] = before();
            let refusal = library.write_curves(curves, &mut buffer, &mut written);
            Outcome {
                refusal,
                numbers: vec![written],
                buffer,
            }
        }
        Input::Price { curves, text } => {
            let mut answer: crate::Answer = before();
            let refusal = library.price(curves, text, &mut answer);
            outcome(refusal, &answer)
        }
        Input::WritePage { curves, length } => {
            let mut buffer = buffer_before(*length);
            let refusal = library.write_page(curves, &mut buffer);
            Outcome {
                refusal,
                numbers: Vec::new(),
                buffer,
            }
        }
        Input::ReadSnapshot { text, ids, numbers } => {
            let mut header: Header = before();
            let mut ids = buffer_before(*ids);
            let mut numbers: Vec<i64> = (0..*numbers).map(number_before).collect();
            let refusal = library.read_snapshot(text, &mut header, &mut ids, &mut numbers);
            Outcome {
                refusal,
                numbers: [&header[..], &numbers].concat(),
                buffer: ids,
            }
        }
        Input::SnapshotLength { held } => {
            let mut length = LENGTH_BEFORE;
            let refusal =
                library.snapshot_length(&held.header, &held.ids, &held.numbers, &mut length);
            outcome(refusal, &[length as i64])
        }
        Input::WriteSnapshot { held, length } => {
            let mut buffer = buffer_before(*length);
            let mut written = LENGTH_BEFORE;
            let Held {
                header,
                ids,
                numbers,
            } = held;
            let refusal = library.write_snapshot(header, ids, numbers, &mut buffer, &mut written);
            Outcome {
                refusal,
                numbers: vec![written as i64],
                buffer,
            }
        }
        Input::CurvesLength { curves } => {
            let mut length = LENGTH_BEFORE;
            let refusal = library.curves_length(curves, &mut length);
            outcome(refusal, &[length as i64])
        }
    }
}

/// The greatest refusal number.
const MOST_NUMBER: usize = 15;

/// How often each outcome came: by operation, then by refusal number, 0
/// standing for an acceptance.
#[derive(Clone, Debug, Default)]
pub struct Tally {
    times: [[u64; MOST_NUMBER + 1]; OPERATIONS],
}

impl Tally {
    pub fn count(&mut self, operation: usize, refusal: Refusal) {
        // A number that does not exist is a difference, and told as one.
        if let Some(times) = self.times[operation].get_mut(refusal.number as usize) {
            *times += 1;
        }
    }

    pub fn times(&self, operation: usize, number: u64) -> u64 {
        self.times[operation][number as usize]
    }

    /// The outcomes that can come and never did.
    pub fn missing(&self) -> Vec<String> {
        let mut missing = Vec::new();
        for (operation, (name, numbers)) in CAN_REFUSE.iter().enumerate() {
            for &number in [0].iter().chain(*numbers) {
                if self.times(operation, number) == 0 {
                    missing.push(match number {
                        0 => format!("{name} accepted"),
                        _ => format!("{name} refused {number}"),
                    });
                }
            }
        }
        for number in 1..=MOST_NUMBER as u64 {
            if (0..OPERATIONS).all(|operation| self.times(operation, number) == 0) {
                missing.push(format!("refused {number} of any operation"));
            }
        }
        missing
    }

    /// The counts, a line for each operation.
    pub fn show(&self) -> String {
        let mut out = String::new();
        for (operation, (name, numbers)) in CAN_REFUSE.iter().enumerate() {
            write!(out, "{name:15} accepted {:>6}", self.times(operation, 0)).unwrap();
            for &number in *numbers {
                write!(out, "  {number}: {}", self.times(operation, number)).unwrap();
            }
            out.push('\n');
        }
        out
    }
}

/// Equal groups in a row, said once.
fn show_groups<const N: usize>(out: &mut String, numbers: &[i64], keys: [&str; N]) {
    let groups: Vec<&[i64]> = numbers.chunks(N).collect();
    let mut first = 0;
    for equal in groups.chunk_by(|one, next| one == next) {
        let last = first + equal.len() - 1;
        let values = keys.iter().zip(equal[0]);
        let values: Vec<String> = values
            .map(|(key, value)| format!("{key} {value}"))
            .collect();
        writeln!(out, "  groups {first}..{last}: {}", values.join(", ")).unwrap();
        first = last + 1;
    }
}

/// A curve set, equal pairs in a row said once.
pub fn show_curves(out: &mut String, curves: &Curves) {
    writeln!(out, "  VOLL {}, X {}", curves[0], curves[1]).unwrap();
    show_groups(out, &curves[2..], ["mu", "sigma"]);
}

/// A text with its lines numbered; odd bytes are escaped.
pub fn show_text(text: &[u8]) -> String {
    let mut out = format!("  text of {} bytes:\n", text.len());
    for (above, line) in text.split_inclusive(|&byte| byte == b'\n').enumerate() {
        let (shown, end) = match line {
            [shown @ .., b'\n'] => (shown, ""),
            shown => (shown, "   (no byte 10)"),
        };
        let shown = match shown.len() {
            0..=200 => shown.escape_ascii().to_string(),
            length => format!("{}... ({length} bytes)", shown[..80].escape_ascii()),
        };
        writeln!(out, "  {:>5} {shown}{end}", above + 1).unwrap();
    }
    out
}

/// The input, for people.
pub fn show(input: &Input) -> String {
    let mut out = format!("{}\n", CAN_REFUSE[input.operation()].0);
    let record_keys = ["count", "sum", "squares"];
    match input {
        Input::Book { record, text } => {
            show_groups(&mut out, &record[..], record_keys);
            out += &show_text(text);
        }
        Input::Settle {
            record,
            voll,
            floor,
        } => {
            show_groups(&mut out, &record[..], record_keys);
            writeln!(out, "  VOLL {voll}, X {floor}").unwrap();
        }
        Input::Read { text } => out += &show_text(text),
        Input::Write { curves, length } | Input::WritePage { curves, length } => {
            show_curves(&mut out, curves);
            writeln!(out, "  buffer of {length} bytes").unwrap();
        }
        Input::Price { curves, text } => {
            show_curves(&mut out, curves);
            out += &show_text(text);
        }
        Input::ReadSnapshot { text, ids, numbers } => {
            out += &show_text(text);
            writeln!(out, "  space of {ids} bytes and {numbers} numbers").unwrap();
        }
        Input::SnapshotLength { held } => show_held(&mut out, held),
        Input::WriteSnapshot { held, length } => {
            show_held(&mut out, held);
            writeln!(out, "  buffer of {length} bytes").unwrap();
        }
        Input::CurvesLength { curves } => show_curves(&mut out, curves),
    }
    out
}
