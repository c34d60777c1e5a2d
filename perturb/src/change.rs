//! The ways in which a reading is changed.

use crate::reading::{text_of, Holds, Reading};

#[derive(Clone, Copy, Debug, PartialEq, Eq)]
pub enum ChangeKind {
    Blank,
    Cut,
    Moved,
    MisspeltKey,
    MisspeltValue,
    OtherCase,
    Repeated,
    AboveRange,
    BelowRange,
    OtherId,
    OtherWord,
    Zero,
    OneUp,
    OneDown,
    Doubled,
    Marked,
    Unmarked,
}

impl ChangeKind {
    pub fn name(self) -> &'static str {
        match self {
            ChangeKind::Blank => "blank",
            ChangeKind::Cut => "cut",
            ChangeKind::Moved => "moved",
            ChangeKind::MisspeltKey => "misspelt key",
            ChangeKind::MisspeltValue => "misspelt value",
            ChangeKind::OtherCase => "other case",
            ChangeKind::Repeated => "repeated",
            ChangeKind::AboveRange => "out of range, above",
            ChangeKind::BelowRange => "out of range, below",
            ChangeKind::OtherId => "other id",
            ChangeKind::OtherWord => "other word",
            ChangeKind::Zero => "zero",
            ChangeKind::OneUp => "one up",
            ChangeKind::OneDown => "one down",
            ChangeKind::Doubled => "doubled",
            ChangeKind::Marked => "marked suspect",
            ChangeKind::Unmarked => "mark taken off",
        }
    }

    /// Whether the reading is given another value, not damaged.
    pub fn gives_a_value(self) -> bool {
        matches!(
            self,
            ChangeKind::Zero
                | ChangeKind::OneUp
                | ChangeKind::OneDown
                | ChangeKind::Doubled
                | ChangeKind::OtherId
                | ChangeKind::OtherWord
        )
    }

    /// Whether the number stays and its mark does not.
    pub fn changes_the_mark(self) -> bool {
        matches!(self, ChangeKind::Marked | ChangeKind::Unmarked)
    }
}

/// One changed snapshot.
pub struct Change {
    pub kind: ChangeKind,
    /// The line as changed; empty where it was cut or moved.
    pub becomes: String,
    /// The whole changed text.
    pub text: Vec<u8>,
}

/// All changes of one reading; `lines` are the readings' texts.
pub fn changes(readings: &[Reading], lines: &[String], index: usize) -> Vec<Change> {
    let reading = &readings[index];
    let mut all = vec![cut(lines, index), moved(lines, index)];
    let mut replace = |kind, becomes: String| {
        let line_at = |at| if at == index { &becomes } else { &lines[at] };
        let text = text_of((0..lines.len()).map(|at| line_at(at).as_str()));
        all.push(Change {
            kind,
            becomes,
            text,
        });
    };
    replace(ChangeKind::Blank, reading.with_value(""));
    let key = misspelt(reading.key);
    replace(ChangeKind::MisspeltKey, format!("{key}={}", reading.value));
    for (kind, value) in other_values(readings, reading) {
        replace(kind, reading.with_value(&value));
    }
    all.sort_by_key(|change| change.kind as u8);
    all
}

fn cut(lines: &[String], index: usize) -> Change {
    let kept = lines.iter().enumerate().filter(|&(at, _)| at != index);
    Change {
        kind: ChangeKind::Cut,
        becomes: String::new(),
        text: text_of(kept.map(|(_, line)| line.as_str())),
    }
}

/// The line swapped with the next one; the last line with the one before.
fn moved(lines: &[String], index: usize) -> Change {
    let mut order: Vec<usize> = (0..lines.len()).collect();
    let first = index.min(lines.len() - 2);
    order.swap(first, first + 1);
    Change {
        kind: ChangeKind::Moved,
        becomes: String::new(),
        text: text_of(order.into_iter().map(|at| lines[at].as_str())),
    }
}

/// The values that take the reading's place.
fn other_values(readings: &[Reading], reading: &Reading) -> Vec<(ChangeKind, String)> {
    let value = &reading.value;
    match &reading.holds {
        Holds::Number(range) => {
            let number = reading.number().expect("an accepted number");
            let digits = reading.unmarked();
            // A letter where a digit was meant.
            let slip = format!("{}O", &digits[..digits.len() - 1]);
            vec![
                (ChangeKind::MisspeltValue, reading.value_with(slip)),
                (ChangeKind::AboveRange, reading.value_with(range.end() + 1)),
                (
                    ChangeKind::BelowRange,
                    reading.value_with(range.start() - 1),
                ),
                (ChangeKind::Zero, reading.value_with(0)),
                (ChangeKind::OneUp, reading.value_with(number + 1)),
                (ChangeKind::OneDown, reading.value_with(number - 1)),
                (ChangeKind::Doubled, reading.value_with(2 * number)),
                other_mark(reading),
            ]
        }
        Holds::Id => {
            let mut all = vec![
                (ChangeKind::MisspeltValue, format!("{}-", &value[1..])),
                (ChangeKind::AboveRange, format!("{value:_<17}")),
                (ChangeKind::OtherId, free_id(readings)),
            ];
            let lower = value.to_ascii_lowercase();
            if lower != *value {
                all.push((ChangeKind::OtherCase, lower));
            }
            let other = readings
                .iter()
                .find(|other| other.key == "id" && other.value != *value);
            if let Some(other) = other {
                all.push((ChangeKind::Repeated, other.value.clone()));
            }
            all
        }
        Holds::Word(words) => {
            let flipped = if value.bytes().all(|byte| byte.is_ascii_lowercase()) {
                value.to_ascii_uppercase()
            } else {
                value.to_ascii_lowercase()
            };
            let mut all = vec![
                (ChangeKind::MisspeltValue, misspelt(value)),
                (ChangeKind::OtherCase, flipped),
            ];
            let others = words.iter().filter(|&&word| word != value.as_str());
            all.extend(others.map(|word| (ChangeKind::OtherWord, word.to_string())));
            all
        }
    }
}

/// The number marked suspect, or without its mark where it has one.
fn other_mark(reading: &Reading) -> (ChangeKind, String) {
    let digits = reading.unmarked();
    if reading.is_marked() {
        (ChangeKind::Unmarked, digits.to_string())
    } else {
        (ChangeKind::Marked, format!("{digits}?"))
    }
}

/// The word with its last two letters swapped, or with the last one left out
/// where they are equal.
fn misspelt(word: &str) -> String {
    let mut letters: Vec<char> = word.chars().collect();
    let last = letters.len() - 1;
    if letters[last] == letters[last - 1] {
        letters.pop();
    } else {
        letters.swap(last - 1, last);
    }
    letters.into_iter().collect()
}

/// An id that no resource has.
fn free_id(readings: &[Reading]) -> String {
    (0..)
        .map(|number| format!("OTHER_{number}"))
        .find(|id| readings.iter().all(|reading| reading.id != *id))
        .expect("there are more numbers than resources")
}
