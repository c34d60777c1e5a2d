//! Libraries with a fault each in reading or writing values: the fault is found
//! by the inputs and made small, or by the round trips, or by both.

mod common;

use common::{smallest, Faulty, Spoils};
use differential::{
    id_length, input, run, trip, Header, Held, Input, Library, Plain, Random, Refusal, ID_ROW,
    NUMBER_ROW,
};

#[derive(Clone, Copy, Debug, PartialEq, Eq)]
enum Fault {
    None,
    /// The count that is handed in is written.
    Count,
    /// The status OUT is not in the list.
    Out,
    /// A flag of 2 is written.
    Flag,
    /// An empty id is written.
    EmptyId,
    /// A repeated id is written.
    Repeated,
    /// Ids are compared with what stands after them.
    RepeatedRow,
    /// A repeated id is told only where nothing else is wrong: 7 before 8.
    RepeatedLast,
    /// Repeated ids are looked for before anything else: 8 before 7.
    RepeatedFirst,
    /// A kind that is not in the list is refused by 7.
    KindOutOfRange,
    /// A place that a load has no use for is looked at.
    FreePlace,
    /// The status of a load is looked at.
    LoadStatus,
    /// What is left over counts as a row.
    LeftOver,
    /// A buffer has to be longer than the text.
    Short,
    /// 14 comes first.
    ShortFirst,
    /// A text is ended with a byte 0.
    Ended,
    /// A refused writing starts to write.
    Begun,
    /// A refused writing tells a length.
    Written,
    /// The minus of a number is not counted in the length.
    Length,
    /// The length is told with a refusal.
    LengthRefused,
    /// A refused reading gives out the month.
    Month,
    /// Reading into too few rows fills those that there are.
    SomeRows,
    /// 14 comes before a fault of the text.
    SpaceFirst,
    /// Reading leaves the bytes after an id.
    IdLeft,
    /// Reading leaves a place that a load has no use for.
    PlaceLeft,
    /// Reading clears the row after the last.
    RowCleared,
    /// Reading leaves the count.
    CountLeft,
}

const ALL: [Fault; 26] = [
    Fault::Count,
    Fault::Out,
    Fault::Flag,
    Fault::EmptyId,
    Fault::Repeated,
    Fault::RepeatedRow,
    Fault::RepeatedLast,
    Fault::RepeatedFirst,
    Fault::KindOutOfRange,
    Fault::FreePlace,
    Fault::LoadStatus,
    Fault::LeftOver,
    Fault::Short,
    Fault::ShortFirst,
    Fault::Ended,
    Fault::Begun,
    Fault::Written,
    Fault::Length,
    Fault::LengthRefused,
    Fault::Month,
    Fault::SomeRows,
    Fault::SpaceFirst,
    Fault::IdLeft,
    Fault::PlaceLeft,
    Fault::RowCleared,
    Fault::CountLeft,
];

const SHORT: Refusal = Refusal {
    number: 14,
    line: 0,
};

/// The text of values, or the refusal.
fn text_of(held: &Held) -> Result<Vec<u8>, Refusal> {
    let mut length = 0;
    let refusal = Plain.snapshot_length(&held.header, &held.ids, &held.numbers, &mut length);
    let mut text = vec![0; length];
    if !refusal.accepted() {
        return Err(refusal);
    }
    let Held {
        header,
        ids,
        numbers,
    } = held;
    assert!(Plain
        .write_snapshot(header, ids, numbers, &mut text, &mut length)
        .accepted());
    Ok(text)
}

/// The text with the value of some lines replaced.
fn replaced(text: &[u8], new: impl Fn(&str) -> Option<String>) -> Vec<u8> {
    let text = String::from_utf8_lossy(text);
    let lines = text
        .lines()
        .map(|line| new(line).unwrap_or(line.to_string()) + "\n");
    lines.collect::<String>().into_bytes()
}

/// The id of a row, or the whole row where that is told apart.
fn told_apart(row: &[u8], whole: bool) -> Vec<u8> {
    row[..if whole { ID_ROW } else { id_length(row) }].to_vec()
}

/// The values with ids of their own for the rows that have the id of one above;
/// and the ids that they had, by those that they have now.
fn without_repeats(held: &Held) -> (Held, Vec<(String, String)>) {
    let mut changed = held.clone();
    let mut names = Vec::new();
    for row in 1..held.rows() {
        let id = |row: usize| told_apart(&held.ids[row * ID_ROW..][..ID_ROW], false);
        if id(row).is_empty() || !(0..row).any(|above| id(above) == id(row)) {
            continue;
        }
        let name = format!("ZZZ_AGAIN_{row}");
        let bytes = changed.id_row(row);
        bytes.fill(0);
        bytes[..name.len()].copy_from_slice(name.as_bytes());
        names.push((name, String::from_utf8_lossy(&id(row)).to_string()));
    }
    (changed, names)
}

/// The text with names in place of others.
fn renamed(text: &[u8], names: &[(String, String)]) -> Vec<u8> {
    replaced(text, |line| {
        let id = line.strip_prefix("id=")?;
        let (_, name) = names.iter().find(|(now, _)| now == id)?;
        Some(format!("id={name}"))
    })
}

/// The values with 0 for every number that is not in its range.
fn in_range(held: &Held) -> Held {
    let mut held = held.clone();
    held.header[0] = 1;
    held.header[1..7].fill(0);
    for row in 0..held.rows() {
        let row = held.number_row(row);
        row[0] = row[0].clamp(0, 5);
        row[1..].fill(0);
    }
    held
}

/// The line of a text that is this one, from the first.
fn line_of(text: &[u8], line: &str) -> Option<u64> {
    let text = String::from_utf8_lossy(text);
    let place = text.lines().position(|one| one == line);
    place.map(|place| place as u64 + 1)
}

impl Faulty<Fault> {
    /// The text that the library gives for values, or its refusal.
    fn text(&self, held: &Held) -> Result<Vec<u8>, Refusal> {
        let mut changed = held.clone();
        let rows = held.rows();
        match self.0 {
            Fault::Count => {
                let count = held.header[7];
                let new = |line: &str| line.starts_with("count=").then(|| format!("count={count}"));
                return Ok(replaced(&text_of(held)?, new));
            }
            Fault::Out => {
                let text = text_of(held)?;
                return match line_of(&text, "status=OUT") {
                    Some(line) => Err(Refusal { number: 6, line }),
                    None => Ok(text),
                };
            }
            Fault::Flag => {
                for row in 0..rows {
                    let row = changed.number_row(row);
                    let flag = if row[0] == 5 { 2 } else { 7 };
                    if row[flag] == 2 && row[0] != 4 {
                        row[flag] = 1;
                    }
                }
            }
            Fault::EmptyId => {
                let mut names = Vec::new();
                for row in 0..rows {
                    let name = format!("ZZZ_EMPTY_{row}");
                    if changed.id_row(row)[0] == 0 {
                        let bytes = changed.id_row(row);
                        bytes.fill(0);
                        bytes[..name.len()].copy_from_slice(name.as_bytes());
                        names.push((name, String::new()));
                    }
                }
                return Ok(renamed(&text_of(&changed)?, &names));
            }
            Fault::Repeated => {
                let (changed, names) = without_repeats(held);
                return Ok(renamed(&text_of(&changed)?, &names));
            }
            Fault::RepeatedRow => {
                let ids = held.ids.chunks(ID_ROW).take(rows);
                let ids: Vec<Vec<u8>> = ids.map(|row| told_apart(row, true)).collect();
                let repeated = (0..rows).any(|row| ids[..row].contains(&ids[row]));
                if !repeated {
                    let (changed, names) = without_repeats(held);
                    return Ok(renamed(&text_of(&changed)?, &names));
                }
            }
            Fault::RepeatedLast if text_of(held).is_err_and(|refusal| refusal.number == 8) => {
                text_of(&without_repeats(held).0)?;
            }
            Fault::RepeatedFirst => {
                if let Err(refusal) = text_of(&in_range(held)) {
                    if refusal.number == 8 {
                        return Err(refusal);
                    }
                }
            }
            Fault::KindOutOfRange => {
                return text_of(held).map_err(|refusal| {
                    let kind = (0..rows).any(|row| !(0..=5).contains(&changed.number_row(row)[0]));
                    let number = match refusal.number {
                        6 if kind => 7,
                        number => number,
                    };
                    Refusal { number, ..refusal }
                });
            }
            Fault::FreePlace => {
                let text = text_of(held)?;
                let used = |row: &[i64]| row[0] >= 4 && row[7] != 0;
                if (0..rows).any(|row| used(changed.number_row(row))) {
                    return Err(Refusal { number: 7, line: 9 });
                }
                return Ok(text);
            }
            Fault::LoadStatus => {
                let text = text_of(held)?;
                let status = |row: &[i64]| row[0] >= 4 && !(0..=6).contains(&row[1]);
                if (0..rows).any(|row| status(changed.number_row(row))) {
                    return Err(Refusal {
                        number: 6,
                        line: 11,
                    });
                }
                return Ok(text);
            }
            Fault::LeftOver => {
                changed
                    .ids
                    .resize(held.ids.len().div_ceil(ID_ROW) * ID_ROW, 0);
                let numbers = held.numbers.len().div_ceil(NUMBER_ROW) * NUMBER_ROW;
                changed.numbers.resize(numbers, 0);
            }
            _ => {}
        }
        text_of(&changed)
    }
}

impl Spoils for Faulty<Fault> {
    fn read_snapshot(
        &self,
        text: &[u8],
        header: &mut Header,
        ids: &mut [u8],
        numbers: &mut [i64],
    ) -> Refusal {
        let before = (*header, ids.to_vec(), numbers.to_vec());
        if self.0 == Fault::SpaceFirst && ids.is_empty() && text.len() > 200 {
            return SHORT;
        }
        let refusal = Plain.read_snapshot(text, header, ids, numbers);
        let count = header[7] as usize;
        match self.0 {
            Fault::Month if refusal.line > 1 => header[0] = 1,
            Fault::SomeRows if refusal == SHORT => {
                if let Some(first) = ids.first_mut() {
                    *first = b'A';
                }
            }
            _ if !refusal.accepted() => {}
            Fault::IdLeft => {
                for (row, old) in ids
                    .chunks_mut(ID_ROW)
                    .zip(before.1.chunks(ID_ROW))
                    .take(count)
                {
                    row[17..].copy_from_slice(&old[17..]);
                }
            }
            Fault::PlaceLeft => {
                let rows = numbers.chunks_mut(NUMBER_ROW);
                for (row, old) in rows.zip(before.2.chunks(NUMBER_ROW)).take(count) {
                    if row[0] >= 4 {
                        row[7] = old[7];
                    }
                }
            }
            Fault::RowCleared => {
                if let Some(next) = numbers.get_mut(count * NUMBER_ROW) {
                    *next = 0;
                }
            }
            Fault::CountLeft => header[7] = before.0[7],
            _ => {}
        }
        refusal
    }

    fn snapshot_length(
        &self,
        header: &Header,
        ids: &[u8],
        numbers: &[i64],
        length: &mut usize,
    ) -> Refusal {
        let held = Held {
            header: *header,
            ids: ids.to_vec(),
            numbers: numbers.to_vec(),
        };
        match self.text(&held) {
            Ok(text) => {
                let minus = self.0 == Fault::Length && header[2] < 0;
                *length = text.len() - usize::from(minus);
                Refusal::NONE
            }
            Err(refusal) => {
                if self.0 == Fault::LengthRefused {
                    *length = 0;
                }
                refusal
            }
        }
    }

    fn write_snapshot(
        &self,
        header: &Header,
        ids: &[u8],
        numbers: &[i64],
        buffer: &mut [u8],
        written: &mut usize,
    ) -> Refusal {
        if self.0 == Fault::ShortFirst && buffer.len() < 60 {
            return SHORT;
        }
        let held = Held {
            header: *header,
            ids: ids.to_vec(),
            numbers: numbers.to_vec(),
        };
        let text = match self.text(&held) {
            Ok(text) if text.len() > buffer.len() => Err(SHORT),
            Ok(text) if text.len() == buffer.len() && self.0 == Fault::Short => Err(SHORT),
            answer => answer,
        };
        match text {
            Ok(text) => {
                *written = text.len();
                let (front, after) = buffer.split_at_mut(text.len());
                front.copy_from_slice(&text);
                if let (Fault::Ended, [next, ..]) = (self.0, after) {
                    *next = 0;
                }
                Refusal::NONE
            }
            Err(refusal) => {
                if self.0 == Fault::Written {
                    *written = 0;
                }
                if let (Fault::Begun, [first, ..]) = (self.0, buffer) {
                    *first = b'm';
                }
                refusal
            }
        }
    }
}

/// The values of an input that is written, or asked for its length.
fn values(input: Input) -> Held {
    match input {
        Input::SnapshotLength { held } | Input::WriteSnapshot { held, .. } => held,
        _ => panic!("the fault is in writing"),
    }
}

#[test]
fn without_a_fault_nothing_is_found() {
    for place in 0..20_000 {
        let one = input(&mut Random::at(1, place));
        assert_eq!(run(&Faulty(Fault::None), &one), run(&Plain, &one));
    }
}

#[test]
fn every_fault_is_found() {
    for fault in ALL {
        let input = smallest(fault);
        let reading = matches!(
            fault,
            Fault::Month
                | Fault::SomeRows
                | Fault::SpaceFirst
                | Fault::IdLeft
                | Fault::PlaceLeft
                | Fault::RowCleared
                | Fault::CountLeft
        );
        assert_eq!(
            matches!(input, Input::ReadSnapshot { .. }),
            reading,
            "{fault:?}"
        );
    }
}

#[test]
fn faults_in_writing_are_made_small() {
    for (fault, rows) in [
        (Fault::Count, 0),
        (Fault::Out, 1),
        (Fault::Flag, 1),
        (Fault::EmptyId, 1),
        (Fault::Repeated, 2),
        (Fault::RepeatedRow, 2),
        (Fault::KindOutOfRange, 1),
        (Fault::FreePlace, 1),
        (Fault::LoadStatus, 1),
        (Fault::Short, 0),
        (Fault::Ended, 0),
        (Fault::Begun, 0),
        (Fault::Written, 0),
        (Fault::Length, 0),
        (Fault::LengthRefused, 0),
    ] {
        let held = values(smallest(fault));
        assert_eq!(held.rows(), rows, "{fault:?}: {held:?}");
        assert_eq!(held.ids.len(), rows * ID_ROW, "{fault:?}: {held:?}");
        assert_eq!(held.numbers.len(), rows * NUMBER_ROW, "{fault:?}: {held:?}");
    }
}

#[test]
fn the_numbers_that_tell_a_fault_are_left() {
    let mut held = values(smallest(Fault::Flag));
    let row = held.number_row(0);
    assert_eq!(row.iter().sum::<i64>() - row[0], 2, "{row:?}");
    assert_eq!(values(smallest(Fault::Length)).header[2], -1);
    assert_ne!(values(smallest(Fault::Count)).header[7], 0);
    let held = values(smallest(Fault::Repeated));
    let (first, second) = held.ids.split_at(ID_ROW);
    assert_eq!(told_apart(first, false).len(), 1);
    assert_eq!(first, second);
}

#[test]
fn faults_in_reading_are_made_small() {
    for (fault, most) in [
        (Fault::Month, 1),
        (Fault::SomeRows, 8 + 9),
        (Fault::IdLeft, 8 + 9),
        (Fault::PlaceLeft, 8 + 6),
        (Fault::RowCleared, 8),
        (Fault::CountLeft, 8),
    ] {
        let Input::ReadSnapshot { text, .. } = smallest(fault) else {
            panic!("the fault is in reading");
        };
        let lines = text.iter().filter(|&&byte| byte == b'\n').count();
        assert!(lines <= most, "{fault:?}: {lines} lines");
    }
}

#[test]
fn round_trips_give_the_same() {
    let mut counts = trip::Counts::default();
    for place in 0..400 {
        counts.add(&trip::check(&Plain, &mut Random::at(3, place)).unwrap());
    }
    assert_eq!(counts.trips, 400);
    assert!(counts.resources > 1000, "{counts:?}");
    assert!(0 < counts.disturbed && counts.disturbed < 400, "{counts:?}");
    assert!(counts.priced > 20, "{counts:?}");
}

#[test]
fn a_round_trip_that_changes_something_is_told() {
    for (fault, reason) in [
        (Fault::Count, "written as \""),
        (Fault::Out, "refused 6 line"),
        (Fault::FreePlace, "refused 7 line 9"),
        (Fault::LoadStatus, "refused 6 line 11"),
        (Fault::Short, "written: refused 14 line 0"),
        (Fault::Ended, "a byte after the text is changed"),
        (Fault::Length, "bytes were told, and"),
        (Fault::IdLeft, "read again as"),
        (Fault::PlaceLeft, "read again as"),
        (
            Fault::RowCleared,
            "what stands after the last row is changed",
        ),
        (Fault::CountLeft, "read again as"),
    ] {
        let told = (0..400)
            .find_map(|place| trip::check(&Faulty(fault), &mut Random::at(3, place)).err())
            .unwrap_or_else(|| panic!("{fault:?} is not told"));
        assert!(told.contains(reason), "{fault:?}: {told}");
        assert!(told.contains("header ["), "{told}");
    }
}
