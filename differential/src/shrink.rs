//! Makes an input on which two implementations differ as small as it can be.
//!
//! The functions below hand smaller inputs, one at a time and the largest
//! steps first, to `found`, and end with true when it takes one.

use crate::held::{id_length, Held, ID_ROW, MARKS, NUMBER_ROW};
use crate::{Curves, Input, RecordNumbers};
use std::time::{Duration, Instant};

/// No longer than this, so that a slow library still comes to an end.
const MOST_TIME: Duration = Duration::from_secs(20);

/// The smallest input found for which `differs` still holds.
pub fn shrink(input: &Input, differs: impl Fn(&Input) -> bool) -> Input {
    let mut smallest = input.clone();
    let start = Instant::now();
    loop {
        let mut next = None;
        smaller_inputs(&smallest, &mut |smaller| {
            if start.elapsed() > MOST_TIME {
                return true;
            }
            if differs(&smaller) {
                next = Some(smaller);
            }
            next.is_some()
        });
        match next {
            Some(smaller) => smallest = smaller,
            None => return smallest,
        }
    }
}

fn smaller_inputs(input: &Input, found: &mut dyn FnMut(Input) -> bool) -> bool {
    match input {
        Input::Book { record, text } => {
            smaller_texts(text, &mut |text| {
                let record = record.clone();
                found(Input::Book { record, text })
            }) || smaller_records(record, &mut |record| {
                let text = text.clone();
                found(Input::Book { record, text })
            })
        }
        Input::Settle {
            record,
            voll,
            floor,
        } => {
            smaller_records(record, &mut |record| {
                found(Input::Settle {
                    record,
                    voll: *voll,
                    floor: *floor,
                })
            }) || smaller_numbers(&[*voll, *floor], &mut |[voll, floor]| {
                found(Input::Settle {
                    record: record.clone(),
                    voll,
                    floor,
                })
            })
        }
        Input::Read { text } => smaller_texts(text, &mut |text| found(Input::Read { text })),
        Input::Write { curves, length } => {
            smaller_writings(curves, *length, &mut |curves, length| {
                found(Input::Write { curves, length })
            })
        }
        Input::WritePage { curves, length } => {
            smaller_writings(curves, *length, &mut |curves, length| {
                found(Input::WritePage { curves, length })
            })
        }
        Input::Price { curves, text } => {
            smaller_texts(text, &mut |text| {
                found(Input::Price {
                    curves: *curves,
                    text,
                })
            }) || smaller_numbers(curves, &mut |curves| {
                let text = text.clone();
                found(Input::Price { curves, text })
            })
        }
        Input::ReadSnapshot { text, ids, numbers } => {
            smaller_texts(text, &mut |text| {
                let (ids, numbers) = (*ids, *numbers);
                found(Input::ReadSnapshot { text, ids, numbers })
            }) || smaller_numbers(&[*ids as i64, *numbers as i64], &mut |[ids, numbers]| {
                found(Input::ReadSnapshot {
                    text: text.clone(),
                    ids: ids as usize,
                    numbers: numbers as usize,
                })
            })
        }
        Input::SnapshotLength { held } => {
            smaller_values(held, &mut |held| found(Input::SnapshotLength { held }))
        }
        Input::WriteSnapshot { held, length } => {
            let fits = text_length(held);
            smaller_values(held, &mut |held| {
                // The buffer as it is, or as much shorter as the text.
                let shorter = fits.zip(text_length(&held));
                let shorter = shorter.and_then(|(fits, now)| (length + now).checked_sub(fits));
                let lengths = [Some(*length), shorter.filter(|shorter| shorter < length)];
                lengths.into_iter().flatten().any(|length| {
                    let held = held.clone();
                    found(Input::WriteSnapshot { held, length })
                })
            }) || smaller_numbers(&[*length as i64], &mut |[length]| {
                found(Input::WriteSnapshot {
                    held: held.clone(),
                    length: length as usize,
                })
            })
        }
        Input::CurvesLength { curves } => {
            smaller_numbers(curves, &mut |curves| found(Input::CurvesLength { curves }))
        }
    }
}

/// The length of the text of values that are accepted.
fn text_length(held: &Held) -> Option<usize> {
    reference::held_length(&held.header, &held.ids, &held.numbers).ok()
}

/// Fewer rows, nothing left over, shorter ids with nothing after them, and
/// smaller numbers.
fn smaller_values(held: &Held, found: &mut dyn FnMut(Held) -> bool) -> bool {
    let rows = held.rows();
    let (ids, numbers) = (rows * ID_ROW, rows * NUMBER_ROW);
    let changed = |change: &dyn Fn(&mut Held)| {
        let mut changed = held.clone();
        change(&mut changed);
        changed
    };
    let some_rows = parts_of(rows).any(|(first, last)| {
        found(changed(&|held| {
            held.ids.drain(first * ID_ROW..last * ID_ROW);
            held.numbers.drain(first * NUMBER_ROW..last * NUMBER_ROW);
        }))
    });
    let left_over = |found: &mut dyn FnMut(Held) -> bool| {
        held.ids.len() > ids && found(changed(&|held| held.ids.truncate(ids)))
            || held.numbers.len() > numbers
                && found(changed(&|held| held.numbers.truncate(numbers)))
    };
    some_rows
        || left_over(found)
        || (0..rows).any(|row| smaller_ids(held, row, found))
        || smaller_numbers(&held.header, &mut |header| {
            found(changed(&|held| held.header = header))
        })
        || (0..held.numbers.len()).any(|place| {
            let number = held.numbers[place];
            let marks = (place % NUMBER_ROW == MARKS).then(|| fewer_marks(number));
            smaller(number)
                .chain(marks.into_iter().flatten())
                .any(|number| found(changed(&|held| held.numbers[place] = number)))
        })
}

/// The id in a row made shorter, wherever it stands, and the bytes after it made
/// 0.
fn smaller_ids(held: &Held, row: usize, found: &mut dyn FnMut(Held) -> bool) -> bool {
    let bytes = |row: usize| &held.ids[row * ID_ROW..][..ID_ROW];
    let length = id_length(bytes(row));
    let same = |other: usize| bytes(other)[..id_length(bytes(other))] == bytes(row)[..length];
    let same: Vec<usize> = (0..held.rows()).filter(|&other| same(other)).collect();
    [0, 1, length / 2, length.saturating_sub(1), length]
        .into_iter()
        .filter(|&end| bytes(row)[end..].iter().any(|&byte| byte != 0))
        .any(|end| {
            let mut held = held.clone();
            for &row in &same {
                held.id_row(row)[end..].fill(0);
            }
            found(held)
        })
}

/// Each number of the curves made smaller, then the buffer.
fn smaller_writings(
    curves: &Curves,
    length: usize,
    found: &mut dyn FnMut(Curves, usize) -> bool,
) -> bool {
    smaller_numbers(curves, &mut |curves| found(curves, length))
        || smaller_numbers(&[length as i64], &mut |[length]| {
            found(*curves, length as usize)
        })
}

/// Each group emptied or made the smallest that settles, then each number
/// made smaller.
fn smaller_records(
    record: &RecordNumbers,
    found: &mut dyn FnMut(Box<RecordNumbers>) -> bool,
) -> bool {
    for place in 0..24 {
        let group = 3 * place..3 * place + 3;
        let largest = record[group.clone()]
            .iter()
            .map(|one| one.unsigned_abs())
            .max();
        for (smaller, size) in [([0, 0, 0], 0), ([2, 0, 2], 2)] {
            if largest > Some(size) {
                let mut changed = Box::new(*record);
                changed[group.clone()].copy_from_slice(&smaller);
                if found(changed) {
                    return true;
                }
            }
        }
    }
    smaller_numbers(record, &mut |record| found(Box::new(record)))
}

/// Each number in turn made smaller.
fn smaller_numbers<const N: usize>(
    numbers: &[i64; N],
    found: &mut dyn FnMut([i64; N]) -> bool,
) -> bool {
    (0..N).any(|place| {
        smaller(numbers[place]).any(|number| {
            let mut changed = *numbers;
            changed[place] = number;
            found(changed)
        })
    })
}

/// 0 and 1, then smaller steps; single ones where not many are left.
fn smaller(number: i64) -> impl Iterator<Item = i64> {
    let by_one = if number.unsigned_abs() <= 16 {
        number - number.signum()
    } else {
        number
    };
    let parts = [4, 16, 64, 256].map(|part| number - number / part);
    let steps = [number / 10, number / 2].into_iter().chain(parts);
    [0, 1]
        .into_iter()
        .chain(steps)
        .chain([by_one])
        .filter(move |smaller| smaller.unsigned_abs() < number.unsigned_abs())
}

/// The same marks without a sign, then one binary digit less.
fn fewer_marks(held: i64) -> impl Iterator<Item = i64> {
    let size = held.unsigned_abs();
    let unsigned = (held < 0).then_some(size);
    let fewer = (0..64).map(move |place| size & !(1 << place));
    let fewer = fewer.filter(move |&fewer| fewer < size);
    let all = unsigned.into_iter().chain(fewer);
    all.filter_map(|size| i64::try_from(size).ok())
}

fn smaller_texts(text: &[u8], found: &mut dyn FnMut(Vec<u8>) -> bool) -> bool {
    let lines: Vec<&[u8]> = text.split_inclusive(|&byte| byte == b'\n').collect();
    without_parts(&lines, 7, b"count=", b"id=", found)
        || without_parts(&lines, 12, b"runs=", b"hsl=", found)
        || parts_of(lines.len())
            .any(|(first, last)| found([&lines[..first], &lines[last..]].concat().concat()))
        || (0..lines.len()).any(|at| {
            shorter_lines(lines[at]).into_iter().any(|shorter| {
                let mut lines = lines.clone();
                lines[at] = &shorter;
                found(lines.concat())
            })
        })
}

/// Parts of a list, from the whole down to single places.
fn parts_of(length: usize) -> impl Iterator<Item = (usize, usize)> {
    let sizes = std::iter::successors(Some(length), |size| Some(size / 2));
    sizes.take_while(|&size| size > 0).flat_map(move |size| {
        (0..length)
            .step_by(size)
            .map(move |first| (first, (first + size).min(length)))
    })
}

/// The text without some resources, or some runs, whose number is told on the
/// line at `head`; that number goes down with them.
fn without_parts(
    lines: &[&[u8]],
    head: usize,
    key: &[u8],
    starts: &[u8],
    found: &mut dyn FnMut(Vec<u8>) -> bool,
) -> bool {
    let count = lines.get(head).and_then(|line| line.strip_prefix(key));
    let count = count.map(|count| String::from_utf8_lossy(count).trim_end().parse::<i64>());
    let Some(Ok(count)) = count else {
        return false;
    };
    let mut firsts: Vec<usize> = (head + 1..lines.len())
        .filter(|&at| lines[at].starts_with(starts))
        .collect();
    firsts.push(lines.len());
    parts_of(firsts.len() - 1).any(|(first, last)| {
        let left = count.saturating_sub((last - first) as i64);
        let told = [key, format!("{left}\n").as_bytes()].concat();
        let mut kept = [&lines[..firsts[first]], &lines[firsts[last]..]].concat();
        kept[head] = &told;
        found(kept.concat())
    })
}

/// The line with a smaller number, or with some bytes less.
fn shorter_lines(line: &[u8]) -> Vec<Vec<u8>> {
    let (body, end): (&[u8], &[u8]) = match line {
        [body @ .., b'\n'] => (body, b"\n"),
        body => (body, b""),
    };
    let equals = body.iter().position(|&byte| byte == b'=');
    let (key, value) = body.split_at(equals.map_or(0, |place| place + 1));
    // A mark is taken off, or stays while the number gets smaller.
    if let [number @ .., b'?'] = value {
        let unmarked = [key, number, end].concat();
        let shorter = shorter_lines(&unmarked).into_iter().map(|line| {
            let body = &line[..line.len() - end.len()];
            [body, b"?", end].concat()
        });
        return [unmarked.clone()].into_iter().chain(shorter).collect();
    }
    let text = std::str::from_utf8(value).unwrap_or_default();
    let values: Vec<Vec<u8>> = match text.parse::<i64>() {
        // The simplest factor is 1, as it rounds nothing.
        Ok(factor) if key == b"factor=" && (0..10_000).contains(&factor) => {
            return vec![[key, b"10000", end].concat()];
        }
        Ok(10_000) if key == b"factor=" => Vec::new(),
        Ok(number) => smaller(number)
            .map(|number| number.to_string().into_bytes())
            .collect(),
        Err(_) => match value {
            [] | [_] => Vec::new(),
            [_, rest @ ..] => {
                let (half, most) = (value.len() / 2, value.len() - 1);
                vec![
                    value[..half].to_vec(),
                    value[..most].to_vec(),
                    rest.to_vec(),
                ]
            }
        },
    };
    let lines = values.into_iter().map(|value| [key, &value, end].concat());
    lines
        .filter(|shorter| shorter.len() <= line.len())
        .collect()
}
