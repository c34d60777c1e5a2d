//! The check of the values that a host holds, as their lines would stand.

use crate::held::{listed, ID_ROW, KINDS, LONGEST_ID, NUMBER_ROW, STATUSES};
use crate::marks::{is_marked, refuse_suspect};
use crate::snapshot::*;
use crate::text::{number, Refusal};
use std::collections::HashSet;
use std::ops::RangeInclusive;

/// The marks that the numbers of a generator and of a load can have, one bit
/// each.
const GENERATOR_MARKS: u8 = 0b11_1111;
const LOAD_MARKS: u8 = 0b1111;

/// The snapshot that the values held stand for, each value checked in the order
/// of the lines that the text would have, and then the marks.
pub fn snapshot_of_held<'a>(
    header: &[i64; 8],
    ids: &'a [u8],
    numbers: &[i64],
) -> Result<Snapshot<'a>, Refusal> {
    let (id_rows, _) = ids.as_chunks::<ID_ROW>();
    let (number_rows, _) = numbers.as_chunks::<NUMBER_ROW>();
    let count = id_rows.len().min(number_rows.len());
    let [month, hour, lambda, factor, prc, eea1, short, _] = *header;
    let mut due = DueLine(0);
    // The values are checked in the order in which they are written here and
    // further below, which is the order of the lines.
    let mut snapshot = Snapshot {
        month: due.number(month, MONTH_RANGE)?,
        hour: due.number(hour, HOUR_RANGE)?,
        lambda: due.number(lambda, LAMBDA_RANGE)?,
        factor: due.number(factor, FACTOR_RANGE)?,
        prc: due.number(prc, SYSTEM_POWER_RANGE)?,
        eea1: due.number(eea1, SYSTEM_POWER_RANGE)?,
        short: due.number(short, SYSTEM_POWER_RANGE)?,
        resources: Vec::new(),
    };
    due.number(count as i64, 0..=MOST_RESOURCES)?;
    snapshot.resources.reserve_exact(count);
    let mut ids_above = HashSet::with_capacity(count);
    for (id_row, number_row) in id_rows.iter().zip(number_rows) {
        let id = due.word(id_of_row(id_row))?;
        if !ids_above.insert(id) {
            return Err(due.refuse(number::REPEATED_ID));
        }
        let (unit, marks) = unit_of_row(number_row, &mut due)?;
        snapshot.resources.push(Resource { id, unit, marks });
    }
    refuse_suspect(&snapshot)?;
    Ok(snapshot)
}

/// Counts the lines that the text would have, checking what each would carry.
struct DueLine(u64);

impl DueLine {
    /// A refusal of the line checked last.
    fn refuse(&self, number: u32) -> Refusal {
        let line = self.0;
        Refusal { number, line }
    }

    fn number(&mut self, value: i64, range: RangeInclusive<i64>) -> Result<i64, Refusal> {
        self.0 += 1;
        if !range.contains(&value) {
            return Err(self.refuse(number::OUT_OF_RANGE));
        }
        Ok(value)
    }

    /// A flag, which would be badly written with a mark behind it.
    fn flag(&mut self, value: i64, marked: bool) -> Result<bool, Refusal> {
        if marked {
            self.0 += 1;
            return Err(self.refuse(number::BADLY_WRITTEN));
        }
        Ok(self.number(value, 0..=1)? == 1)
    }

    /// An id or a listed word, `None` where the values held give none.
    fn word<T>(&mut self, word: Option<T>) -> Result<T, Refusal> {
        self.0 += 1;
        word.ok_or_else(|| self.refuse(number::BADLY_WRITTEN))
    }
}

/// The id in its row, if it is well formed and not empty.
fn id_of_row(row: &[u8; ID_ROW]) -> Option<&str> {
    let front = &row[..LONGEST_ID];
    let end = front.iter().position(|&byte| byte == 0);
    let id = &front[..end.unwrap_or(LONGEST_ID)];
    parse_id(id).filter(|id| !id.is_empty())
}

/// The unit in its row, and its marks.
fn unit_of_row(row: &[i64; NUMBER_ROW], due: &mut DueLine) -> Result<(Unit, u8), Refusal> {
    let [kind, status, numbers @ .., held_marks] = *row;
    let kind = due.word(listed(&KINDS, kind))?;
    let marks = marks_of(kind, held_marks);
    let unit = match (kind, numbers) {
        (Kind::Generator(kind), [net, lsl, hsl, base, nonspin, cold30]) => {
            Unit::Generator(Generator {
                kind,
                status: due.word(listed(&STATUSES, status))?,
                net: due.number(net, GENERATOR_NET_RANGE)?,
                lsl: due.number(lsl, POWER_RANGE)?,
                hsl: due.number(hsl, POWER_RANGE)?,
                base: due.number(base, POWER_RANGE)?,
                nonspin: due.number(nonspin, POWER_RANGE)?,
                cold30: due.flag(cold30, is_marked(marks, 5))?,
            })
        }
        (Kind::Clr, [base, lpc, nonspin, regup, ..]) => Unit::Clr(Clr {
            base: due.number(base, POWER_RANGE)?,
            lpc: due.number(lpc, POWER_RANGE)?,
            nonspin: due.number(nonspin, POWER_RANGE)?,
            regup: due.number(regup, POWER_RANGE)?,
        }),
        (Kind::Nclr, [rrsok, net, lpc, rrs, ..]) => Unit::Nclr(Nclr {
            rrsok: due.flag(rrsok, is_marked(marks, 0))?,
            net: due.number(net, POWER_RANGE)?,
            lpc: due.number(lpc, POWER_RANGE)?,
            rrs: due.number(rrs, POWER_RANGE)?,
        }),
    };
    Ok((unit, marks))
}

/// The marks that the row's last number holds for a unit of this kind. Below 0
/// its magnitude counts, and binary digits beyond the kind's numbers do not.
fn marks_of(kind: Kind, held: i64) -> u8 {
    let lowest_byte = held.unsigned_abs() as u8;
    match kind {
        Kind::Generator(_) => lowest_byte & GENERATOR_MARKS,
        Kind::Clr | Kind::Nclr => lowest_byte & LOAD_MARKS,
    }
}
