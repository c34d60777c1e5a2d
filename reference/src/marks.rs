//! Numbers that telemetry marks as suspect (W-206), and what such a mark turns
//! back.

use crate::snapshot::{Generator, GeneratorKind, Snapshot, Status, Unit};
use crate::text::{number, Refusal};

const HEADER_LINES: u64 = 8;

/// Whether the number at this place among those of its unit is marked.
pub(crate) fn is_marked(marks: u8, place: usize) -> bool {
    marks >> place & 1 == 1
}

/// Whether a mark on any number of this unit turns the snapshot back.
///
/// It does where the unit enters a sum, or would if the 95 percent test were
/// left out: a mark on net or lsl puts that test itself in doubt. For the same
/// reason it does on a gen or wind unit in STARTUP whatever its Non-Spin is. It
/// goes by the unit, so it does not matter which number is marked or what the
/// unit adds.
pub fn turned_back_by_a_mark(unit: &Unit) -> bool {
    match unit {
        Unit::Generator(unit) => may_count_on_line(unit) || unit.counted_off_line(),
        // Every load enters a sum: rrs is summed whatever rrsok is.
        Unit::Clr(_) | Unit::Nclr(_) => true,
    }
}

/// Whether the kind and the status alone let the unit be counted on line.
fn may_count_on_line(unit: &Generator) -> bool {
    let right_kind = matches!(unit.kind, GeneratorKind::Gen | GeneratorKind::Wind);
    let right_status = matches!(unit.status, Status::On | Status::Startup);
    right_kind && right_status
}

/// Refuses the first marked number on a unit that a mark turns back, by the
/// line it has in the snapshot's text.
pub(crate) fn refuse_suspect(snapshot: &Snapshot) -> Result<(), Refusal> {
    let mut lines_above = HEADER_LINES;
    for resource in &snapshot.resources {
        let (words, numbers) = lines_of(&resource.unit);
        if resource.marks != 0 && turned_back_by_a_mark(&resource.unit) {
            let first_mark = u64::from(resource.marks.trailing_zeros());
            return Err(Refusal {
                number: number::SUSPECT,
                line: lines_above + words + first_mark + 1,
            });
        }
        lines_above += words + numbers;
    }
    Ok(())
}

/// How many lines a resource has for its words (id, kind and status), and how
/// many after them for its numbers.
fn lines_of(unit: &Unit) -> (u64, u64) {
    match unit {
        Unit::Generator(_) => (3, 6),
        Unit::Clr(_) | Unit::Nclr(_) => (2, 4),
    }
}
