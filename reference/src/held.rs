//! A snapshot in the form in which hosts hold it: plain rows of bytes and
//! numbers, written as a text and read back.
//!
//! - The header is eight numbers in the order of its lines. The eighth, `count`,
//!   is set by reading; in writing the number of rows stands for it.
//! - An id row has 32 bytes. The id is what stands in the first 16 before the
//!   first byte 0, or all 16 where there is none.
//! - A number row has nine places: the kind, the status, from place 2 on the
//!   numbers of the kind in the order of their lines, and at place 8 the marks:
//!   1 for a mark on the number at place 2, 2 for one at place 3, and so on up
//!   to 32 for place 7, added up.
//!
//! Writing does not look at bytes or places that a resource has no use for, nor
//! at marks beyond the numbers of its kind; reading sets them to 0. As many
//! resources are held as there are whole rows of both sorts.

use crate::held_check::snapshot_of_held;
use crate::snapshot::{read_snapshot, GeneratorKind, Kind, Status, Unit};
use crate::snapshot_text::{snapshot_text, text_length};
use crate::text::{number, Refusal};

/// The bytes of one resource's id row.
pub const ID_ROW: usize = 32;

/// The numbers of one resource's number row.
pub const NUMBER_ROW: usize = 9;

/// The id stands within this many bytes of its row.
pub(crate) const LONGEST_ID: usize = 16;

/// The kinds, each at the place that is its number.
pub(crate) const KINDS: [Kind; 6] = [
    Kind::Generator(GeneratorKind::Gen),
    Kind::Generator(GeneratorKind::Wind),
    Kind::Generator(GeneratorKind::Irr),
    Kind::Generator(GeneratorKind::Nuke),
    Kind::Clr,
    Kind::Nclr,
];

/// The statuses, each at the place that is its number.
pub(crate) const STATUSES: [Status; 7] = [
    Status::On,
    Status::Off,
    Status::OffNs,
    Status::OnTest,
    Status::Startup,
    Status::Shutdown,
    Status::Out,
];

/// The exact length of the text of the values held.
pub fn held_length(header: &[i64; 8], ids: &[u8], numbers: &[i64]) -> Result<usize, Refusal> {
    Ok(text_length(&snapshot_of_held(header, ids, numbers)?))
}

/// The text of the values held.
pub fn held_text(header: &[i64; 8], ids: &[u8], numbers: &[i64]) -> Result<Vec<u8>, Refusal> {
    Ok(snapshot_text(&snapshot_of_held(header, ids, numbers)?))
}

/// Writes the text of the values held to the front of `buffer` and gives its
/// length. A refusal leaves the buffer as it was.
pub fn write_held(
    header: &[i64; 8],
    ids: &[u8],
    numbers: &[i64],
    buffer: &mut [u8],
) -> Result<usize, Refusal> {
    let text = held_text(header, ids, numbers)?;
    let Some(front) = buffer.get_mut(..text.len()) else {
        return Err(Refusal::whole(number::BUFFER_SHORT));
    };
    front.copy_from_slice(&text);
    Ok(text.len())
}

/// Reads a snapshot's text into the rows lent for it. Rows after the last one
/// read stay, and a refusal leaves all that was lent.
pub fn read_held(
    text: &[u8],
    header: &mut [i64; 8],
    ids: &mut [u8],
    numbers: &mut [i64],
) -> Result<(), Refusal> {
    let snapshot = read_snapshot(text)?;
    let count = snapshot.resources.len();
    let (id_rows, _) = ids.as_chunks_mut::<ID_ROW>();
    let (number_rows, _) = numbers.as_chunks_mut::<NUMBER_ROW>();
    if count > id_rows.len().min(number_rows.len()) {
        return Err(Refusal::whole(number::BUFFER_SHORT));
    }
    *header = [
        snapshot.month,
        snapshot.hour,
        snapshot.lambda,
        snapshot.factor,
        snapshot.prc,
        snapshot.eea1,
        snapshot.short,
        count as i64,
    ];
    let rows = id_rows.iter_mut().zip(number_rows);
    for (resource, (id_row, number_row)) in snapshot.resources.iter().zip(rows) {
        *id_row = row_of_id(resource.id);
        *number_row = row_of_unit(&resource.unit, resource.marks);
    }
    Ok(())
}

fn row_of_id(id: &str) -> [u8; ID_ROW] {
    let mut row = [0; ID_ROW];
    row[..id.len()].copy_from_slice(id.as_bytes());
    row
}

#[rustfmt::skip] // Kind and status, the numbers of the kind, places not used, the marks.
fn row_of_unit(unit: &Unit, marks: u8) -> [i64; NUMBER_ROW] {
    let marks = i64::from(marks);
    match unit {
        Unit::Generator(unit) => [
            number_of(&KINDS, Kind::Generator(unit.kind)), number_of(&STATUSES, unit.status),
            unit.net, unit.lsl, unit.hsl, unit.base, unit.nonspin, i64::from(unit.cold30),
            marks,
        ],
        Unit::Clr(load) => [
            number_of(&KINDS, Kind::Clr), 0,
            load.base, load.lpc, load.nonspin, load.regup,
            0, 0, marks,
        ],
        Unit::Nclr(load) => [
            number_of(&KINDS, Kind::Nclr), 0,
            i64::from(load.rrsok), load.net, load.lpc, load.rrs,
            0, 0, marks,
        ],
    }
}

/// The item that has this number in its list.
pub(crate) fn listed<T: Copy>(list: &[T], number: i64) -> Option<T> {
    list.get(usize::try_from(number).ok()?).copied()
}

/// The number of an item of the list.
fn number_of<T: PartialEq>(list: &[T], item: T) -> i64 {
    let place = list.iter().position(|listed| *listed == item);
    place.expect("the list holds every item") as i64
}
