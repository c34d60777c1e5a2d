//! The curve page: one row of fixed width for each group.

use crate::curves::CurveSet;
use crate::history::GROUPS;
use crate::price::pi_ns;
use crate::text::{number, Refusal};

/// A row with its byte 10.
const ROW_LENGTH: usize = 72;

/// Every page has this many bytes.
pub const PAGE_LENGTH: usize = GROUPS * ROW_LENGTH;

/// The seasons' names in the groups' order, padded to one width.
const SEASONS: [&[u8; 6]; 4] = [b"winter", b"spring", b"summer", b"fall  "];

const BLOCKS_PER_SEASON: usize = GROUPS / SEASONS.len();

/// How far above the floor X the row's probabilities stand, in kW.
const STEPS_ABOVE_FLOOR: [i64; 4] = [1_000_000, 2_000_000, 3_000_000, 4_000_000];

/// Writes the page to the front of `buffer` and gives its length.
/// A refusal leaves the buffer as it was.
pub fn write_page(curves: &CurveSet, buffer: &mut [u8]) -> Result<usize, Refusal> {
    curves.check()?;
    let Some(front) = buffer.get_mut(..PAGE_LENGTH) else {
        return Err(Refusal::whole(number::BUFFER_SHORT));
    };
    front.copy_from_slice(&page(curves));
    Ok(PAGE_LENGTH)
}

/// The page of a checked curve set, whose numbers fit their cells.
pub(crate) fn page(curves: &CurveSet) -> Vec<u8> {
    let mut page = Vec::with_capacity(PAGE_LENGTH);
    for (group, &(mu, sigma)) in curves.pairs.iter().enumerate() {
        page.extend_from_slice(SEASONS[group / BLOCKS_PER_SEASON]);
        let mut cell = |width: usize, number: i64| {
            page.push(b' ');
            push_right_aligned(&mut page, width, number);
        };
        cell(1, (group % BLOCKS_PER_SEASON) as i64);
        cell(9, mu);
        cell(8, sigma);
        for step in STEPS_ABOVE_FLOOR {
            cell(10, pi_ns(curves.floor + step, curves.floor, mu, sigma));
        }
        page.push(b'\n');
    }
    page
}

/// Appends `width` bytes: spaces, then the number, which must not be wider.
fn push_right_aligned(page: &mut Vec<u8>, width: usize, number: i64) {
    let start = page.len();
    page.resize(start + width, b' ');
    let cell = &mut page[start..];
    // The last digit comes first, so the number's length need not be known.
    let mut place = width - 1;
    let mut size = number.unsigned_abs();
    cell[place] = b'0' + (size % 10) as u8;
    while size >= 10 {
        size /= 10;
        place -= 1;
        cell[place] = b'0' + (size % 10) as u8;
    }
    if number < 0 {
        cell[place - 1] = b'-';
    }
}
