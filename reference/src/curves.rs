//! The 24 reserve curves and their text.

use crate::history::GROUPS;
use crate::snapshot_text::number_length;
use crate::text::{number, Lines, Refusal};
use std::io::Write;
use std::ops::RangeInclusive;

pub const VOLL_RANGE: RangeInclusive<i64> = 0..=2_000_000;
pub const FLOOR_RANGE: RangeInclusive<i64> = 0..=20_000_000;
const MU_RANGE: RangeInclusive<i64> = -20_000_000..=20_000_000;
const SIGMA_RANGE: RangeInclusive<i64> = 1..=20_000_000;

/// A curve text that is read has at most this many bytes.
pub(crate) const READ_LIMIT: usize = 4096;

/// The greatest length of a written curve text, over all sets in range. Keys,
/// `=` and byte 10 have 277 bytes; the numbers then have at most 7 (`voll`),
/// 8 (`floor`) and, in each of 24 pairs, 9 with the `-` (`mu`) and 8 (`sigma`).
pub const WRITTEN_LIMIT: usize = 700;

/// The least length of a written curve text, over all sets in range: the same
/// 277 bytes, and one digit on each of the 50 lines.
pub const WRITTEN_LEAST: usize = 327;

/// VOLL, the floor X, and (mu, sigma) of each group.
#[derive(Clone, Copy, Debug, PartialEq, Eq)]
pub struct CurveSet {
    pub voll: i64,
    pub floor: i64,
    pub pairs: [(i64, i64); GROUPS],
}

impl CurveSet {
    /// Refuses values out of range.
    pub(crate) fn check(&self) -> Result<(), Refusal> {
        let possible = VOLL_RANGE.contains(&self.voll)
            && FLOOR_RANGE.contains(&self.floor)
            && self
                .pairs
                .iter()
                .all(|(mu, sigma)| MU_RANGE.contains(mu) && SIGMA_RANGE.contains(sigma));
        if possible {
            Ok(())
        } else {
            Err(Refusal::whole(number::IMPOSSIBLE_VALUES))
        }
    }
}

/// Reads a curve text.
pub fn read_curves(text: &[u8]) -> Result<CurveSet, Refusal> {
    let mut lines = Lines::within(text, READ_LIMIT)?;
    let voll = lines.number("voll", VOLL_RANGE)?;
    let floor = lines.number("floor", FLOOR_RANGE)?;
    let mut pairs = [(0, 0); GROUPS];
    for (mu, sigma) in &mut pairs {
        *mu = lines.number("mu", MU_RANGE)?;
        *sigma = lines.number("sigma", SIGMA_RANGE)?;
    }
    lines.end()?;
    Ok(CurveSet { voll, floor, pairs })
}

/// The exact length of the curve text, which is not written for it.
pub fn curves_length(curves: &CurveSet) -> Result<usize, Refusal> {
    curves.check()?;
    Ok(text_length(curves))
}

/// Writes the curve text to the front of `buffer` and gives its length. That
/// is exactly the one of [`curves_length`], and a buffer of just that length is
/// long enough. A refusal leaves the buffer as it was.
pub fn write_curves(curves: &CurveSet, buffer: &mut [u8]) -> Result<usize, Refusal> {
    curves.check()?;
    let text = curve_text(curves);
    let Some(front) = buffer.get_mut(..text.len()) else {
        return Err(Refusal::whole(number::BUFFER_SHORT));
    };
    front.copy_from_slice(&text);
    Ok(text.len())
}

/// The curve text of a checked curve set.
pub(crate) fn curve_text(curves: &CurveSet) -> Vec<u8> {
    let mut text = Vec::with_capacity(text_length(curves));
    let mut line = |key: &str, value: i64| {
        writeln!(text, "{key}={value}").expect("a Vec takes every byte");
    };
    line("voll", curves.voll);
    line("floor", curves.floor);
    for (mu, sigma) in curves.pairs {
        line("mu", mu);
        line("sigma", sigma);
    }
    text
}

/// The length of that text. It is counted apart from the writer, so that each
/// is a check of the other.
fn text_length(curves: &CurveSet) -> usize {
    // The two more are the `=` and byte 10.
    let line = |key: &str, value: i64| key.len() + number_length(value) + 2;
    let mut length = line("voll", curves.voll) + line("floor", curves.floor);
    for (mu, sigma) in curves.pairs {
        length += line("mu", mu) + line("sigma", sigma);
    }
    length
}
