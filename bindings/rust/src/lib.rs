//! Reserve curves and the two operating reserve prices, over the static library `libordc.a`.
//!
//! Hours are booked on a [`Record`], a record settles into a [`CurveSet`], and a curve set prices a
//! snapshot's text into [`Prices`] or is written as a page for people to read. A text is read into a
//! [`Snapshot`], whose values can be changed, and written again; it keeps which readings are marked
//! suspect. Power is in whole kW, money in whole cents per MWh, shares of one in billionths. What an
//! operation refuses is a [`Refusal`], and then nothing has changed.
//!
//! ```
//! let curves = ordc::CurveSet {
//!     voll: 900_000,
//!     floor: 2_000_000,
//!     pairs: [ordc::Pair { mean: 0, spread: 1_000_000 }; ordc::GROUPS],
//! };
//! let text = curves.to_text()?;
//! assert_eq!(curves.text_length()?, 482);
//! assert_eq!(ordc::CurveSet::from_text(&text)?, curves);
//! let page = curves.to_page()?;
//! let first = b"winter 0         0  1000000  158655254   22750132    1349898      31671\n";
//! assert!(page.starts_with(first));
//! # Ok::<(), ordc::Refusal>(())
//! ```

mod raw;
mod refusal;
mod rows;
mod snapshot;

pub use raw::{read_snapshot, snapshot_length, write_snapshot};
pub use refusal::Refusal;
pub use snapshot::{
    ControllableLoad, ControllableLoadMarks, Generator, GeneratorKind, GeneratorMarks, OtherLoad,
    OtherLoadMarks, Resource, Snapshot, Status, Unit,
};

/// Four seasons of six four-hour blocks.
pub const GROUPS: usize = 24;

/// No curve text is longer, so a buffer of this many bytes is enough for any.
pub const CURVE_TEXT: usize = raw::CURVE_TEXT;

/// Every page has this many bytes: a row of 72 for each group.
pub const PAGE: usize = raw::PAGE;

/// A snapshot's header has this many numbers, in the order of its lines.
pub const HEADER: usize = raw::HEADER;

/// Each resource has a row of this many bytes, which holds its id.
pub const ID_ROW: usize = raw::ID_ROW;

/// Each resource has a row of this many numbers: kind, status, the numbers of its kind, and last their marks.
pub const NUMBER_ROW: usize = raw::NUMBER_ROW;

/// No snapshot has more resources than this.
pub const RESOURCES: usize = raw::RESOURCES;

/// No operation needs more bytes of stack than this, whatever it is handed.
pub const STACK: usize = raw::STACK;

/// The reserve errors of one group.
#[derive(Clone, Copy, Debug, Default, PartialEq, Eq)]
pub struct Group {
    /// How many errors, 0 to 1000.
    pub count: i64,
    /// Their sum, kW.
    pub sum: i64,
    /// The sum of their squares.
    pub squares: i64,
}

/// The reserve errors booked so far, by group. The default is a fresh record, in which nothing is booked.
#[derive(Clone, Copy, Debug, Default, PartialEq, Eq)]
pub struct Record {
    pub groups: [Group; GROUPS],
}

impl Record {
    /// Books one hour's text, which changes only its group.
    ///
    /// # Errors
    /// 1, 2, 3 to 7, 9, 10, 11; the record is then as it was.
    pub fn book(&mut self, text: &[u8]) -> Result<(), Refusal> {
        let mut values = self.values();
        raw::book(&mut values, text)?;
        for (group, value) in self.groups.iter_mut().zip(values.chunks_exact(3)) {
            *group = Group {
                count: value[0],
                sum: value[1],
                squares: value[2],
            };
        }
        Ok(())
    }

    /// The curves of the record, for VOLL in cents per MWh and the minimum contingency level X in kW.
    ///
    /// # Errors
    /// 1, 7, 12, 13.
    pub fn settle(&self, voll: i64, floor: i64) -> Result<CurveSet, Refusal> {
        raw::settle(&self.values(), voll, floor).map(|values| CurveSet::of(&values))
    }

    fn values(&self) -> [i64; raw::RECORD] {
        let mut values = [0; raw::RECORD];
        for (value, group) in values.chunks_exact_mut(3).zip(&self.groups) {
            value.copy_from_slice(&[group.count, group.sum, group.squares]);
        }
        values
    }
}

/// Mean and spread of a group's reserve errors, in kW.
#[derive(Clone, Copy, Debug, PartialEq, Eq)]
pub struct Pair {
    pub mean: i64,
    pub spread: i64,
}

/// VOLL in cents per MWh, X (the minimum contingency level) in kW, and the pair of each group.
#[derive(Clone, Copy, Debug, PartialEq, Eq)]
pub struct CurveSet {
    pub voll: i64,
    pub floor: i64,
    pub pairs: [Pair; GROUPS],
}

impl CurveSet {
    /// Reads a curve text.
    ///
    /// # Errors
    /// 2, 3 to 7, 9.
    pub fn from_text(text: &[u8]) -> Result<CurveSet, Refusal> {
        raw::read_curves(text).map(|values| CurveSet::of(&values))
    }

    /// The curve text, which has exactly [`text_length`](CurveSet::text_length) bytes.
    ///
    /// # Errors
    /// 1.
    pub fn to_text(&self) -> Result<Vec<u8>, Refusal> {
        let values = self.values();
        let mut text = vec![0; raw::curves_length(&values)?];
        raw::write_curves(&values, &mut text)?;
        Ok(text)
    }

    /// The length of the curve text in bytes, 327 to 700.
    ///
    /// # Errors
    /// 1.
    pub fn text_length(&self) -> Result<usize, Refusal> {
        raw::curves_length(&self.values())
    }

    /// Writes the curve text to the front of a buffer and gives its length; bytes after it stay. A buffer of just
    /// [`text_length`](CurveSet::text_length) bytes is enough, and one of [`CURVE_TEXT`] bytes is enough for any set.
    ///
    /// # Errors
    /// 1, 14; the buffer is then as it was.
    pub fn write_text(&self, buffer: &mut [u8]) -> Result<usize, Refusal> {
        raw::write_curves(&self.values(), buffer)
    }

    /// The page: a row of 72 bytes for each group, in order of the groups. A row has the season (winter, spring, summer
    /// or fall), the block (0 to 5), the mean and the spread in kW, then the probability of falling below X on an
    /// on-line and off-line reserve of X + 1000000, X + 2000000, X + 3000000 and X + 4000000 kW, in billionths. The
    /// columns stand at the same places in every row, and each row ends with a line feed.
    ///
    /// Neither VOLL nor X shows on the page.
    ///
    /// # Errors
    /// 1.
    pub fn to_page(&self) -> Result<[u8; PAGE], Refusal> {
        let mut page = [0; PAGE];
        self.write_page(&mut page)?;
        Ok(page)
    }

    /// Writes the page to the front of a buffer, in its first [`PAGE`] bytes; bytes after it stay.
    ///
    /// # Errors
    /// 1, 14; the buffer is then as it was.
    pub fn write_page(&self, buffer: &mut [u8]) -> Result<(), Refusal> {
        raw::write_page(&self.values(), buffer)
    }

    /// Prices a snapshot's text.
    ///
    /// # Errors
    /// 1, 2, 3 to 8, 9, 15.
    pub fn price(&self, text: &[u8]) -> Result<Prices, Refusal> {
        let [rs, rsns, pis, pins, online, offline] = raw::price(&self.values(), text)?;
        Ok(Prices {
            rs,
            rsns,
            pis,
            pins,
            online,
            offline,
        })
    }

    fn of(values: &[i64; raw::CURVES]) -> CurveSet {
        let mut pairs = [Pair { mean: 0, spread: 0 }; GROUPS];
        for (pair, value) in pairs.iter_mut().zip(values[2..].chunks_exact(2)) {
            *pair = Pair {
                mean: value[0],
                spread: value[1],
            };
        }
        CurveSet {
            voll: values[0],
            floor: values[1],
            pairs,
        }
    }

    fn values(&self) -> [i64; raw::CURVES] {
        let mut values = [0; raw::CURVES];
        values[0] = self.voll;
        values[1] = self.floor;
        for (value, pair) in values[2..].chunks_exact_mut(2).zip(&self.pairs) {
            value.copy_from_slice(&[pair.mean, pair.spread]);
        }
        values
    }
}

/// What a snapshot is worth.
#[derive(Clone, Copy, Debug, PartialEq, Eq)]
pub struct Prices {
    /// On-line reserve, kW.
    pub rs: i64,
    /// On-line and off-line reserve, kW.
    pub rsns: i64,
    /// Probability of falling below X on `rs`, billionths.
    pub pis: i64,
    /// The same on `rsns`, billionths.
    pub pins: i64,
    /// On-line price adder, cents per MWh.
    pub online: i64,
    /// Off-line price adder, cents per MWh.
    pub offline: i64,
}
