//! Random and damaged inputs for two implementations, which must agree.
//!
//! The library under test stands behind the trait [`Library`]; every answer is
//! compared with the reference's. An input on which they differ is made as
//! small as it can be. [`order`] checks, on random pairs of histories and
//! snapshots, that more reserve never raises a price, [`page`], on random curve
//! sets, what a reader of a page relies on, [`trip`], on random values of a
//! snapshot, that they are written and read back, [`curve_trip`] the same on
//! random curve sets, and [`marks`], on random snapshots, what numbers marked
//! suspect change.

pub mod curve_trip;
mod damage;
#[cfg(feature = "ordc")]
mod ffi;
mod generate;
mod held;
mod input;
pub mod marks;
pub mod order;
pub mod page;
mod plain;
mod shrink;
mod texts;
pub mod trip;

#[cfg(feature = "ordc")]
pub use ffi::Linked;
pub use generate::input;
pub use held::{id_length, Held, ID_ROW, NUMBER_ROW};
pub use input::{run, show, show_curves, show_text, Input, Outcome, Tally, CAN_REFUSE};
pub use plain::{curve_set, Plain};
pub use random::Random;
pub use shrink::shrink;

/// 24 groups of count, sum and squares.
pub type RecordNumbers = [i64; 72];

/// VOLL, X, then 24 pairs mu, sigma.
pub type Curves = [i64; 50];

/// rs, rsns, pis, pins, online, offline.
pub type Answer = [i64; 6];

/// The header of a snapshot held as values: month, hour, lambda, factor, prc,
/// eea1, short, count.
pub type Header = [i64; 8];

/// A refusal's number and line; number 0 is an acceptance.
#[derive(Clone, Copy, Debug, PartialEq, Eq)]
pub struct Refusal {
    pub number: u64,
    pub line: u64,
}

impl Refusal {
    pub const NONE: Refusal = Refusal { number: 0, line: 0 };

    pub fn accepted(self) -> bool {
        self.number == 0
    }
}

/// The operations, over plain arrays. On a refusal every lent array and
/// buffer is as before.
pub trait Library {
    fn name(&self) -> &'static str;
    fn book(&self, record: &mut RecordNumbers, text: &[u8]) -> Refusal;
    fn settle(&self, record: &RecordNumbers, voll: i64, floor: i64, curves: &mut Curves)
        -> Refusal;
    fn read_curves(&self, text: &[u8], curves: &mut Curves) -> Refusal;
    fn curves_length(&self, curves: &Curves, length: &mut usize) -> Refusal;
    fn write_curves(&self, curves: &Curves, buffer: &mut [u8], written: &mut i64) -> Refusal;
    fn price(&self, curves: &Curves, text: &[u8], answer: &mut Answer) -> Refusal;
    fn write_page(&self, curves: &Curves, buffer: &mut [u8]) -> Refusal;
    fn read_snapshot(
        &self,
        text: &[u8],
        header: &mut Header,
        ids: &mut [u8],
        numbers: &mut [i64],
    ) -> Refusal;
    fn snapshot_length(
        &self,
        header: &Header,
        ids: &[u8],
        numbers: &[i64],
        length: &mut usize,
    ) -> Refusal;
    fn write_snapshot(
        &self,
        header: &Header,
        ids: &[u8],
        numbers: &[i64],
        buffer: &mut [u8],
        written: &mut usize,
    ) -> Refusal;
}
