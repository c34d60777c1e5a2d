//! The C interface of the library under test. Everything that depends on it
//! is in this file.

use crate::{Answer, Curves, Header, Library, RecordNumbers, Refusal};

/// `struct { uint64_t number; uint64_t line; }`; number 0 is an acceptance.
#[repr(C)]
struct CRefusal {
    number: u64,
    line: u64,
}

extern "C" {
    /// The record is 24 groups of count, sum, squares.
    fn ordc_book(record: *mut i64, text: *const u8, length: usize) -> CRefusal;
    /// The curve set is VOLL, X, then 24 pairs mu, sigma.
    fn ordc_settle(record: *const i64, voll: i64, floor: i64, curves: *mut i64) -> CRefusal;
    fn ordc_read_curves(text: *const u8, length: usize, curves: *mut i64) -> CRefusal;
    fn ordc_curves_length(curves: *const i64, length: *mut usize) -> CRefusal;
    fn ordc_write_curves(
        curves: *const i64,
        buffer: *mut u8,
        length: usize,
        written: *mut i64,
    ) -> CRefusal;
    /// The answer is rs, rsns, pis, pins, online, offline.
    fn ordc_price(curves: *const i64, text: *const u8, length: usize, answer: *mut i64)
        -> CRefusal;
    fn ordc_write_page(curves: *const i64, buffer: *mut u8, length: usize) -> CRefusal;
    /// The header is eight numbers; ids have rows of 32 bytes, numbers of nine.
    fn ordc_read_snapshot(
        text: *const u8,
        length: usize,
        header: *mut i64,
        ids: *mut u8,
        ids_length: usize,
        numbers: *mut i64,
        numbers_length: usize,
    ) -> CRefusal;
    fn ordc_snapshot_length(
        header: *const i64,
        ids: *const u8,
        ids_length: usize,
        numbers: *const i64,
        numbers_length: usize,
        length: *mut usize,
    ) -> CRefusal;
    fn ordc_write_snapshot(
        header: *const i64,
        ids: *const u8,
        ids_length: usize,
        numbers: *const i64,
        numbers_length: usize,
        buffer: *mut u8,
        size: usize,
        written: *mut usize,
    ) -> CRefusal;
}

impl From<CRefusal> for Refusal {
    /// An acceptance concerns no line, whatever stands there.
    fn from(refusal: CRefusal) -> Refusal {
        match refusal.number {
            0 => Refusal::NONE,
            number => Refusal {
                number,
                line: refusal.line,
            },
        }
    }
}

/// The linked library.
pub struct Linked;

// Every pointer handed over comes from an array or slice of the length that
// the interface states, and lives for the whole call.
impl Library for Linked {
    fn name(&self) -> &'static str {
        "libordc"
    }

    fn book(&self, record: &mut RecordNumbers, text: &[u8]) -> Refusal {
        unsafe { ordc_book(record.as_mut_ptr(), text.as_ptr(), text.len()) }.into()
    }

    fn settle(
        &self,
        record: &RecordNumbers,
        voll: i64,
        floor: i64,
        curves: &mut Curves,
    ) -> Refusal {
        unsafe { ordc_settle(record.as_ptr(), voll, floor, curves.as_mut_ptr()) }.into()
    }

    fn read_curves(&self, text: &[u8], curves: &mut Curves) -> Refusal {
        unsafe { ordc_read_curves(text.as_ptr(), text.len(), curves.as_mut_ptr()) }.into()
    }

    fn curves_length(&self, curves: &Curves, length: &mut usize) -> Refusal {
        unsafe { ordc_curves_length(curves.as_ptr(), length) }.into()
    }

    fn write_curves(&self, curves: &Curves, buffer: &mut [u8], written: &mut i64) -> Refusal {
        unsafe { ordc_write_curves(curves.as_ptr(), buffer.as_mut_ptr(), buffer.len(), written) }
            .into()
    }

    fn price(&self, curves: &Curves, text: &[u8], answer: &mut Answer) -> Refusal {
        unsafe {
            ordc_price(
                curves.as_ptr(),
                text.as_ptr(),
                text.len(),
                answer.as_mut_ptr(),
            )
        }
        .into()
    }

    fn write_page(&self, curves: &Curves, buffer: &mut [u8]) -> Refusal {
        unsafe { ordc_write_page(curves.as_ptr(), buffer.as_mut_ptr(), buffer.len()) }.into()
    }

    fn read_snapshot(
        &self,
        text: &[u8],
        header: &mut Header,
        ids: &mut [u8],
        numbers: &mut [i64],
    ) -> Refusal {
        unsafe {
            ordc_read_snapshot(
                text.as_ptr(),
                text.len(),
                header.as_mut_ptr(),
                ids.as_mut_ptr(),
                ids.len(),
                numbers.as_mut_ptr(),
                numbers.len(),
            )
        }
        .into()
    }

    fn snapshot_length(
        &self,
        header: &Header,
        ids: &[u8],
        numbers: &[i64],
        length: &mut usize,
    ) -> Refusal {
        unsafe {
            ordc_snapshot_length(
                header.as_ptr(),
                ids.as_ptr(),
                ids.len(),
                numbers.as_ptr(),
                numbers.len(),
                length,
            )
        }
        .into()
    }

    fn write_snapshot(
        &self,
        header: &Header,
        ids: &[u8],
        numbers: &[i64],
        buffer: &mut [u8],
        written: &mut usize,
    ) -> Refusal {
        unsafe {
            ordc_write_snapshot(
                header.as_ptr(),
                ids.as_ptr(),
                ids.len(),
                numbers.as_ptr(),
                numbers.len(),
                buffer.as_mut_ptr(),
                buffer.len(),
                written,
            )
        }
        .into()
    }
}
