//! The functions of include/ordc.h, each behind a safe one over slices and over arrays of the size it asks for.

use crate::refusal::Refusal;

pub const RECORD: usize = 72;
pub const CURVES: usize = 50;
pub const ANSWER: usize = 6;
pub const CURVE_TEXT: usize = 700;
pub const PAGE: usize = 1728;
pub const STACK: usize = 262_144;
pub const HEADER: usize = 8;
pub const ID_ROW: usize = 32;
pub const NUMBER_ROW: usize = 9;
pub const RESOURCES: usize = 4096;

#[repr(C)]
struct RawRefusal {
    number: u64,
    line: u64,
}

extern "C" {
    fn ordc_book(record: *mut i64, text: *const u8, length: usize) -> RawRefusal;
    fn ordc_settle(record: *const i64, voll: i64, floor: i64, curves: *mut i64) -> RawRefusal;
    fn ordc_read_curves(text: *const u8, length: usize, curves: *mut i64) -> RawRefusal;
    fn ordc_curves_length(curves: *const i64, length: *mut usize) -> RawRefusal;
    fn ordc_write_curves(
        curves: *const i64,
        buffer: *mut u8,
        size: usize,
        written: *mut usize,
    ) -> RawRefusal;
    fn ordc_write_page(curves: *const i64, buffer: *mut u8, size: usize) -> RawRefusal;
    fn ordc_price(
        curves: *const i64,
        text: *const u8,
        length: usize,
        answer: *mut i64,
    ) -> RawRefusal;
    fn ordc_read_snapshot(
        text: *const u8,
        length: usize,
        header: *mut i64,
        ids: *mut u8,
        ids_length: usize,
        numbers: *mut i64,
        numbers_length: usize,
    ) -> RawRefusal;
    fn ordc_snapshot_length(
        header: *const i64,
        ids: *const u8,
        ids_length: usize,
        numbers: *const i64,
        numbers_length: usize,
        length: *mut usize,
    ) -> RawRefusal;
    fn ordc_write_snapshot(
        header: *const i64,
        ids: *const u8,
        ids_length: usize,
        numbers: *const i64,
        numbers_length: usize,
        buffer: *mut u8,
        size: usize,
        written: *mut usize,
    ) -> RawRefusal;
}

fn check(refusal: RawRefusal) -> Result<(), Refusal> {
    match refusal.number {
        0 => Ok(()),
        number => Err(Refusal {
            number,
            line: refusal.line,
        }),
    }
}

// SAFETY, of each call below: the pointers come from references, so that they are valid for the sizes that the
// functions name and what is written overlaps nothing; the functions keep no pointer.

pub fn book(record: &mut [i64; RECORD], text: &[u8]) -> Result<(), Refusal> {
    check(unsafe { ordc_book(record.as_mut_ptr(), text.as_ptr(), text.len()) })
}

pub fn settle(record: &[i64; RECORD], voll: i64, floor: i64) -> Result<[i64; CURVES], Refusal> {
    let mut curves = [0; CURVES];
    check(unsafe { ordc_settle(record.as_ptr(), voll, floor, curves.as_mut_ptr()) })?;
    Ok(curves)
}

pub fn read_curves(text: &[u8]) -> Result<[i64; CURVES], Refusal> {
    let mut curves = [0; CURVES];
    check(unsafe { ordc_read_curves(text.as_ptr(), text.len(), curves.as_mut_ptr()) })?;
    Ok(curves)
}

pub fn curves_length(curves: &[i64; CURVES]) -> Result<usize, Refusal> {
    let mut length = 0;
    check(unsafe { ordc_curves_length(curves.as_ptr(), &mut length) })?;
    Ok(length)
}

pub fn write_curves(curves: &[i64; CURVES], buffer: &mut [u8]) -> Result<usize, Refusal> {
    let mut written = 0;
    check(unsafe {
        ordc_write_curves(
            curves.as_ptr(),
            buffer.as_mut_ptr(),
            buffer.len(),
            &mut written,
        )
    })?;
    Ok(written)
}

pub fn write_page(curves: &[i64; CURVES], buffer: &mut [u8]) -> Result<(), Refusal> {
    check(unsafe { ordc_write_page(curves.as_ptr(), buffer.as_mut_ptr(), buffer.len()) })
}

pub fn price(curves: &[i64; CURVES], text: &[u8]) -> Result<[i64; ANSWER], Refusal> {
    let mut answer = [0; ANSWER];
    check(unsafe {
        ordc_price(
            curves.as_ptr(),
            text.as_ptr(),
            text.len(),
            answer.as_mut_ptr(),
        )
    })?;
    Ok(answer)
}

/// Reads a snapshot's text into a header and rows that are lent: for each resource a row of [`ID_ROW`](crate::ID_ROW)
/// bytes and one of [`NUMBER_ROW`](crate::NUMBER_ROW) numbers. What stands after the rows of the last resource stays.
/// `include/ordc.h` documents the layout.
///
/// # Errors
/// 2, 3 to 8, 9, 15, 14, in this order; header and rows are then as they were.
pub fn read_snapshot(
    text: &[u8],
    header: &mut [i64; HEADER],
    ids: &mut [u8],
    numbers: &mut [i64],
) -> Result<(), Refusal> {
    check(unsafe {
        ordc_read_snapshot(
            text.as_ptr(),
            text.len(),
            header.as_mut_ptr(),
            ids.as_mut_ptr(),
            ids.len(),
            numbers.as_mut_ptr(),
            numbers.len(),
        )
    })
}

/// The length of the text that [`write_snapshot`] writes.
///
/// # Errors
/// 6, 7, 8, then 15.
pub fn snapshot_length(
    header: &[i64; HEADER],
    ids: &[u8],
    numbers: &[i64],
) -> Result<usize, Refusal> {
    let mut length = 0;
    check(unsafe {
        ordc_snapshot_length(
            header.as_ptr(),
            ids.as_ptr(),
            ids.len(),
            numbers.as_ptr(),
            numbers.len(),
            &mut length,
        )
    })?;
    Ok(length)
}

/// Writes the text of the snapshot that header and rows hold to the front of a buffer and gives its length; bytes after
/// it stay. The resources are as many as there are whole rows of both sorts, whatever the header's eighth number is.
///
/// # Errors
/// 6, 7, 8, then 15, then 14; the buffer is then as it was.
pub fn write_snapshot(
    header: &[i64; HEADER],
    ids: &[u8],
    numbers: &[i64],
    buffer: &mut [u8],
) -> Result<usize, Refusal> {
    let mut written = 0;
    check(unsafe {
        ordc_write_snapshot(
            header.as_ptr(),
            ids.as_ptr(),
            ids.len(),
            numbers.as_ptr(),
            numbers.len(),
            buffer.as_mut_ptr(),
            buffer.len(),
            &mut written,
        )
    })?;
    Ok(written)
}
