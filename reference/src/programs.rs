//! The three programs, from input bytes to output bytes.

use crate::curves::{curve_text, read_curves, CurveSet, FLOOR_RANGE, READ_LIMIT, VOLL_RANGE};
use crate::history::{book, settle, Record, HOUR_LIMIT};
use crate::page::page;
use crate::price::{price_snapshot, Prices};
use crate::text::{number, Lines, Refusal};
use std::io::{self, BufRead, BufReader, Read};
use std::ops::RangeInclusive;

/// `price` takes at most this many bytes.
pub const PRICE_INPUT_LIMIT: usize = 65_536;

/// `page` takes at most this many bytes: its whole input is one curve text.
pub const PAGE_INPUT_LIMIT: usize = READ_LIMIT;

/// A `voll` or `floor` line of `curves`, with its byte 10, has at most this
/// many bytes.
const SETTLE_LINE_LIMIT: u64 = 65_536;

/// A refusal together with the name of the text it concerns.
struct Stop {
    refusal: Refusal,
    text: &'static str,
}

impl Stop {
    fn of(text: &'static str) -> impl Fn(Refusal) -> Stop {
        move |refusal| Stop { refusal, text }
    }

    fn output(&self) -> Vec<u8> {
        let Refusal { number, line } = self.refusal;
        let text = self.text;
        format!("refused={number}\nline={line}\ntext={text}\n").into_bytes()
    }
}

/// The program `price`: its output for this input.
pub fn run_price(input: &[u8]) -> Vec<u8> {
    match price_program(input) {
        Ok(prices) => prices_text(&prices),
        Err(stop) => stop.output(),
    }
}

fn price_program(input: &[u8]) -> Result<Prices, Stop> {
    if input.len() > PRICE_INPUT_LIMIT {
        let refusal = Refusal::whole(number::TEXT_TOO_LONG);
        return Err(Stop::of("curves")(refusal));
    }
    let (curve_text, snapshot_text) = split_at_empty_line(input);
    let curves = read_curves(curve_text).map_err(Stop::of("curves"))?;
    price_snapshot(&curves, snapshot_text).map_err(Stop::of("snapshot"))
}

/// What stands before and after the first empty line, which is a byte 10 at
/// a line's start. Without one, nothing stands after.
fn split_at_empty_line(input: &[u8]) -> (&[u8], &[u8]) {
    let mut start = 0;
    while let Some(length) = input[start..].iter().position(|&byte| byte == b'\n') {
        if length == 0 {
            return (&input[..start], &input[start + 1..]);
        }
        start += length + 1;
    }
    (input, &[])
}

fn prices_text(prices: &Prices) -> Vec<u8> {
    let Prices {
        rs,
        rsns,
        pis,
        pins,
        online,
        offline,
    } = prices;
    format!("rs={rs}\nrsns={rsns}\npis={pis}\npins={pins}\nonline={online}\noffline={offline}\n")
        .into_bytes()
}

/// The program `page`: its output for this input.
pub fn run_page(input: &[u8]) -> Vec<u8> {
    match read_curves(input).map_err(Stop::of("curves")) {
        Ok(curves) => page(&curves),
        Err(stop) => stop.output(),
    }
}

/// The program `curves`: its output for this input.
pub fn run_curves(input: &[u8]) -> Vec<u8> {
    curves_output(input).expect("reading from memory does not fail")
}

/// The program `curves` on a stream, with one hour in memory at a time.
pub fn run_curves_from(input: impl Read) -> io::Result<Vec<u8>> {
    curves_output(BufReader::with_capacity(65_536, input))
}

fn curves_output(mut input: impl BufRead) -> io::Result<Vec<u8>> {
    match curves_program(&mut input) {
        Ok(curves) => Ok(curve_text(&curves)),
        Err(End::Refused(stop)) => Ok(stop.output()),
        Err(End::Failed(error)) => Err(error),
    }
}

/// Why `curves` ends without curves.
enum End {
    Refused(Stop),
    Failed(io::Error),
}

impl From<Stop> for End {
    fn from(stop: Stop) -> End {
        End::Refused(stop)
    }
}

impl From<io::Error> for End {
    fn from(error: io::Error) -> End {
        End::Failed(error)
    }
}

fn curves_program(input: &mut impl BufRead) -> Result<CurveSet, End> {
    let mut text = Vec::new();
    let voll = settle_line(input, &mut text, 1, "voll", VOLL_RANGE)?;
    let floor = settle_line(input, &mut text, 2, "floor", FLOOR_RANGE)?;
    let mut record = Record::fresh();
    while next_hour(input, &mut text)? {
        record = book(&record, &text).map_err(Stop::of("hour"))?;
    }
    Ok(settle(&record, voll, floor).map_err(Stop::of("settle"))?)
}

/// Reads the `voll` or the `floor` line, which are lines 1 and 2 of settle.
fn settle_line(
    input: &mut impl BufRead,
    text: &mut Vec<u8>,
    line: u64,
    key: &str,
    range: RangeInclusive<i64>,
) -> Result<i64, End> {
    text.clear();
    // A line cut off at the limit has no byte 10 and is refused for that.
    let mut front = input.by_ref().take(SETTLE_LINE_LIMIT);
    front.read_until(b'\n', text)?;
    let number = Lines::numbered(text, line).number(key, range);
    Ok(number.map_err(Stop::of("settle"))?)
}

/// Reads the next hour into `hour`; false if the input is at its end.
///
/// An hour over its limit is read to one byte above it, which is enough for
/// its refusal and keeps the memory bounded.
fn next_hour(input: &mut impl BufRead, hour: &mut Vec<u8>) -> io::Result<bool> {
    hour.clear();
    loop {
        let line_start = hour.len();
        let room = (HOUR_LIMIT + 1 - line_start) as u64;
        let read = input.by_ref().take(room).read_until(b'\n', hour)?;
        if read == 0 {
            return Ok(line_start > 0);
        }
        if hour[line_start..] == *b"\n" {
            hour.pop();
            return Ok(true);
        }
    }
}
