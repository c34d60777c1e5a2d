//! What an operation refused, and why.

use std::error::Error;
use std::fmt;

/// A refusal's number, 1 to 15, and the line it concerns: the first line of the text, or of the text that would be
/// written, is 1; for 12 and 13 it is the group, 0 to 23; 0 where no line is concerned.
#[derive(Clone, Copy, Debug, PartialEq, Eq)]
pub struct Refusal {
    pub number: u64,
    pub line: u64,
}

impl Refusal {
    /// A sentence in plain words.
    pub fn explanation(&self) -> &'static str {
        match self.number {
            1 => "the record or the curve set that was handed in is impossible",
            2 => "the text is too long",
            3 => "a line that is due is absent, or lacks its line feed",
            4 => "the line does not begin with the key that is due and `=`",
            5 => "the line has no value after its `=`",
            6 => "the value is badly written or none of the listed words",
            7 => "the number is outside its range",
            8 => "the id already stands further above",
            9 => "bytes follow the last line that is due",
            10 => "the hour's group already has 1000 hours",
            11 => "the hour's reserve error lies beyond 20000000 kW in size",
            12 => "a group has fewer than 2 hours",
            13 => "a group's errors have spread 0",
            14 => "the buffer is shorter than the text or the page, or the rows are fewer than the resources",
            15 => "a number is marked suspect, on a unit where that turns the snapshot back",
            _ => "refused",
        }
    }
}

impl fmt::Display for Refusal {
    fn fmt(&self, f: &mut fmt::Formatter<'_>) -> fmt::Result {
        write!(f, "refused by {}", self.number)?;
        match (self.number, self.line) {
            (12 | 13, group) => write!(f, ", group {group}")?,
            (_, 0) => {}
            (_, line) => write!(f, ", line {line}")?,
        }
        write!(f, ": {}", self.explanation())
    }
}

impl Error for Refusal {}
