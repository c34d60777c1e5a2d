//! What a host that keeps a curve text relies on, on random curve sets.
//!
//! The text has exactly the length that was told. A buffer of just that length
//! is filled, one that is a byte shorter is refused and stays, and in a longer
//! one the bytes after the text stay. That text read gives the same set.

use crate::generate::curves_of_all_lengths;
use crate::trip::accepted;
use crate::{show_curves, Curves, Library, Random, Refusal};
use reference::{WRITTEN_LEAST, WRITTEN_LIMIT};

const SHORT: Refusal = Refusal {
    number: 14,
    line: 0,
};

/// How many round trips there were, and how telling they were.
#[derive(Clone, Copy, Debug, Default, PartialEq, Eq)]
pub struct Counts {
    pub trips: u64,
    /// A mean is below 0.
    pub negative: u64,
    /// No text is shorter, and none is longer.
    pub shortest: u64,
    pub longest: u64,
}

impl Counts {
    pub fn add(&mut self, other: &Counts) {
        self.trips += other.trips;
        self.negative += other.negative;
        self.shortest += other.shortest;
        self.longest += other.longest;
    }
}

/// Checks one round trip. What is broken is told in the error.
pub fn check(library: &dyn Library, random: &mut Random) -> Result<Counts, String> {
    let curves = curves_of_all_lengths(random);
    let length = length_of(library, &curves, random).map_err(|broken| {
        let mut out = format!("{broken}\n");
        show_curves(&mut out, &curves);
        out
    })?;
    Ok(Counts {
        trips: 1,
        negative: u64::from(curves.iter().any(|&number| number < 0)),
        shortest: u64::from(length == WRITTEN_LEAST),
        longest: u64::from(length == WRITTEN_LIMIT),
    })
}

/// The length that is told for a set in its ranges, where the text has it.
fn length_of(library: &dyn Library, curves: &Curves, random: &mut Random) -> Result<usize, String> {
    let mut length = usize::MAX;
    let asked = library.curves_length(curves, &mut length);
    accepted("asked for its length", asked)?;
    if !(WRITTEN_LEAST..=WRITTEN_LIMIT).contains(&length) {
        return Err(format!("{length} bytes were told, which no text has"));
    }
    let filling = random.bits() as u8;
    refused(library, curves, vec![filling; length - 1])?;
    for spare in [0, 1 + random.place(9)] {
        let mut buffer = vec![filling; length + spare];
        let mut written = -1;
        let refusal = library.write_curves(curves, &mut buffer, &mut written);
        accepted("written", refusal)?;
        if written != length as i64 {
            return Err(format!("{length} bytes were told, and {written} written"));
        }
        let (text, after) = buffer.split_at(length);
        if after.iter().any(|&byte| byte != filling) {
            return Err("a byte after the text is changed".to_string());
        }
        let mut same = [-1; 50];
        accepted("read", library.read_curves(text, &mut same))?;
        if same != *curves {
            return Err(format!("written as \"{}\"", text.escape_ascii()));
        }
    }
    Ok(length)
}

/// A buffer that is too short is refused by 14; it stays, and so does the lent
/// length.
fn refused(library: &dyn Library, curves: &Curves, buffer: Vec<u8>) -> Result<(), String> {
    let (mut short, mut written) = (buffer.clone(), -1);
    let refusal = library.write_curves(curves, &mut short, &mut written);
    if refusal.accepted() {
        return Err("a buffer that is a byte too short is accepted".to_string());
    }
    if refusal != SHORT {
        return accepted("written into a byte less", refusal);
    }
    if short != buffer || written != -1 {
        return Err("a refused writing changes something".to_string());
    }
    Ok(())
}
