//! What a desk that edits a snapshot relies on, on random values.
//!
//! Values that are written give the text that stands for them, of the length
//! that was told, and bytes after it stay. That text read gives the same values,
//! with 0 in every place that is not looked at and the number of resources as
//! `count`; what stands after them stays. Written again it gives its own bytes.
//! Its price is the one that the reference gives for the values. Marks on units
//! on which they are fine are kept on the way.

use crate::generate::{curves_near, size};
use crate::held::{disturb, show_held, Held, ID_ROW, NUMBER_ROW};
use crate::marks::mark_fine;
use crate::texts::snapshot;
use crate::{curve_set, Answer, Library, Random, Refusal};
use reference::{price_values, snapshot_of_held};

/// How many round trips there were, and how telling they were.
#[derive(Clone, Copy, Debug, Default, PartialEq, Eq)]
pub struct Counts {
    pub trips: u64,
    pub resources: u64,
    /// The values had something in places that are not looked at.
    pub disturbed: u64,
    /// The on-line price was above 0 and below its greatest.
    pub priced: u64,
    /// Some number was marked.
    pub marked: u64,
}

impl Counts {
    pub fn add(&mut self, other: &Counts) {
        self.trips += other.trips;
        self.resources += other.resources;
        self.disturbed += other.disturbed;
        self.priced += other.priced;
        self.marked += other.marked;
    }
}

/// Checks one round trip. What is broken is told in the error.
pub fn check(library: &dyn Library, random: &mut Random) -> Result<Counts, String> {
    let count = size(random);
    let mut snapshot = snapshot(random, count);
    let marked = random.one_in(2) && mark_fine(random, &mut snapshot);
    let (exact, right) = (Held::of(&snapshot), snapshot.text());
    let mut held = exact.clone();
    let disturbed = disturb(random, &mut held);
    let told = |broken: String| {
        let mut out = format!("{broken}\n");
        show_held(&mut out, &held);
        out
    };
    let text = written(library, &held, random).map_err(told)?;
    if text != right {
        let text = text.escape_ascii();
        return Err(told(format!("written as \"{text}\"")));
    }
    let read = read(library, &text, random).map_err(told)?;
    if read != exact {
        let mut out = "read again as\n".to_string();
        show_held(&mut out, &read);
        return Err(told(out));
    }
    if written(library, &read, random).map_err(told)? != text {
        return Err(told("read and written, it has other bytes".to_string()));
    }
    let curves = curves_near(random, &text);
    let mut answer: Answer = [0; 6];
    accepted("priced", library.price(&curves, &text, &mut answer)).map_err(told)?;
    let values = snapshot_of_held(&held.header, &held.ids, &held.numbers);
    let values = values.map_err(|_| told("the reference refuses the values".to_string()))?;
    let prices = price_values(&curve_set(&curves), &values);
    let [.., online, offline] = answer;
    if (online, offline) != (prices.online, prices.offline) {
        return Err(told(format!(
            "its prices are {online} and {offline}, those of the values {} and {}",
            prices.online, prices.offline
        )));
    }
    let greatest = (curves[0] - held.header[2]).max(0);
    Ok(Counts {
        trips: 1,
        resources: count as u64,
        disturbed: u64::from(disturbed),
        priced: u64::from(0 < online && online < greatest),
        marked: u64::from(marked),
    })
}

/// An acceptance, or what was refused.
pub(crate) fn accepted(what: &str, refusal: Refusal) -> Result<(), String> {
    if refusal.accepted() {
        return Ok(());
    }
    let Refusal { number, line } = refusal;
    Err(format!("{what}: refused {number} line {line}"))
}

/// The text of values that are accepted. It is written into a buffer of the
/// length that the library tells, or one that is longer.
fn written(library: &dyn Library, held: &Held, random: &mut Random) -> Result<Vec<u8>, String> {
    let Held {
        header,
        ids,
        numbers,
    } = held;
    let (mut length, mut written) = (usize::MAX, usize::MAX);
    let asked = library.snapshot_length(header, ids, numbers, &mut length);
    accepted("asked for its length", asked)?;
    let spare = random.place(3);
    let filling = random.bits() as u8;
    let mut buffer = vec![filling; length + spare];
    let refusal = library.write_snapshot(header, ids, numbers, &mut buffer, &mut written);
    accepted("written", refusal)?;
    if written != length {
        return Err(format!("{length} bytes were told, and {written} written"));
    }
    if buffer[length..].iter().any(|&byte| byte != filling) {
        return Err("a byte after the text is changed".to_string());
    }
    buffer.truncate(length);
    Ok(buffer)
}

/// The values of a text that is accepted, read into as many rows as it needs, or
/// more.
fn read(library: &dyn Library, text: &[u8], random: &mut Random) -> Result<Held, String> {
    let count = text
        .split(|&byte| byte == b'\n')
        .filter(|line| line.starts_with(b"id="))
        .count();
    let (ids, numbers) = (count * ID_ROW, count * NUMBER_ROW);
    let filling = random.bits() as u8;
    let mut space = Held {
        header: [i64::from(filling); 8],
        ids: vec![filling; ids + random.place(2 * ID_ROW)],
        numbers: vec![i64::from(filling); numbers + random.place(2 * NUMBER_ROW)],
    };
    let Held {
        header,
        ids: all_ids,
        numbers: all_numbers,
    } = &mut space;
    accepted(
        "read",
        library.read_snapshot(text, header, all_ids, all_numbers),
    )?;
    let same_bytes = all_ids[ids..].iter().all(|&byte| byte == filling);
    let same = |number: &i64| *number == i64::from(filling);
    if !same_bytes || !all_numbers[numbers..].iter().all(same) {
        return Err("read: what stands after the last row is changed".to_string());
    }
    all_ids.truncate(ids);
    all_numbers.truncate(numbers);
    Ok(space)
}
