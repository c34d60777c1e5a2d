//! What numbers marked suspect (W-206) change, on random snapshots.
//!
//! Snapshots that differ in marks alone, on units where these are fine, have the
//! same six numbers. A mark on any other unit turns the snapshot back: every call
//! that takes it refuses it by 15 with the line of the first such mark, also
//! where there is no space and no buffer.

use crate::generate::{curves_near, size};
use crate::held::Held;
use crate::texts::{snapshot, Entry, Resource, Snapshot};
use crate::trip::accepted;
use crate::{show_text, Answer, Curves, Library, Random, Refusal};

const HEADER_LINES: usize = 8;

/// How many snapshots there were, and how telling they were.
#[derive(Clone, Copy, Debug, Default, PartialEq, Eq)]
pub struct Counts {
    pub snapshots: u64,
    /// Accepted with marks.
    pub marked: u64,
    /// Of these, with an on-line price above 0 and below its greatest.
    pub priced: u64,
    /// Refused by 15.
    pub refused: u64,
}

impl Counts {
    pub fn add(&mut self, other: &Counts) {
        self.snapshots += other.snapshots;
        self.marked += other.marked;
        self.priced += other.priced;
        self.refused += other.refused;
    }
}

impl Resource {
    /// The numbers that can be marked: all but the flag.
    fn can_mark(&self) -> u8 {
        match self {
            Resource::Generator { .. } => 0b1_1111,
            Resource::Clr(_) => 0b1111,
            Resource::Nclr(_) => 0b1110,
        }
    }

    /// Whether a mark on one of its numbers turns the snapshot back.
    fn turns_back(&self) -> bool {
        let Resource::Generator {
            kind,
            status,
            values,
        } = self
        else {
            return true;
        };
        match *status {
            "OFFNS" => true,
            "ON" | "STARTUP" => matches!(*kind, "gen" | "wind"),
            "OFF" => matches!(*kind, "gen" | "nuke") && values[5] == 1,
            _ => false,
        }
    }

    /// How many lines stand before its numbers, and how many it has.
    fn lines_of(&self) -> (usize, usize) {
        match self {
            Resource::Generator { .. } => (3, 9),
            Resource::Clr(_) | Resource::Nclr(_) => (2, 6),
        }
    }
}

/// Marks a number of a resource, or several.
fn mark_entry(random: &mut Random, entry: &mut Entry) {
    let can = entry.resource.can_mark();
    let alone = 1 << random.within(0, 4);
    let marks = if random.one_in(2) {
        alone
    } else {
        random.bits() as u8
    };
    // A resource with a flag, or with fewer numbers, has none at some places.
    entry.marks = match marks & can {
        0 => 0b10,
        marks => marks,
    };
}

/// Marks numbers of some resources on which that is fine; true if there are any.
pub fn mark_fine(random: &mut Random, snapshot: &mut Snapshot) -> bool {
    for entry in &mut snapshot.resources {
        if !entry.resource.turns_back() && random.one_in(2) {
            mark_entry(random, entry);
        }
    }
    snapshot.resources.iter().any(|entry| entry.marks != 0)
}

/// Marks nothing, numbers on which that is fine, or any numbers.
pub fn mark(random: &mut Random, snapshot: &mut Snapshot) {
    let all = snapshot.resources.len();
    match random.bits() % 8 {
        0..=3 => {}
        4..=6 => {
            mark_fine(random, snapshot);
        }
        _ if all == 0 => {}
        _ => {
            for _ in 0..random.within(1, 3) {
                let place = random.place(all);
                mark_entry(random, &mut snapshot.resources[place]);
            }
        }
    }
}

/// The line of the first mark that turns the snapshot back.
fn refused_line(snapshot: &Snapshot) -> Option<u64> {
    let mut above = HEADER_LINES;
    for Entry {
        resource, marks, ..
    } in &snapshot.resources
    {
        let (words, lines) = resource.lines_of();
        if *marks != 0 && resource.turns_back() {
            let first = marks.trailing_zeros() as usize;
            return Some((above + words + first + 1) as u64);
        }
        above += lines;
    }
    None
}

/// Checks one snapshot with several marks. What is broken is told in the error.
pub fn check(library: &dyn Library, random: &mut Random) -> Result<Counts, String> {
    let count = size(random);
    let plain = snapshot(random, count);
    let text = plain.text();
    let curves = curves_near(random, &text);
    let answer = priced(library, &curves, &text)?;
    let mut counts = Counts {
        snapshots: 1,
        ..Counts::default()
    };
    let greatest = (curves[0] - plain.header[2]).max(0);
    let between = 0 < answer[4] && answer[4] < greatest;
    let mut marked = plain;
    for _ in 0..2 {
        if mark_fine(random, &mut marked) {
            same_answer(library, &curves, &marked, &answer)?;
            counts.marked += 1;
            counts.priced += u64::from(between);
        }
    }
    if mark_another(random, &mut marked) {
        turned_back(library, &curves, &marked)?;
        counts.refused += 1;
    }
    Ok(counts)
}

/// Marks a resource on which that turns the snapshot back, if there is one; a
/// second one as often as not.
fn mark_another(random: &mut Random, snapshot: &mut Snapshot) -> bool {
    let mut others: Vec<&mut Entry> = snapshot
        .resources
        .iter_mut()
        .filter(|entry| entry.resource.turns_back())
        .collect();
    let found = !others.is_empty();
    while !others.is_empty() {
        let place = random.place(others.len());
        mark_entry(random, others.swap_remove(place));
        if random.one_in(2) {
            break;
        }
    }
    found
}

fn priced(library: &dyn Library, curves: &Curves, text: &[u8]) -> Result<Answer, String> {
    let mut answer = [0; 6];
    let refusal = library.price(curves, text, &mut answer);
    accepted("priced", refusal).map_err(|broken| told(&broken, text))?;
    Ok(answer)
}

fn told(broken: &str, text: &[u8]) -> String {
    format!("{broken}\n{}", show_text(text))
}

/// The snapshot has the answer that it has without marks.
fn same_answer(
    library: &dyn Library,
    curves: &Curves,
    marked: &Snapshot,
    answer: &Answer,
) -> Result<(), String> {
    let text = marked.text();
    let found = priced(library, curves, &text)?;
    if found == *answer {
        return Ok(());
    }
    let broken = format!("its numbers are {found:?}, and {answer:?} without marks");
    Err(told(&broken, &text))
}

/// Every call that takes the snapshot refuses it by 15.
fn turned_back(library: &dyn Library, curves: &Curves, marked: &Snapshot) -> Result<(), String> {
    let text = marked.text();
    let held = Held::of(marked);
    let Held {
        header,
        ids,
        numbers,
    } = &held;
    let due = Refusal {
        number: 15,
        line: refused_line(marked).expect("a unit is marked"),
    };
    for (name, refusal) in [
        ("priced", library.price(curves, &text, &mut [0; 6])),
        (
            "read",
            library.read_snapshot(&text, &mut [0; 8], &mut [], &mut []),
        ),
        (
            "asked for its length",
            library.snapshot_length(header, ids, numbers, &mut 0),
        ),
        (
            "written",
            library.write_snapshot(header, ids, numbers, &mut [], &mut 0),
        ),
    ] {
        if refusal != due {
            let Refusal { number, line } = refusal;
            let broken = format!(
                "{name}: refused {number} line {line} and not 15 line {}",
                due.line
            );
            return Err(told(&broken, &text));
        }
    }
    Ok(())
}
