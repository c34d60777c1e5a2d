//! Snapshots as values, read into lent space and written from it, and their rows.

use crate::measure::{ratio, row};
use crate::{Snapshots, MIDDLE};

/// Reading a text into values takes at most so many times as long as pricing it.
const MOST: f64 = 1.3;

/// What a host holds, or lends to be read into.
#[derive(Clone, Debug, PartialEq, Eq)]
struct Held {
    header: [i64; 8],
    ids: Vec<u8>,
    numbers: Vec<i64>,
}

impl Held {
    fn space(rows: usize) -> Held {
        Held {
            header: [0; 8],
            ids: vec![0; rows * reference::ID_ROW],
            numbers: vec![0; rows * reference::NUMBER_ROW],
        }
    }

    fn read(&mut self, text: &[u8]) -> Result<(), ordc::Refusal> {
        ordc::read_snapshot(text, &mut self.header, &mut self.ids, &mut self.numbers)
    }

    fn length(&self) -> Result<usize, ordc::Refusal> {
        ordc::snapshot_length(&self.header, &self.ids, &self.numbers)
    }

    fn write(&self, buffer: &mut [u8]) -> Result<usize, ordc::Refusal> {
        ordc::write_snapshot(&self.header, &self.ids, &self.numbers, buffer)
    }

    fn read_by_reference(&mut self, text: &[u8]) -> Result<(), reference::Refusal> {
        reference::read_held(text, &mut self.header, &mut self.ids, &mut self.numbers)
    }
}

/// Rows of reading and of writing the snapshots that are priced, and how long reading takes beside pricing.
pub fn snapshots(curves: &ordc::CurveSet, snapshots: &Snapshots) -> String {
    let Snapshots {
        name,
        resources,
        texts,
    } = snapshots;
    let longest = texts.iter().map(Vec::len).max().unwrap_or(0);
    let (mut ours, mut theirs) = (Held::space(*resources), Held::space(*resources));
    let (mut buffer, mut space) = (vec![0; longest], vec![0; longest]);
    let mut held = Vec::new();
    for text in texts {
        ours.read(text).expect("the snapshot is accepted");
        theirs
            .read_by_reference(text)
            .expect("the snapshot is accepted");
        assert_eq!(ours, theirs);
        assert_eq!(ours.length(), Ok(text.len()));
        assert_eq!(ours.write(&mut buffer), Ok(text.len()));
        assert_eq!(buffer[..text.len()], text[..]);
        held.push(ours.clone());
    }
    row(
        &format!("read {name}"),
        MIDDLE,
        texts,
        texts,
        texts,
        |text| ours.read(text),
        |text| theirs.read_by_reference(text),
    );
    row(
        &format!("write {name}"),
        MIDDLE,
        texts,
        &held,
        &held,
        |held| held.write(&mut buffer),
        |held| reference::write_held(&held.header, &held.ids, &held.numbers, &mut space),
    );
    let times = ratio(
        MIDDLE,
        texts,
        |text| ours.read(text),
        |text| curves.price(text),
    );
    let verdict = if times > MOST {
        "TOO SLOW"
    } else {
        "as it should be"
    };
    format!("{name:<29}{times:>14.2}   {verdict}")
}

pub fn heading() -> String {
    format!("\nreading into values, in times of pricing the same text (at most {MOST})")
}
