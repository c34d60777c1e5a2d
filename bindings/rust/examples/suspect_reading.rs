//! A reading arrives marked suspect, on a unit that counts: the snapshot is turned back, with the line of the reading. A
//! desk that takes the unit out of service gets a price, and the mark stays with the reading.

use ordc::{CurveSet, Generator, Refusal, Snapshot, Status, Unit};

const CURVES: &[u8] = include_bytes!("../../python/examples/listing.curves");
const SNAPSHOT: &[u8] = include_bytes!("../../python/examples/snapshots/1-listing.txt");
/// The same snapshot, the HSL of C marked: `hsl=293000?`.
const SUSPECT: &[u8] = include_bytes!("../../python/examples/snapshots/7-suspect-hsl.txt");

/// The line of a text, counted from 1.
fn line_of(text: &[u8], line: u64) -> String {
    // Nothing stands for line 0, which a refusal has where it concerns no line.
    let mut lines = std::iter::once(&b""[..]).chain(text.split(|&byte| byte == b'\n'));
    let found = lines.nth(line as usize).unwrap_or_default();
    String::from_utf8_lossy(found).into_owned()
}

fn generators<'a>(
    snapshot: &'a mut Snapshot,
    id: &'a str,
) -> impl Iterator<Item = &'a mut Generator> {
    let named = snapshot.resources.iter_mut().filter(move |r| r.id == id);
    named.filter_map(|resource| match &mut resource.unit {
        Unit::Generator(unit) => Some(unit),
        _ => None,
    })
}

fn main() -> Result<(), Refusal> {
    let curves = CurveSet::from_text(CURVES)?;
    if let Err(refusal) = curves.price(SUSPECT) {
        println!("as it came: {}: {refusal}", line_of(SUSPECT, refusal.line));
    }

    // The same in memory. C is OFFNS, so its HSL would enter a sum.
    let mut snapshot = Snapshot::from_text(SNAPSHOT)?;
    for unit in generators(&mut snapshot, "C") {
        unit.marks.hsl = true;
    }
    if let Err(refusal) = snapshot.to_text() {
        println!("C marked in memory: {refusal}");
    }

    for unit in generators(&mut snapshot, "C") {
        unit.status = Status::Out;
    }
    let text = snapshot.to_text()?;
    let prices = curves.price(&text)?;
    println!(
        "C marked and OUT, {}: rsns={} online={} offline={}",
        line_of(&text, 32),
        prices.rsns,
        prices.online,
        prices.offline
    );
    Ok(())
}
