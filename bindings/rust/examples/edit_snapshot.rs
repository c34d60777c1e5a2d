//! Reads a snapshot, takes one unit out of service in memory, and prices the snapshot as it was and as it is then.

use ordc::{CurveSet, Prices, Refusal, Snapshot, Status, Unit};

const CURVES: &[u8] = include_bytes!("../../python/examples/listing.curves");
const SNAPSHOT: &[u8] = include_bytes!("../../python/examples/snapshots/1-listing.txt");

fn print(name: &str, prices: Prices) {
    println!(
        "{name}: rsns={} online={} offline={}",
        prices.rsns, prices.online, prices.offline
    );
}

fn main() -> Result<(), Refusal> {
    let curves = CurveSet::from_text(CURVES)?;
    print("as read", curves.price(SNAPSHOT)?);

    let mut snapshot = Snapshot::from_text(SNAPSHOT)?;
    for resource in &mut snapshot.resources {
        if let ("C", Unit::Generator(unit)) = (resource.id.as_str(), &mut resource.unit) {
            unit.status = Status::Out;
        }
    }
    // The text to price, to keep or to hand on.
    let text = snapshot.to_text()?;
    print("C is OUT", curves.price(&text)?);
    Ok(())
}
