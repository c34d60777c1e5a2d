//! Prices one snapshot on curves with mean 0 and spread 1000000 kW in every group.

use ordc::{CurveSet, Pair, Refusal, GROUPS};

const SNAPSHOT: &[u8] = include_bytes!("../../python/examples/snapshots/1-listing.txt");

fn main() -> Result<(), Refusal> {
    let curves = CurveSet {
        voll: 900_000,
        floor: 2_000_000,
        pairs: [Pair {
            mean: 0,
            spread: 1_000_000,
        }; GROUPS],
    };
    let prices = curves.price(SNAPSHOT)?;
    println!("rs={}", prices.rs);
    println!("rsns={}", prices.rsns);
    println!("pis={}", prices.pis);
    println!("pins={}", prices.pins);
    println!("online={}", prices.online);
    println!("offline={}", prices.offline);
    Ok(())
}
