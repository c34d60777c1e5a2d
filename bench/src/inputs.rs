//! The same inputs at each run: snapshots and hours from a seed.

use random::Random;
use std::fmt::Write;

/// A number of 0 or more, below a bound.
fn below(random: &mut Random, bound: u64) -> u64 {
    random.bits() % bound
}

/// Mean 0 and spread 1000000 kW in every group.
pub fn curve_text() -> Vec<u8> {
    let mut text = String::from("voll=900000\nfloor=2000000\n");
    for _ in 0..ordc::GROUPS {
        text.push_str("mu=0\nsigma=1000000\n");
    }
    text.into_bytes()
}

/// How the ids of a snapshot's resources look.
#[derive(Clone, Copy)]
pub enum Ids {
    /// `UNIT_0_A`, `UNIT_1_A` and so on.
    Numbered,
    /// Sixteen bytes that look random.
    Random,
    /// Sixteen bytes, as many of them as can be the same in all ids: two bytes tell 1369 ids apart, three 50653.
    Prefixed,
}

const ID_BYTES: &[u8; 37] = b"ABCDEFGHIJKLMNOPQRSTUVWXYZ0123456789_";

/// The last bytes of an id with a long prefix: its index in the base of the bytes that an id can have.
fn suffix(index: u64, length: u32) -> String {
    let base = ID_BYTES.len() as u64;
    (0..length)
        .rev()
        .map(|place| char::from(ID_BYTES[(index / base.pow(place) % base) as usize]))
        .collect()
}

/// The id of a resource by its index.
fn id(ids: Ids, index: u64, count: u64, random: &mut Random) -> String {
    match ids {
        Ids::Numbered => format!("UNIT_{index}_A"),
        Ids::Random => (0..16)
            .map(|_| char::from(*random.pick(ID_BYTES)))
            .collect(),
        Ids::Prefixed if count <= 37 * 37 => format!("RESOURCE_NODE_{}", suffix(index, 2)),
        Ids::Prefixed => format!("RESOURCE_NODE{}", suffix(index, 3)),
    }
}

/// The most that one resource adds, where so many in a thousand add that many kW together, each half of it on average.
fn most(kilowatts: u64, in_a_thousand: u64, count: u64) -> u64 {
    2 * kilowatts * 1000 / (in_a_thousand * count)
}

const KINDS: [&str; 4] = ["gen", "wind", "irr", "nuke"];
const STATUSES: [&str; 9] = [
    "ON", "ON", "ON", "OFF", "OFFNS", "ONTEST", "STARTUP", "SHUTDOWN", "OUT",
];

/// One of many snapshots of so many resources: of ten, about seven generators of every kind and status, one clr and two
/// nclr. The reserves are a few GW, above X and so near to it that both probabilities lie between 0 and 1.
pub fn snapshot(count: u64, ids: Ids, number: u64) -> Vec<u8> {
    let mut random = Random::at(count, number);
    // What one resource adds at most to G, C, L and D.
    let on_line = most(2_200_000, 155, count);
    let controllable = most(400_000, 100, count);
    let loads = most(600_000, 200, count);
    let off_line = most(1_000_000, 97, count);
    let mut text = format!("month=7\nhour=14\nlambda=2500\nfactor=9500\nprc=3000000\neea1=2300000\nshort=0\ncount={count}\n");
    for index in 0..count {
        let id = id(ids, index, count, &mut random);
        writeln!(text, "id={id}").expect("a String takes every byte");
        let mut below = |bound| below(&mut random, bound);
        let lpc = below(50_000);
        match below(10) {
            7 => write!(
                text,
                "kind=clr\nbase={}\nlpc={lpc}\nnonspin={}\nregup={}\n",
                lpc + below(controllable),
                below(50),
                below(50)
            ),
            8 | 9 => write!(
                text,
                "kind=nclr\nrrsok={}\nnet={}\nlpc={lpc}\nrrs={}\n",
                below(2),
                lpc + below(2 * loads),
                below(loads)
            ),
            _ => {
                let (kind, status) = (KINDS[below(4) as usize], STATUSES[below(9) as usize]);
                let hsl = match status {
                    "OFF" | "OFFNS" => below(off_line),
                    _ => on_line + below(400_000),
                };
                let base = hsl - below(on_line).min(hsl);
                write!(
                    text,
                    "kind={kind}\nstatus={status}\nnet={base}\nlsl={}\nhsl={hsl}\nbase={base}\nnonspin={}\ncold30={}\n",
                    base / (1 + below(5)),
                    below(50),
                    below(2)
                )
            }
        }
        .expect("a String takes every byte");
    }
    text.into_bytes()
}

/// The snapshot with a mark on every reading of each unit where a mark turns nothing back.
pub fn marked(text: &[u8]) -> Vec<u8> {
    const ALL_READINGS: i64 = 0b1_1111; // of a generator: cold30, which comes last, carries no mark
    let snapshot = reference::read_snapshot(text).expect("the snapshot is accepted");
    let mut header = [0; 8];
    let mut ids = vec![0; snapshot.resources.len() * reference::ID_ROW];
    let mut numbers = vec![0; snapshot.resources.len() * reference::NUMBER_ROW];
    reference::read_held(text, &mut header, &mut ids, &mut numbers).expect("there is space");
    let rows = numbers.chunks_exact_mut(reference::NUMBER_ROW);
    for (resource, row) in snapshot.resources.iter().zip(rows) {
        if !reference::turned_back_by_a_mark(&resource.unit) {
            row[reference::NUMBER_ROW - 1] = ALL_READINGS;
        }
    }
    reference::held_text(&header, &ids, &numbers).expect("the values are accepted")
}

/// So many hours, spread evenly over the groups, each of twelve runs.
pub fn hours(count: u64) -> Vec<Vec<u8>> {
    let mut random = Random::new(count);
    (0..count)
        .map(|index| {
            let mut power = |most: u64| below(&mut random, most);
            let (group, day) = (index % 24, index / 24);
            let (month, hour) = (
                3 * (group / 6) + 1,
                (4 * (group % 6) + day % 4 + 22) % 24,
            );
            let mut text = format!(
                "month={month}\nhour={hour}\nongen={}\nload={}\ntie={}\nns={}\nreg={}\nrrs={}\nnclr={}\noffns={}\ncold30={}\nshed=0\nruns=12\n",
                70_000_000 + power(3_000_000),
                60_000_000 + power(3_000_000),
                power(500_000),
                power(1_500_000),
                power(500_000),
                power(2_500_000),
                power(1_000_000),
                power(800_000),
                power(600_000)
            );
            for _ in 0..12 {
                write!(
                    text,
                    "hsl={}\nbase={}\nrrs={}\nnclr={}\nreg={}\nns={}\noffns={}\ncold30={}\nshort=0\n",
                    70_000_000 + power(3_000_000),
                    60_000_000 + power(3_000_000),
                    power(2_500_000),
                    power(1_000_000),
                    power(500_000),
                    power(1_500_000),
                    power(800_000),
                    power(600_000)
                )
                .expect("a String takes every byte");
            }
            text.into_bytes()
        })
        .collect()
}
