//! More reserve never raises a price: random pairs of histories and of
//! snapshots, the second of each with more reserve than the first.
//!
//! In the second history every hour-ahead reserve is lower by the same amount,
//! and so is every error; bookings that are refused stand at the same places.
//! In the second snapshot reserve is raised in the ways that the rule allows.
//! Some pairs are priced on curves that are handed in, the same for both.
//! Then neither price of the second pricing may be above the first's.

use crate::damage::damage;
use crate::marks::mark_fine;
use crate::texts::{hour_in_group, resource, snapshot, Entry, Resource, Snapshot, MOST_UNIT};
use crate::{show_text, Answer, Curves, Library, Random, RecordNumbers};
use reference::{group_of, read_snapshot, reserves, sums};
use std::fmt::Write;

/// So many snapshot pairs are priced on the curves of one history pair.
pub const SNAPSHOTS: u64 = 20;

/// How many pairs there were, and how telling they were.
#[derive(Clone, Copy, Debug, Default, PartialEq, Eq)]
pub struct Counts {
    pub pairs: u64,
    /// Both pricings were accepted.
    pub accepted: u64,
    /// Of these, priced on curves handed in.
    pub handed: u64,
    /// RS of the first within one sigma of X.
    pub near: u64,
    /// Net less lpc above 0 and below the cap in both.
    pub slack: u64,
    /// A price is lower in the second.
    pub falling: u64,
    /// All three.
    pub tight: u64,
    pub bookings: u64,
    pub refused_bookings: u64,
    /// Histories in which the two lists were refused at different places, so
    /// that nothing is said of them.
    pub unmatched: u64,
}

impl Counts {
    pub fn add(&mut self, other: &Counts) {
        self.pairs += other.pairs;
        self.accepted += other.accepted;
        self.handed += other.handed;
        self.near += other.near;
        self.slack += other.slack;
        self.falling += other.falling;
        self.tight += other.tight;
        self.bookings += other.bookings;
        self.refused_bookings += other.refused_bookings;
        self.unmatched += other.unmatched;
    }
}

/// Two lists of hour texts, equally long.
struct Histories {
    texts: [Vec<Vec<u8>>; 2],
    /// The group of each place; none where both texts are damaged.
    groups: Vec<Option<usize>>,
    /// By how much HA is lower in the second.
    lower: i64,
    /// How far the errors lie apart.
    spread: i64,
}

fn histories(random: &mut Random) -> Histories {
    let spread = *random.pick(&[10, 1000, 30_000, 300_000, 3_000_000]);
    let lower = match random.bits() % 6 {
        0 => 0,
        1 => 1,
        2 => random.within(0, spread),
        // Not so much that an error of the second list is refused.
        3 => random.within(0, (10 * spread).min(15_000_000)),
        _ => random.within(0, 10),
    };
    let mut places: Vec<usize> = (0..24)
        .flat_map(|group| vec![group; 2 + random.place(3)])
        .collect();
    for place in (1..places.len()).rev() {
        places.swap(place, random.place(place + 1));
    }
    let mut all = Histories {
        texts: [Vec::new(), Vec::new()],
        groups: Vec::new(),
        lower,
        spread,
    };
    for group in places {
        while random.one_in(16) {
            for list in &mut all.texts {
                list.push(refused_hour(random, group));
            }
            all.groups.push(None);
        }
        for (list, text) in all
            .texts
            .iter_mut()
            .zip(hours(random, group, spread, lower))
        {
            list.push(text);
        }
        all.groups.push(Some(group));
    }
    all
}

/// An hour that is refused: damaged, or with an error that is too large.
fn refused_hour(random: &mut Random, group: usize) -> Vec<u8> {
    let mut hour = hour_in_group(random, group);
    if random.one_in(3) {
        let beyond = 20_000_001 + random.uneven(0, 1_000_000);
        let error = if random.one_in(2) { beyond } else { -beyond };
        if hour.set_ahead_reserve(hour.ahead_reserve() + error - hour.error()) {
            return hour.text();
        }
    }
    let mut text = hour.text();
    damage(random, &mut text);
    while reference::book(&reference::Record::fresh(), &text).is_ok() {
        damage(random, &mut text);
    }
    text
}

/// The two texts of one hour: equal but for the fields of the hour ahead,
/// which are any that make HA lower by `lower`.
fn hours(random: &mut Random, group: usize, spread: i64, lower: i64) -> [Vec<u8>; 2] {
    loop {
        let mut first = hour_in_group(random, group);
        let error = random.within(-spread, spread);
        let reserve = first.ahead_reserve() + error - first.error();
        let mut second = first.clone();
        if random.one_in(2) {
            second.ahead = hour_in_group(random, group).ahead;
        }
        if first.set_ahead_reserve(reserve) && second.set_ahead_reserve(reserve - lower) {
            return [first.text(), second.text()];
        }
    }
}

/// Books a list on a fresh record; the places where it was refused.
fn book_list(library: &dyn Library, texts: &[Vec<u8>]) -> (RecordNumbers, Vec<bool>) {
    let mut record = [0; 72];
    let refused = texts
        .iter()
        .map(|text| !library.book(&mut record, text).accepted())
        .collect();
    (record, refused)
}

/// Up by nothing, a little or a lot, but not over `most`.
fn up(random: &mut Random, value: i64, most: i64) -> i64 {
    let more = match random.bits() % 6 {
        0 => random.within(0, 3),
        1 => random.within(0, 1000),
        2 => random.within(0, 300_000),
        _ => 0,
    };
    (value + more).min(most.max(value))
}

/// Down likewise, but not under 0.
fn down(random: &mut Random, value: i64) -> i64 {
    value - up(random, 0, value)
}

/// The snapshot with reserve raised.
fn raised(random: &mut Random, first: &Snapshot) -> Snapshot {
    let mut second = first.clone();
    let [.., prc, _, short] = &mut second.header;
    *prc = up(random, *prc, 200_000_000);
    *short = down(random, *short);
    for entry in &mut second.resources {
        match &mut entry.resource {
            Resource::Generator { values, .. } => {
                let [_, _, hsl, base, _, _] = values;
                *hsl = up(random, *hsl, MOST_UNIT);
                *base = down(random, *base);
            }
            Resource::Clr([base, lpc, _, regup]) => {
                *base = up(random, *base, MOST_UNIT);
                *lpc = down(random, *lpc);
                *regup = up(random, *regup, MOST_UNIT);
            }
            Resource::Nclr([_, net, lpc, rrs]) => {
                *net = up(random, *net, MOST_UNIT);
                *lpc = down(random, *lpc);
                *rrs = up(random, *rrs, MOST_UNIT);
            }
        }
    }
    second
}

/// A snapshot with reserve enough for an X, loads with a slack cap among its
/// resources as often as not.
fn first_snapshot(random: &mut Random) -> Snapshot {
    let count = random.within(1, 7) as usize;
    let mut first = snapshot(random, count);
    first.header[6] = random.uneven(0, 1_000_000);
    // Mostly a price: lambda is well below VOLL.
    first.header[2] = random.within(-10_000, 100_000);
    for entry in &mut first.resources {
        if random.one_in(3) {
            entry.resource = resource(random);
        }
    }
    if random.one_in(2) {
        let lpc = random.within(0, 1000);
        let net = lpc + random.within(1, 400_000);
        let rrs = net + random.within(0, 1000);
        first.resources.push(Entry {
            id: "SLACK".to_string(),
            resource: Resource::Nclr([1, net, lpc, rrs.min(MOST_UNIT)]),
            marks: 0,
        });
    }
    // The second has the same marks, as raising reserve leaves them.
    if random.one_in(4) {
        mark_fine(random, &mut first);
    }
    first
}

/// What the two pricings of a pair have their curves from.
struct Grounds<'a> {
    library: &'a dyn Library,
    records: &'a [RecordNumbers; 2],
    voll: i64,
    floor: i64,
    /// Curves handed in, the same for both; else the records are settled.
    handed: Option<Curves>,
}

impl Grounds<'_> {
    /// The first or the second pricing: its curves and its answer, if it is
    /// accepted.
    fn priced(&self, place: usize, text: &[u8]) -> Option<(Curves, Answer)> {
        let mut curves = self.handed.unwrap_or([0; 50]);
        let mut answer = [0; 6];
        let settled = self.handed.is_some()
            || self
                .library
                .settle(&self.records[place], self.voll, self.floor, &mut curves)
                .accepted();
        let accepted = settled && self.library.price(&curves, text, &mut answer).accepted();
        accepted.then_some((curves, answer))
    }

    fn compare(&self, first: &Snapshot, second: &Snapshot) -> Option<Compared> {
        let texts = [first.text(), second.text()];
        let (curves, answer) = self.priced(0, &texts[0])?;
        let (_, raised_answer) = self.priced(1, &texts[1])?;
        let sigma = curves[3 + 2 * group_of(first.header[0], first.header[1])];
        Some(Compared {
            answers: [answer, raised_answer],
            near: (answer[0] - curves[1]).abs() <= sigma,
            slack: texts.iter().all(|text| is_slack(text)),
        })
    }
}

/// Whether net less lpc is above 0 and below the cap.
fn is_slack(text: &[u8]) -> bool {
    read_snapshot(text).is_ok_and(|snapshot| {
        let sums = sums(&snapshot);
        0 < sums.net_less_lpc && 2 * sums.net_less_lpc < 3 * sums.rrs
    })
}

/// Checks one pair of histories with several pairs of snapshots. A pair that
/// breaks the rule is told in the error.
pub fn check(library: &dyn Library, random: &mut Random) -> Result<Counts, String> {
    let mut counts = Counts::default();
    let histories = histories(random);
    let (first_record, first_refused) = book_list(library, &histories.texts[0]);
    let (second_record, second_refused) = book_list(library, &histories.texts[1]);
    counts.bookings = 2 * first_refused.len() as u64;
    let refused = first_refused.iter().filter(|&&refused| refused);
    counts.refused_bookings = 2 * refused.count() as u64;
    if first_refused != second_refused {
        counts.unmatched = 1;
        return Ok(counts);
    }
    let records = [first_record, second_record];
    for _ in 0..SNAPSHOTS {
        let first = first_snapshot(random);
        let second = raised(random, &first);
        let (voll, floor) = settling(random, &first, histories.spread);
        let handed = random
            .one_in(4)
            .then(|| handed_curves(random, voll, floor, histories.spread));
        let grounds = Grounds {
            library,
            records: &records,
            voll,
            floor,
            handed,
        };
        counts.pairs += 1;
        match grounds.compare(&first, &second) {
            None => {}
            Some(pair) if pair.broken() => {
                let (first, second) = fewer_resources(&grounds, first, second);
                return Err(tell(&grounds, &histories, &first, &second));
            }
            Some(pair) => {
                counts.accepted += 1;
                counts.handed += u64::from(handed.is_some());
                counts.near += u64::from(pair.near);
                counts.slack += u64::from(pair.slack);
                counts.falling += u64::from(pair.falling());
                counts.tight += u64::from(pair.near && pair.slack && pair.falling());
            }
        }
    }
    Ok(counts)
}

/// Curves that come from no history.
fn handed_curves(random: &mut Random, voll: i64, floor: i64, spread: i64) -> Curves {
    let mut curves = [0; 50];
    curves[0] = voll;
    curves[1] = floor;
    for pair in curves[2..].chunks_mut(2) {
        pair[0] = random.within(-3 * spread, 3 * spread);
        pair[1] = random.within(1, 2 * spread);
    }
    curves
}

/// A VOLL, and an X near the reserve of the first snapshot.
fn settling(random: &mut Random, first: &Snapshot, spread: i64) -> (i64, i64) {
    let text = first.text();
    let rs = read_snapshot(&text).map_or(0, |first| reserves(&first, &sums(&first)).rs);
    let above = match random.bits() % 4 {
        0 => random.within(-2, 3),
        1 => random.within(-2 * spread, 6 * spread),
        2 => random.within(0, spread),
        _ => random.uneven(0, 1_000_000),
    };
    let voll = random.within(0, 2_000_000);
    (voll, (rs - above).clamp(0, 20_000_000))
}

/// Two accepted pricings.
struct Compared {
    answers: [Answer; 2],
    near: bool,
    slack: bool,
}

impl Compared {
    fn prices(&self, place: usize) -> [i64; 2] {
        let [.., online, offline] = self.answers[place];
        [online, offline]
    }

    fn broken(&self) -> bool {
        let ([first_on, first_off], [second_on, second_off]) = (self.prices(0), self.prices(1));
        second_on > first_on || second_off > first_off
    }

    fn falling(&self) -> bool {
        self.prices(0) != self.prices(1)
    }
}

/// Takes resources out of both snapshots while the pair stays broken.
fn fewer_resources(
    grounds: &Grounds,
    mut first: Snapshot,
    mut second: Snapshot,
) -> (Snapshot, Snapshot) {
    let mut place = 0;
    while place < first.resources.len() {
        let (mut fewer, mut fewer_raised) = (first.clone(), second.clone());
        fewer.resources.remove(place);
        fewer_raised.resources.remove(place);
        let pair = grounds.compare(&fewer, &fewer_raised);
        if pair.is_some_and(|pair| pair.broken()) {
            (first, second) = (fewer, fewer_raised);
        } else {
            place += 1;
        }
    }
    (first, second)
}

/// The broken pair, for people: what counts for the snapshot's group.
fn tell(grounds: &Grounds, histories: &Histories, first: &Snapshot, second: &Snapshot) -> String {
    let group = group_of(first.header[0], first.header[1]);
    let mut out = format!(
        "VOLL {}, X {}, group {group}; ",
        grounds.voll, grounds.floor
    );
    match grounds.handed {
        Some(_) => writeln!(out, "curves handed in, the same for both"),
        None => writeln!(out, "HA lower by {} in the second list", histories.lower),
    }
    .unwrap();
    for (place, (name, snapshot)) in [("first", first), ("second", second)].iter().enumerate() {
        let text = snapshot.text();
        writeln!(out, "{name}:").unwrap();
        if let Some((curves, answer)) = grounds.priced(place, &text) {
            let [mu, sigma] = [curves[2 + 2 * group], curves[3 + 2 * group]];
            let [rs, rsns, pis, pins, online, offline] = answer;
            writeln!(
                out,
                "  mu {mu}, sigma {sigma}, rs {rs}, rsns {rsns}, pis {pis}, pins {pins}"
            )
            .unwrap();
            writeln!(out, "  online {online}, offline {offline}").unwrap();
        }
        out += &show_text(&text);
        for (text, of) in histories.texts[place].iter().zip(&histories.groups) {
            if *of == Some(group) && grounds.handed.is_none() {
                out += "  booked hour,";
                out += &show_text(text);
            }
        }
    }
    out
}
