//! Hours and snapshots as values, and their texts.

use crate::Random;

pub const MOST_POWER: i64 = 100_000_000;
pub const MOST_UNIT: i64 = 2_000_000;

/// An hour of the history.
#[derive(Clone, Debug)]
pub struct Hour {
    pub month: i64,
    pub hour: i64,
    /// ongen load tie ns reg rrs nclr offns cold30
    pub ahead: [i64; 9],
    pub shed: i64,
    /// hsl base rrs nclr reg ns offns cold30 short
    pub runs: Vec<[i64; 9]>,
}

const AHEAD: [&str; 9] = [
    "ongen", "load", "tie", "ns", "reg", "rrs", "nclr", "offns", "cold30",
];
const RUN: [&str; 9] = [
    "hsl", "base", "rrs", "nclr", "reg", "ns", "offns", "cold30", "short",
];

fn put(text: &mut Vec<u8>, key: &str, value: i64) {
    text.extend_from_slice(format!("{key}={value}\n").as_bytes());
}

impl Hour {
    pub fn text(&self) -> Vec<u8> {
        let mut text = Vec::new();
        put(&mut text, "month", self.month);
        put(&mut text, "hour", self.hour);
        for (key, value) in AHEAD.iter().zip(self.ahead) {
            put(&mut text, key, value);
        }
        put(&mut text, "shed", self.shed);
        put(&mut text, "runs", self.runs.len() as i64);
        for run in &self.runs {
            for (key, &value) in RUN.iter().zip(run) {
                put(&mut text, key, value);
            }
        }
        text
    }

    /// HA, the reserve expected an hour ahead.
    pub fn ahead_reserve(&self) -> i64 {
        let [ongen, load, tie, rest @ ..] = self.ahead;
        ongen - load - tie + rest.iter().sum::<i64>()
    }

    pub fn error(&self) -> i64 {
        let sced: i64 = self.runs.iter().map(sced).sum();
        self.ahead_reserve() - sced.div_euclid(self.runs.len() as i64) + self.shed
    }

    /// Changes generation or load until HA is this; false if that is too far.
    pub fn set_ahead_reserve(&mut self, reserve: i64) -> bool {
        let more = reserve - self.ahead_reserve();
        let [ongen, load, ..] = &mut self.ahead;
        let up = more.min(MOST_POWER - *ongen).max(-*ongen);
        *ongen += up;
        *load -= more - up;
        (0..=MOST_POWER).contains(load)
    }
}

/// SCED of one run.
fn sced(run: &[i64; 9]) -> i64 {
    let [hsl, base, middle @ .., short] = run;
    hsl - base + middle.iter().sum::<i64>() - short
}

/// A snapshot's header.
#[derive(Clone, Debug)]
pub struct Snapshot {
    /// month hour lambda factor prc eea1 short
    pub header: [i64; 7],
    pub resources: Vec<Entry>,
}

/// A resource of a snapshot.
#[derive(Clone, Debug)]
pub struct Entry {
    pub id: String,
    pub resource: Resource,
    /// Which of its numbers are marked suspect: 1 for the first, 2 for the
    /// second, and so on.
    pub marks: u8,
}

#[derive(Clone, Debug)]
pub enum Resource {
    /// net lsl hsl base nonspin cold30
    Generator {
        kind: &'static str,
        status: &'static str,
        values: [i64; 6],
    },
    /// base lpc nonspin regup
    Clr([i64; 4]),
    /// rrsok net lpc rrs
    Nclr([i64; 4]),
}

impl Resource {
    /// The lines of its words, but for the id, and its numbers with their keys.
    fn lines(&self) -> (String, &'static [&'static str], &[i64]) {
        match self {
            Resource::Generator {
                kind,
                status,
                values,
            } => (
                format!("kind={kind}\nstatus={status}\n"),
                &["net", "lsl", "hsl", "base", "nonspin", "cold30"],
                values,
            ),
            Resource::Clr(values) => (
                "kind=clr\n".to_string(),
                &["base", "lpc", "nonspin", "regup"],
                values,
            ),
            Resource::Nclr(values) => (
                "kind=nclr\n".to_string(),
                &["rrsok", "net", "lpc", "rrs"],
                values,
            ),
        }
    }
}

const HEADER: [&str; 7] = ["month", "hour", "lambda", "factor", "prc", "eea1", "short"];

impl Snapshot {
    pub fn text(&self) -> Vec<u8> {
        let mut text = Vec::new();
        for (key, value) in HEADER.iter().zip(self.header) {
            put(&mut text, key, value);
        }
        put(&mut text, "count", self.resources.len() as i64);
        for Entry {
            id,
            resource,
            marks,
        } in &self.resources
        {
            let (head, keys, values) = resource.lines();
            text.extend_from_slice(format!("id={id}\n{head}").as_bytes());
            for (place, (key, value)) in keys.iter().zip(values).enumerate() {
                let mark = if marks >> place & 1 == 1 { "?" } else { "" };
                text.extend_from_slice(format!("{key}={value}{mark}\n").as_bytes());
            }
        }
        text
    }
}

/// A random hour in this group.
pub fn hour_in_group(random: &mut Random, group: usize) -> Hour {
    let season = group as i64 / 6;
    let month = (3 * season + random.within(0, 2) + 11) % 12 + 1;
    let hour = (4 * (group as i64 % 6) + random.within(0, 3) + 22) % 24;
    let runs = match random.bits() % 64 {
        0 => 60,
        1 => random.within(1, 60),
        _ => random.within(1, 3),
    };
    let mut power = || random.uneven(0, MOST_POWER / 10);
    let mut ahead: [i64; 9] = std::array::from_fn(|_| power());
    let shed = power() / 10;
    let runs = (0..runs)
        .map(|_| std::array::from_fn(|_| power()))
        .collect();
    ahead[2] = random.uneven(-20_000_000, 20_000_000);
    Hour {
        month,
        hour,
        ahead,
        shed,
        runs,
    }
}

/// A random resource; loads and units alike are often near a limit.
pub fn resource(random: &mut Random) -> Resource {
    let mut power = || random.uneven(0, MOST_UNIT);
    let values = [power(), power(), power(), power()];
    let lsl = power();
    match random.bits() % 8 {
        0 | 1 => Resource::Clr(values),
        2 | 3 => {
            let [net, lpc, rrs, more] = values;
            let rrsok = i64::from(!random.one_in(4));
            // Often a slack cap: rrs about as large as net less lpc.
            let rrs = match random.bits() % 3 {
                0 => rrs,
                1 => (net - lpc).clamp(0, MOST_UNIT),
                _ => (net - lpc + more).clamp(0, MOST_UNIT),
            };
            Resource::Nclr([rrsok, net, lpc, rrs])
        }
        _ => {
            let kind = *random.pick(&["gen", "gen", "gen", "wind", "irr", "nuke"]);
            let status = *random.pick(&[
                "ON", "ON", "ON", "ON", "OFF", "OFFNS", "ONTEST", "STARTUP", "SHUTDOWN", "OUT",
            ]);
            let [hsl, base, nonspin, net] = values;
            let net = match random.bits() % 5 {
                0 => 95 * lsl / 100,
                1 => (95 * lsl / 100 - 1).max(-MOST_UNIT),
                2 => lsl,
                3 => net,
                _ => -net,
            };
            let nonspin = if random.one_in(2) { 0 } else { nonspin };
            let cold30 = random.within(0, 1);
            Resource::Generator {
                kind,
                status,
                values: [net, lsl, hsl, base, nonspin, cold30],
            }
        }
    }
}

/// A random snapshot of this many resources, without marks.
pub fn snapshot(random: &mut Random, count: usize) -> Snapshot {
    let eea1 = random.uneven(0, 200_000_000);
    let prc = match random.bits() % 4 {
        0 => random.uneven(0, 200_000_000),
        1 => (eea1 + random.within(-1, 1)).clamp(0, 200_000_000),
        _ => (eea1 + random.uneven(0, 1_000_000)).min(200_000_000),
    };
    let factor = match random.bits() % 4 {
        0 => 10_000,
        1 => random.uneven(0, 10_000),
        _ => random.within(9_000, 10_000),
    };
    let short = if random.one_in(2) {
        0
    } else {
        random.uneven(0, 200_000_000)
    };
    let header = [
        random.within(1, 12),
        random.within(0, 23),
        random.uneven(-2_000_000, 2_000_000),
        factor,
        prc,
        eea1,
        short,
    ];
    let resources = (0..count)
        .map(|place| Entry {
            id: id(random, place),
            resource: resource(random),
            marks: 0,
        })
        .collect();
    Snapshot { header, resources }
}

/// An id of 1 to 16 bytes that no other place has.
fn id(random: &mut Random, place: usize) -> String {
    let number = format!("{place:X}");
    match random.bits() % 8 {
        0 => format!("{number:_>16}"),
        1 => format!("_{number}"),
        2 => format!("UNIT_{number}"),
        _ => number,
    }
}
