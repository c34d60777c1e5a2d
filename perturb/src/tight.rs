//! A tight variant of a snapshot, in which few readings are hidden.
//!
//! On an ordinary day a cap that binds, a PRC far above EEA Level 1 and a
//! reserve far from X hide most readings. Here the cap on load resources is
//! made slack, PRC stands one kW above EEA Level 1, off-line reserve spans at
//! most one sigma, and RS stands one kW above X, where each kW less counts.

use crate::reading::{readings, text_of, Reading};
use crate::{snapshot_of, RefusedText};
use reference::{
    group_of, pi_s, read_snapshot, reserves, sums, CurveSet, Reserves, Snapshot, Sums, Unit,
    BILLION,
};

const MOST_POWER: i64 = 2_000_000;
const MOST_SHORT: i64 = 200_000_000;

/// One reading given another value.
#[derive(Clone, Debug, PartialEq, Eq)]
pub struct Edit {
    pub line: usize,
    pub id: String,
    pub key: &'static str,
    pub from: i64,
    pub to: i64,
    pub why: &'static str,
}

/// The tight variant, and how it came about.
pub struct Tightened {
    pub text: Vec<u8>,
    pub edits: Vec<Edit>,
    /// What could not be made tight.
    pub notes: Vec<String>,
}

/// Makes the tight variant of a snapshot.
pub fn tighten(curves: &CurveSet, text: &[u8]) -> Result<Tightened, RefusedText> {
    let snapshot = snapshot_of(text)?;
    let mut work = Work {
        curves,
        readings: readings(text, &snapshot),
        edits: Vec::new(),
        notes: Vec::new(),
    };
    work.slacken_cap();
    work.shorten_off_line();
    work.lower_prc();
    work.bring_to_floor();
    Ok(Tightened {
        text: work.text(),
        edits: work.edits,
        notes: work.notes,
    })
}

struct Work<'a> {
    curves: &'a CurveSet,
    readings: Vec<Reading>,
    edits: Vec<Edit>,
    notes: Vec<String>,
}

/// The header and the sums of the snapshot as edited so far.
struct State {
    group: usize,
    factor: i64,
    prc: i64,
    eea1: i64,
    short: i64,
    sums: Sums,
    reserves: Reserves,
}

impl Work<'_> {
    fn text(&self) -> Vec<u8> {
        let lines: Vec<String> = self.readings.iter().map(Reading::text).collect();
        text_of(lines.iter().map(String::as_str))
    }

    /// What `look` makes of the snapshot as edited so far.
    fn with_snapshot<T>(&self, look: impl Fn(&Snapshot) -> T) -> T {
        let text = self.text();
        let snapshot = read_snapshot(&text).expect("every edit stays in its range");
        look(&snapshot)
    }

    fn state(&self) -> State {
        self.with_snapshot(|snapshot| {
            let sums = sums(snapshot);
            State {
                group: group_of(snapshot.month, snapshot.hour),
                factor: snapshot.factor,
                prc: snapshot.prc,
                eea1: snapshot.eea1,
                short: snapshot.short,
                sums,
                reserves: reserves(snapshot, &sums),
            }
        })
    }

    /// The units that `wanted` picks, as place and amount.
    fn pick(&self, wanted: impl Fn(&Unit) -> Option<i64>) -> Vec<(usize, i64)> {
        self.with_snapshot(|snapshot| {
            let units = snapshot.resources.iter().enumerate();
            units
                .filter_map(|(place, one)| Some((place, wanted(&one.unit)?)))
                .collect()
        })
    }

    fn set(&mut self, resource: Option<usize>, key: &'static str, to: i64, why: &'static str) {
        let reading = self
            .readings
            .iter_mut()
            .find(|reading| reading.resource == resource && reading.key == key)
            .expect("the key is one of this resource's");
        let from = reading.number().expect("the reading is a number");
        if from == to {
            return;
        }
        reading.value = reading.value_with(to);
        let edit = Edit {
            line: reading.line,
            id: reading.id.clone(),
            key,
            from,
            to,
            why,
        };
        // A second edit of a reading goes on from the first.
        match self.edits.iter_mut().find(|old| old.line == edit.line) {
            Some(old) => old.to = to,
            None => self.edits.push(edit),
        }
    }

    /// Lowers the validated loads' net, each in its share, until net less lpc
    /// is half the cap: slack, with room on both sides.
    fn slacken_cap(&mut self) {
        let Sums {
            net_less_lpc, rrs, ..
        } = self.state().sums;
        if net_less_lpc <= 0 || 2 * net_less_lpc < 3 * rrs {
            return;
        }
        if rrs == 0 {
            let note = "the cap on load resources stays: no load has rrs";
            self.notes.push(note.to_string());
            return;
        }
        let loads = self.pick(|unit| match unit {
            Unit::Nclr(load) if load.rrsok && load.net > load.lpc => Some(load.net - load.lpc),
            _ => None,
        });
        let above_lpc: i64 = loads.iter().map(|&(_, amount)| amount).sum();
        let target = (3 * rrs / 4).max(1);
        // Loads below their lpc are left alone and keep their part.
        let kept = target + (above_lpc - net_less_lpc);
        for ((place, old), new) in loads.iter().zip(shares(&loads, kept)) {
            let net = self.number(Some(*place), "net");
            let why = "cap on load resources made slack";
            self.set(Some(*place), "net", net - (old - new), why);
        }
    }

    /// Lowers the off-line units' hsl until RSNS is at most one sigma over RS.
    fn shorten_off_line(&mut self) {
        let state = self.state();
        if state.prc <= state.eea1 || state.factor == 0 {
            return;
        }
        let (_, sigma) = self.curves.pairs[state.group];
        let most = (sigma * 10_000 / state.factor).max(1);
        if state.sums.d <= most {
            return;
        }
        let units = self.pick(|unit| match unit {
            Unit::Generator(unit) if unit.counted_off_line() => Some(unit.hsl),
            _ => None,
        });
        let off_line: i64 = units.iter().map(|&(_, hsl)| hsl).sum();
        let nonspin = state.sums.d - off_line;
        if nonspin > most {
            let note = "off-line reserve stays over one sigma: Non-Spin alone is more";
            self.notes.push(note.to_string());
        }
        let kept = (most - nonspin).max(0);
        for ((place, _), hsl) in units.iter().zip(shares(&units, kept)) {
            let why = "off-line reserve brought within one sigma";
            self.set(Some(*place), "hsl", hsl, why);
        }
    }

    /// Brings PRC to one kW above EEA Level 1.
    fn lower_prc(&mut self) {
        let state = self.state();
        if state.prc > state.eea1 + 1 {
            let why = "PRC brought to one kW above EEA1";
            self.set(None, "prc", state.eea1 + 1, why);
        }
    }

    /// Brings RS to one kW above X, by hsl where `short` does not reach.
    fn bring_to_floor(&mut self) {
        let state = self.state();
        let (mu, sigma) = self.curves.pairs[state.group];
        let x = self.curves.floor;
        let mut target = x + 1;
        let mut why = "RS brought to one kW above X";
        if pi_s(target, x, mu, sigma) == BILLION {
            // Above X the share is still 1; the curve's middle is the place
            // where it falls.
            target = x + mu / 2;
            why = "RS brought to the middle of its curve, as the share is flat at X";
        }
        let excess = state.reserves.rs - target;
        if !(0..=MOST_SHORT).contains(&(state.short + excess)) && state.factor > 0 {
            self.move_headroom(-excess - state.short, state.factor, why);
        }
        let state = self.state();
        let short = state.short + (state.reserves.rs - target);
        self.set(None, "short", short.clamp(0, MOST_SHORT), why);
        let rs = self.state().reserves.rs;
        if rs != target {
            self.notes
                .push(format!("RS could be brought to {rs} only, not to {target}"));
        }
    }

    /// Changes the on-line units' hsl until RS is higher by this much, or
    /// somewhat more; what is too much is left to `short`.
    fn move_headroom(&mut self, raise: i64, factor: i64, why: &'static str) {
        let units = self.pick(|unit| match unit {
            Unit::Generator(unit) if unit.counted_on_line() => Some(unit.hsl),
            _ => None,
        });
        let mut left = (raise * 10_000).div_euclid(factor) + 1;
        for (place, hsl) in units {
            let new = (hsl + left).clamp(0, MOST_POWER);
            left -= new - hsl;
            self.set(Some(place), "hsl", new, why);
        }
    }

    fn number(&self, resource: Option<usize>, key: &str) -> i64 {
        self.readings
            .iter()
            .find(|reading| reading.resource == resource && reading.key == key)
            .and_then(Reading::number)
            .expect("the key is one of this resource's numbers")
    }
}

/// Splits `total` over the amounts in proportion, none above what it was.
/// What rounding leaves over goes to the first ones with room.
fn shares(amounts: &[(usize, i64)], total: i64) -> Vec<i64> {
    let sum: i128 = amounts.iter().map(|&(_, amount)| i128::from(amount)).sum();
    let part = |amount: i64| (i128::from(amount) * i128::from(total) / sum.max(1)) as i64;
    let mut parts: Vec<i64> = amounts.iter().map(|&(_, amount)| part(amount)).collect();
    let mut left = total - parts.iter().sum::<i64>();
    for (part, &(_, amount)) in parts.iter_mut().zip(amounts) {
        let more = left.min(amount - *part);
        *part += more;
        left -= more;
    }
    parts
}
