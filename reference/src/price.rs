//! A snapshot's reserves and the two price adders.

use crate::curves::CurveSet;
use crate::history::group_of;
use crate::normal::{n_of, BILLION};
use crate::snapshot::{read_snapshot, Snapshot, Unit};
use crate::text::Refusal;

/// A snapshot's reserves before the discount factor, in kW.
#[derive(Clone, Copy, Debug, Default, PartialEq, Eq)]
pub struct Sums {
    /// G: headroom of the units counted on line.
    pub g: i64,
    /// C: controllable load.
    pub c: i64,
    /// D: off-line capacity and Non-Spin.
    pub d: i64,
    /// net - lpc over the validated loads, not yet capped or raised to 0.
    pub net_less_lpc: i64,
    /// rrs over all loads that are not controllable, validated or not.
    pub rrs: i64,
}

impl Sums {
    /// Twice L: the cap of 1.5 × rrs can end in half a kW, which is kept
    /// until the one rounding of the reserve.
    pub fn twice_l(&self) -> i64 {
        (2 * self.net_less_lpc.max(0)).min(3 * self.rrs)
    }
}

/// On-line reserve, and on-line with off-line reserve, in kW.
#[derive(Clone, Copy, Debug, PartialEq, Eq)]
pub struct Reserves {
    pub rs: i64,
    pub rsns: i64,
}

/// What a snapshot is worth: reserves in kW, shares in billionths, prices in
/// cents per MWh.
#[derive(Clone, Copy, Debug, PartialEq, Eq)]
pub struct Prices {
    pub rs: i64,
    pub rsns: i64,
    pub pis: i64,
    pub pins: i64,
    pub online: i64,
    pub offline: i64,
}

/// Prices a snapshot's text on the curves.
pub fn price_snapshot(curves: &CurveSet, text: &[u8]) -> Result<Prices, Refusal> {
    curves.check()?;
    let snapshot = read_snapshot(text)?;
    Ok(price_values(curves, &snapshot))
}

/// Prices a snapshot on the curves; all values must be in their ranges. Marks
/// on its numbers make no difference.
pub fn price_values(curves: &CurveSet, snapshot: &Snapshot) -> Prices {
    let Reserves { rs, rsns } = reserves(snapshot, &sums(snapshot));
    let (mu, sigma) = curves.pairs[group_of(snapshot.month, snapshot.hour)];
    let pis = pi_s(rs, curves.floor, mu, sigma);
    let pins = pi_ns(rsns, curves.floor, mu, sigma);
    let value = (curves.voll - snapshot.lambda).max(0);
    Prices {
        rs,
        rsns,
        pis,
        pins,
        // One rounding for both shares: two rounded prices may add up to more.
        online: half_of_share(value, pis + pins),
        offline: half_of_share(value, pins),
    }
}

/// Adds up the resources.
pub fn sums(snapshot: &Snapshot) -> Sums {
    let mut sums = Sums::default();
    for resource in &snapshot.resources {
        match &resource.unit {
            Unit::Generator(unit) => {
                if unit.counted_on_line() {
                    sums.g += unit.hsl - unit.base - unit.nonspin;
                    sums.d += unit.nonspin;
                }
                if unit.counted_off_line() {
                    sums.d += unit.hsl;
                }
            }
            Unit::Clr(load) => {
                sums.c += load.base - load.lpc - load.nonspin + load.regup;
                sums.d += load.nonspin;
            }
            Unit::Nclr(load) => {
                if load.rrsok {
                    sums.net_less_lpc += load.net - load.lpc;
                }
                sums.rrs += load.rrs;
            }
        }
    }
    sums
}

/// RS and RSNS from a snapshot's header and its sums.
pub fn reserves(snapshot: &Snapshot, sums: &Sums) -> Reserves {
    // The factor's 10000 and the doubling make 20000.
    let discounted =
        |twice_kw: i64| (snapshot.factor * twice_kw).div_euclid(20_000) - snapshot.short;
    let twice_on_line = 2 * (sums.g + sums.c) + sums.twice_l();
    let rs = discounted(twice_on_line);
    let rsns = if snapshot.prc > snapshot.eea1 {
        discounted(twice_on_line + 2 * sums.d)
    } else {
        rs
    };
    Reserves { rs, rsns }
}

/// piS in billionths, for the on-line reserve; sigma must be above 0.
pub fn pi_s(rs: i64, floor: i64, mu: i64, sigma: i64) -> i64 {
    if rs <= floor {
        return BILLION;
    }
    let (rs, floor, mu) = (i128::from(rs), i128::from(floor), i128::from(mu));
    let num = 50_000 * (2 * (rs - floor) - mu);
    BILLION - n_of(num, 707 * i128::from(sigma)) as i64
}

/// piNS in billionths, for on-line and off-line reserve; sigma must be above 0.
pub fn pi_ns(rsns: i64, floor: i64, mu: i64, sigma: i64) -> i64 {
    if rsns <= floor {
        return BILLION;
    }
    let (rsns, floor, mu) = (i128::from(rsns), i128::from(floor), i128::from(mu));
    let num = 100 * (rsns - floor - mu);
    BILLION - n_of(num, i128::from(sigma)) as i64
}

/// value × share / (2 × 10^9), rounded half up.
fn half_of_share(value: i64, share: i64) -> i64 {
    (value * share + BILLION).div_euclid(2 * BILLION)
}
