//! Why a change moved no price, from the sums of the reference.
//!
//! A reading works on the prices in steps: resources make sums, sums make
//! reserves, reserves make shares, shares make prices. The reason is found at
//! the first step at which the change is lost.

use crate::reading::Reading;
use reference::{
    group_of, pi_ns, pi_s, reserves, sums, CurveSet, Generator, GeneratorKind, Reserves, Snapshot,
    Status, Sums, Unit, BILLION,
};
use std::fmt;

/// The numbers are those of the snapshot before the change.
#[derive(Clone, Debug, PartialEq, Eq)]
pub enum Reason {
    /// An id is only compared with the other ids.
    NameOnly,
    /// The unit is not counted, whatever the marked number is.
    MarkIsFine(String),
    NotCounted(String),
    /// The value enters no sum of a resource that is counted.
    NotUsed(&'static str),
    /// Counted or not, the resource adds nothing.
    AddsNothing,
    HiddenByCap {
        net_less_lpc: i64,
        rrs: i64,
    },
    CapSlack {
        net_less_lpc: i64,
        rrs: i64,
    },
    LoadsBelowZero {
        net_less_lpc: i64,
    },
    SameGroup(usize),
    SamePair {
        mu: i64,
        sigma: i64,
    },
    PrcStaysAbove,
    PrcStaysBelow,
    NoOffLineReserve,
    FactorZero,
    /// The sums that the factor multiplies are 0.
    NothingToDiscount,
    ReserveRounds,
    BelowX {
        which: &'static str,
        reserve: i64,
        floor: i64,
    },
    /// Beyond 5 sigma the share is 0, or 1 on the other side.
    FlatEnd {
        which: &'static str,
        reserve: i64,
        share: i64,
    },
    ShareRounds(&'static str),
    LambdaAtVoll {
        lambda: i64,
        voll: i64,
    },
    PriceRounds,
}

impl Reason {
    /// A short name, for tables.
    pub fn name(&self) -> &'static str {
        match self {
            Reason::NameOnly => "a name only",
            Reason::MarkIsFine(_) => "a mark is fine on this unit",
            Reason::NotCounted(_) => "not counted",
            Reason::NotUsed(_) => "not used in the prices",
            Reason::AddsNothing => "adds nothing",
            Reason::HiddenByCap { .. } => "hidden by the cap on load resources",
            Reason::CapSlack { .. } => "cap on load resources is slack",
            Reason::LoadsBelowZero { .. } => "load resources not above zero",
            Reason::SameGroup(_) => "same group",
            Reason::SamePair { .. } => "same mu and sigma",
            Reason::PrcStaysAbove => "PRC stays above EEA1",
            Reason::PrcStaysBelow => "PRC at or below EEA1",
            Reason::NoOffLineReserve => "no off-line reserve",
            Reason::FactorZero => "factor is 0",
            Reason::NothingToDiscount => "no reserve for the factor",
            Reason::ReserveRounds => "reserve rounds the same",
            Reason::BelowX { .. } => "reserve below X",
            Reason::FlatEnd { .. } => "flat end of the curve",
            Reason::ShareRounds(_) => "share rounds the same",
            Reason::LambdaAtVoll { .. } => "lambda at or above VOLL",
            Reason::PriceRounds => "price rounds the same",
        }
    }
}

impl fmt::Display for Reason {
    fn fmt(&self, f: &mut fmt::Formatter) -> fmt::Result {
        write!(f, "{}", self.name())?;
        match self {
            Reason::MarkIsFine(why) | Reason::NotCounted(why) => write!(f, " ({why})"),
            Reason::NotUsed(why) => write!(f, " ({why})"),
            Reason::HiddenByCap { net_less_lpc, rrs } => {
                let cap = Half(3 * rrs);
                write!(f, " (net less lpc {net_less_lpc}, cap {cap})")
            }
            Reason::CapSlack { net_less_lpc, rrs } => {
                let cap = Half(3 * rrs);
                write!(f, " (net less lpc {net_less_lpc}, cap {cap})")
            }
            Reason::LoadsBelowZero { net_less_lpc } => {
                write!(f, " (net less lpc {net_less_lpc})")
            }
            Reason::SameGroup(group) => write!(f, " (group {group})"),
            Reason::SamePair { mu, sigma } => {
                write!(f, " (mu {mu}, sigma {sigma} in both groups)")
            }
            Reason::BelowX {
                which,
                reserve,
                floor,
            } => write!(f, " ({which} {reserve}, X {floor}: share 1)"),
            Reason::FlatEnd {
                which,
                reserve,
                share,
            } => write!(f, " ({which} {reserve}: share {share})"),
            Reason::ShareRounds(which) => write!(f, " ({which})"),
            Reason::LambdaAtVoll { lambda, voll } => {
                write!(f, " (lambda {lambda}, VOLL {voll})")
            }
            _ => Ok(()),
        }
    }
}

/// A number of halves, written as a decimal.
struct Half(i64);

impl fmt::Display for Half {
    fn fmt(&self, f: &mut fmt::Formatter) -> fmt::Result {
        let tail = if self.0 % 2 == 0 { "" } else { ".5" };
        write!(f, "{}{tail}", self.0 / 2)
    }
}

/// Why neither price moved from `before` to `after`, which differ in one
/// reading.
pub fn reasons(
    curves: &CurveSet,
    before: &Snapshot,
    after: &Snapshot,
    reading: &Reading,
) -> Vec<Reason> {
    let (old, new) = (sums(before), sums(after));
    if let Some(place) = reading.resource {
        if old == new {
            let (old, new) = (&before.resources[place].unit, &after.resources[place].unit);
            return vec![not_in_sums(reading.key, old, new)];
        }
        if let Some(reason) = lost_in_load_sum(&old, &new) {
            return vec![reason];
        }
    }
    if before.lambda != after.lambda {
        return lambda_lost(curves, before, after);
    }
    let (old_group, new_group) = (
        group_of(before.month, before.hour),
        group_of(after.month, after.hour),
    );
    let (old_pair, new_pair) = (curves.pairs[old_group], curves.pairs[new_group]);
    if matches!(reading.key, "month" | "hour") && old_pair == new_pair {
        return vec![if old_group == new_group {
            Reason::SameGroup(old_group)
        } else {
            let (mu, sigma) = old_pair;
            Reason::SamePair { mu, sigma }
        }];
    }
    let (old_reserves, new_reserves) = (reserves(before, &old), reserves(after, &new));
    if old_reserves == new_reserves && old_pair == new_pair {
        return vec![lost_in_reserves(before, after, &old, &new)];
    }
    let lost = lost_in_shares(curves, (old_reserves, old_pair), (new_reserves, new_pair));
    if !lost.is_empty() {
        return lost;
    }
    vec![lost_in_prices(curves, before)]
}

/// The sums are the same: the reading enters none of them.
fn not_in_sums(key: &str, old: &Unit, new: &Unit) -> Reason {
    if key == "id" {
        return Reason::NameOnly;
    }
    match (old, new) {
        (Unit::Generator(old), Unit::Generator(new)) => {
            let counted = |unit: &Generator| (unit.counted_on_line(), unit.counted_off_line());
            if counted(old) != counted(new) {
                return Reason::AddsNothing;
            }
            if old.counted_on_line() {
                return Reason::NotUsed(match key {
                    "net" | "lsl" => "net is at or above 95 percent of lsl either way",
                    "cold30" => "cold30 counts for an OFF unit only",
                    "kind" => "gen and wind are counted on line alike",
                    _ => "counted on line either way",
                });
            }
            if old.counted_off_line() {
                return Reason::NotUsed("of a unit counted off line only hsl enters");
            }
            Reason::NotCounted(why_not_counted(old))
        }
        (Unit::Nclr(old), Unit::Nclr(new)) => {
            if old.rrsok || new.rrsok {
                Reason::AddsNothing
            } else {
                Reason::NotCounted("rrsok is 0: only rrs enters".to_string())
            }
        }
        _ => Reason::AddsNothing,
    }
}

/// Why a mark on this unit, which was accepted with it, is fine.
pub fn mark_is_fine(unit: &Unit) -> Option<Reason> {
    match unit {
        Unit::Generator(unit) => Some(Reason::MarkIsFine(why_not_counted(unit))),
        // Every load enters a sum.
        Unit::Clr(_) | Unit::Nclr(_) => None,
    }
}

/// Why a generator is counted neither on line nor off line.
fn why_not_counted(unit: &Generator) -> String {
    let kind = match unit.kind {
        GeneratorKind::Gen => "gen",
        GeneratorKind::Wind => "wind",
        GeneratorKind::Irr => "irr",
        GeneratorKind::Nuke => "nuke",
    };
    let on_line_kind = matches!(unit.kind, GeneratorKind::Gen | GeneratorKind::Wind);
    match unit.status {
        Status::On | Status::Startup if !on_line_kind => {
            format!("a unit of kind {kind} is never counted on line")
        }
        Status::Startup if unit.nonspin == 0 => "STARTUP with nonspin 0".to_string(),
        Status::On | Status::Startup => "net is below 95 percent of lsl".to_string(),
        Status::Off if !unit.cold30 => "OFF with cold30 0".to_string(),
        Status::Off => format!("a unit of kind {kind} that is OFF is never counted"),
        Status::OnTest => "status ONTEST".to_string(),
        Status::Shutdown => "status SHUTDOWN".to_string(),
        Status::Out => "status OUT".to_string(),
        // Never asked: an OFFNS unit of any kind is counted.
        Status::OffNs => "status OFFNS".to_string(),
    }
}

/// Only the loads' sums changed, and L did not.
fn lost_in_load_sum(old: &Sums, new: &Sums) -> Option<Reason> {
    let others = |sums: &Sums| (sums.g, sums.c, sums.d, sums.twice_l());
    if others(old) != others(new) {
        return None;
    }
    let &Sums {
        net_less_lpc, rrs, ..
    } = old;
    Some(if net_less_lpc.max(new.net_less_lpc) <= 0 {
        Reason::LoadsBelowZero { net_less_lpc }
    } else if old.rrs == new.rrs {
        Reason::HiddenByCap { net_less_lpc, rrs }
    } else {
        Reason::CapSlack { net_less_lpc, rrs }
    })
}

fn lambda_lost(curves: &CurveSet, before: &Snapshot, after: &Snapshot) -> Vec<Reason> {
    if before.lambda.min(after.lambda) >= curves.voll {
        return vec![Reason::LambdaAtVoll {
            lambda: before.lambda,
            voll: curves.voll,
        }];
    }
    let prices = reference::price_values(curves, before);
    if prices.pis == 0 && prices.pins == 0 {
        let flat = |which, reserve| Reason::FlatEnd {
            which,
            reserve,
            share: 0,
        };
        return vec![flat("RS", prices.rs), flat("RSNS", prices.rsns)];
    }
    vec![Reason::PriceRounds]
}

/// The header or the sums changed, and the reserves did not.
fn lost_in_reserves(before: &Snapshot, after: &Snapshot, old: &Sums, new: &Sums) -> Reason {
    let off_line_counts = |snapshot: &Snapshot| snapshot.prc > snapshot.eea1;
    if (before.prc, before.eea1) != (after.prc, after.eea1) {
        return match (off_line_counts(before), off_line_counts(after)) {
            (true, true) => Reason::PrcStaysAbove,
            (false, false) => Reason::PrcStaysBelow,
            _ if old.d == 0 => Reason::NoOffLineReserve,
            _ if before.factor == 0 => Reason::FactorZero,
            _ => Reason::ReserveRounds,
        };
    }
    if before.factor == after.factor && before.factor == 0 {
        return Reason::FactorZero;
    }
    let on_line = |sums: &Sums| 2 * (sums.g + sums.c) + sums.twice_l();
    if before.factor != after.factor && on_line(old) == 0 && old.d == 0 {
        return Reason::NothingToDiscount;
    }
    if on_line(old) == on_line(new) && old.d != new.d && !off_line_counts(before) {
        return Reason::PrcStaysBelow;
    }
    Reason::ReserveRounds
}

/// Where on its curve a reserve lies.
#[derive(Clone, Copy, PartialEq, Eq)]
enum Part {
    BelowX,
    FlatAtOne,
    FlatAtZero,
    Slope,
}

/// A share is flat where one kW on either side changes nothing for good:
/// at 0, which no share above X reaches before 5 sigma, and at 1 above X.
fn part(reserve: i64, floor: i64, share: i64) -> Part {
    match share {
        _ if reserve <= floor => Part::BelowX,
        BILLION => Part::FlatAtOne,
        0 => Part::FlatAtZero,
        _ => Part::Slope,
    }
}

/// The reserves or the pair changed; empty where a share changed with them.
fn lost_in_shares(
    curves: &CurveSet,
    (old, old_pair): (Reserves, (i64, i64)),
    (new, new_pair): (Reserves, (i64, i64)),
) -> Vec<Reason> {
    let x = curves.floor;
    let mut lost = Vec::new();
    type Share = fn(i64, i64, i64, i64) -> i64;
    let kinds: [(&str, i64, i64, Share); 2] = [
        ("RS", old.rs, new.rs, pi_s),
        ("RSNS", old.rsns, new.rsns, pi_ns),
    ];
    for (which, old_reserve, new_reserve, share_of) in kinds {
        let old_share = share_of(old_reserve, x, old_pair.0, old_pair.1);
        let new_share = share_of(new_reserve, x, new_pair.0, new_pair.1);
        if old_share != new_share {
            return Vec::new();
        }
        if old_reserve == new_reserve && old_pair == new_pair {
            continue;
        }
        lost.push(match part(old_reserve, x, old_share) {
            Part::BelowX => Reason::BelowX {
                which,
                reserve: old_reserve,
                floor: x,
            },
            Part::FlatAtOne => Reason::FlatEnd {
                which,
                reserve: old_reserve,
                share: 1,
            },
            Part::FlatAtZero => Reason::FlatEnd {
                which,
                reserve: old_reserve,
                share: 0,
            },
            Part::Slope => Reason::ShareRounds(which),
        });
    }
    lost
}

/// A share changed, and the prices did not.
fn lost_in_prices(curves: &CurveSet, before: &Snapshot) -> Reason {
    if before.lambda >= curves.voll {
        Reason::LambdaAtVoll {
            lambda: before.lambda,
            voll: curves.voll,
        }
    } else {
        Reason::PriceRounds
    }
}
