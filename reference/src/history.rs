//! History hours to reserve errors, and reserve errors to curves.

use crate::curves::{CurveSet, FLOOR_RANGE, VOLL_RANGE};
use crate::text::{number, Lines, Refusal};
use std::ops::RangeInclusive;

/// Four seasons of six four-hour blocks.
pub const GROUPS: usize = 24;

/// An hour's text has at most this many bytes.
pub(crate) const HOUR_LIMIT: usize = 65_536;
const MOST_HOURS: u64 = 1000;
const LARGEST_ERROR: i64 = 20_000_000;

const POWER_RANGE: RangeInclusive<i64> = 0..=100_000_000;
const TIE_RANGE: RangeInclusive<i64> = -20_000_000..=20_000_000;

/// What the record keeps of one group's errors.
#[derive(Clone, Copy, Debug, Default, PartialEq, Eq)]
pub struct Group {
    pub count: u64,
    pub sum: i64,
    pub squares: i64,
}

impl Group {
    /// Whether the values pass the checks of a record that is handed in.
    fn is_possible(&self) -> bool {
        if self.count > MOST_HOURS {
            return false;
        }
        // With the count this small no product below leaves its type.
        let count = self.count as i64;
        let largest_sum = count * LARGEST_ERROR;
        let largest_squares = count * LARGEST_ERROR * LARGEST_ERROR;
        if !(-largest_sum..=largest_sum).contains(&self.sum)
            || !(0..=largest_squares).contains(&self.squares)
        {
            return false;
        }
        if count == 0 {
            return true;
        }
        // The spread is least about mu or about mu + 1; if neither is below 0,
        // it is below 0 about no whole number.
        let mu = self.mu();
        self.spread_about(mu) >= 0 && self.spread_about(mu + 1) >= 0
    }

    /// The mean error, rounded down. The count must be 1..1000.
    fn mu(&self) -> i64 {
        self.sum.div_euclid(self.count as i64)
    }

    /// The sum of (e - centre)^2 over the errors e.
    fn spread_about(&self, centre: i64) -> i128 {
        let centre = i128::from(centre);
        i128::from(self.squares) - 2 * centre * i128::from(self.sum)
            + i128::from(self.count) * centre * centre
    }

    /// The root of the mean squared deviation from mu, each rounded down.
    fn sigma(&self) -> i64 {
        let variance = self.spread_about(self.mu()) / i128::from(self.count);
        variance.isqrt() as i64
    }

    /// The group with one more error in it.
    fn with_error(&self, error: i64) -> Group {
        Group {
            count: self.count + 1,
            sum: self.sum + error,
            squares: self.squares + error * error,
        }
    }

    /// The pair (mu, sigma); `index` is the group's place in the record.
    fn settle(&self, index: usize) -> Result<(i64, i64), Refusal> {
        let refuse = |number| Refusal {
            number,
            line: index as u64,
        };
        if self.count < 2 {
            return Err(refuse(number::TOO_FEW_HOURS));
        }
        match self.sigma() {
            0 => Err(refuse(number::SIGMA_ZERO)),
            sigma => Ok((self.mu(), sigma)),
        }
    }
}

/// The errors booked so far, by group.
#[derive(Clone, Copy, Debug, PartialEq, Eq)]
pub struct Record {
    pub groups: [Group; GROUPS],
}

impl Record {
    /// The record in which nothing is booked.
    pub fn fresh() -> Record {
        Record {
            groups: [Group::default(); GROUPS],
        }
    }

    fn check(&self) -> Result<(), Refusal> {
        if self.groups.iter().all(Group::is_possible) {
            Ok(())
        } else {
            Err(Refusal::whole(number::IMPOSSIBLE_VALUES))
        }
    }
}

/// The group of a month 1..12 and an hour 0..23: 6 × season + block.
///
/// The season is computed here by the formula floor((month mod 12) / 3) of
/// W-203 and not looked up in the methodology's list of months. The two are
/// different forms of one rule, which tests/seasons.rs compares. Season 0 is
/// winter (12, 1, 2).
///
/// Block 0 is posted as hour endings 23, 24, 1 and 2, and hour h is hour ending
/// h + 1, so the blocks start two hours before midnight. Those two hours keep
/// the season of their own month.
pub fn group_of(month: i64, hour: i64) -> usize {
    let season = month % 12 / 3;
    let block = ((hour + 2) % 24) / 4;
    (6 * season + block) as usize
}

/// The record with one more hour booked.
pub fn book(record: &Record, text: &[u8]) -> Result<Record, Refusal> {
    record.check()?;
    let (group, error) = read_hour(text)?;
    if record.groups[group].count == MOST_HOURS {
        return Err(Refusal::whole(number::GROUP_FULL));
    }
    if !(-LARGEST_ERROR..=LARGEST_ERROR).contains(&error) {
        return Err(Refusal::whole(number::ERROR_TOO_LARGE));
    }
    let mut booked = *record;
    booked.groups[group] = record.groups[group].with_error(error);
    Ok(booked)
}

/// The group and the reserve error of one hour's text.
fn read_hour(text: &[u8]) -> Result<(usize, i64), Refusal> {
    let mut lines = Lines::within(text, HOUR_LIMIT)?;
    let month = lines.number("month", 1..=12)?;
    let hour = lines.number("hour", 0..=23)?;
    let hour_ahead = read_hour_ahead(&mut lines)?;
    let shed = lines.number("shed", POWER_RANGE)?;
    let runs = lines.number("runs", 1..=60)?;
    let mut sced = 0;
    for _ in 0..runs {
        sced += read_run(&mut lines)?;
    }
    lines.end()?;
    let error = hour_ahead - sced.div_euclid(runs) + shed;
    Ok((group_of(month, hour), error))
}

/// HA, the reserve expected an hour ahead.
fn read_hour_ahead(lines: &mut Lines) -> Result<i64, Refusal> {
    let ongen = lines.number("ongen", POWER_RANGE)?;
    let load = lines.number("load", POWER_RANGE)?;
    let tie = lines.number("tie", TIE_RANGE)?;
    let mut reserve = ongen - load - tie;
    for key in ["ns", "reg", "rrs", "nclr", "offns", "cold30"] {
        reserve += lines.number(key, POWER_RANGE)?;
    }
    Ok(reserve)
}

/// SCED, the reserve of one SCED run.
fn read_run(lines: &mut Lines) -> Result<i64, Refusal> {
    let hsl = lines.number("hsl", POWER_RANGE)?;
    let base = lines.number("base", POWER_RANGE)?;
    let mut reserve = hsl - base;
    for key in ["rrs", "nclr", "reg", "ns", "offns", "cold30"] {
        reserve += lines.number(key, POWER_RANGE)?;
    }
    Ok(reserve - lines.number("short", POWER_RANGE)?)
}

/// The curves of a record, for a VOLL and a floor X.
pub fn settle(record: &Record, voll: i64, x: i64) -> Result<CurveSet, Refusal> {
    record.check()?;
    if !VOLL_RANGE.contains(&voll) || !FLOOR_RANGE.contains(&x) {
        return Err(Refusal::whole(number::OUT_OF_RANGE));
    }
    let mut pairs = [(0, 0); GROUPS];
    for (index, group) in record.groups.iter().enumerate() {
        pairs[index] = group.settle(index)?;
    }
    Ok(CurveSet {
        voll,
        floor: x,
        pairs,
    })
}
