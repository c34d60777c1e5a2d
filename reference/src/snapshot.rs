//! A snapshot of the grid, as read from its text.

use crate::marks::refuse_suspect;
use crate::text::{number, Lines, Refusal};
use std::collections::HashSet;
use std::ops::RangeInclusive;

const SNAPSHOT_LIMIT: usize = 1_048_576;
pub(crate) const MOST_RESOURCES: i64 = 4096;

pub(crate) const MONTH_RANGE: RangeInclusive<i64> = 1..=12;
pub(crate) const HOUR_RANGE: RangeInclusive<i64> = 0..=23;
pub(crate) const LAMBDA_RANGE: RangeInclusive<i64> = -2_000_000..=2_000_000;
pub(crate) const FACTOR_RANGE: RangeInclusive<i64> = 0..=10_000;
pub(crate) const SYSTEM_POWER_RANGE: RangeInclusive<i64> = 0..=200_000_000;
pub(crate) const POWER_RANGE: RangeInclusive<i64> = 0..=2_000_000;
pub(crate) const GENERATOR_NET_RANGE: RangeInclusive<i64> = -2_000_000..=2_000_000;

/// The header's values and the resources in their order.
#[derive(Clone, Debug, PartialEq, Eq)]
pub struct Snapshot<'a> {
    pub month: i64,
    pub hour: i64,
    /// System Lambda, in cents per MWh.
    pub lambda: i64,
    /// The discount factor, in ten-thousandths.
    pub factor: i64,
    /// The Physical Responsive Capability.
    pub prc: i64,
    /// The PRC at which EEA Level 1 starts.
    pub eea1: i64,
    /// The under-generation of SCED.
    pub short: i64,
    pub resources: Vec<Resource<'a>>,
}

#[derive(Clone, Copy, Debug, PartialEq, Eq)]
pub struct Resource<'a> {
    pub id: &'a str,
    pub unit: Unit,
    /// Which of the unit's numbers are marked suspect: bit i for the i-th of
    /// them in the order of their lines. A flag has its bit, which is never set.
    pub marks: u8,
}

#[derive(Clone, Copy, Debug, PartialEq, Eq)]
pub enum Unit {
    Generator(Generator),
    Clr(Clr),
    Nclr(Nclr),
}

#[derive(Clone, Copy, Debug, PartialEq, Eq)]
pub enum GeneratorKind {
    Gen,
    Wind,
    /// Intermittent, but no wind.
    Irr,
    Nuke,
}

#[derive(Clone, Copy, Debug, PartialEq, Eq)]
pub enum Status {
    On,
    Off,
    OffNs,
    OnTest,
    Startup,
    Shutdown,
    Out,
}

#[derive(Clone, Copy, Debug, PartialEq, Eq)]
pub struct Generator {
    pub kind: GeneratorKind,
    pub status: Status,
    pub net: i64,
    pub lsl: i64,
    pub hsl: i64,
    /// The base point.
    pub base: i64,
    pub nonspin: i64,
    /// Whether an OFF unit counts as available from cold within 30 minutes.
    pub cold30: bool,
}

impl Generator {
    /// Whether the unit's headroom counts as on-line reserve.
    pub fn counted_on_line(&self) -> bool {
        let right_kind = matches!(self.kind, GeneratorKind::Gen | GeneratorKind::Wind);
        let right_status = match self.status {
            Status::On => true,
            Status::Startup => self.nonspin > 0,
            _ => false,
        };
        right_kind && right_status && 100 * self.net >= 95 * self.lsl
    }

    /// Whether the unit's hsl counts as off-line reserve.
    pub fn counted_off_line(&self) -> bool {
        match self.status {
            Status::OffNs => true,
            Status::Off => {
                self.cold30 && matches!(self.kind, GeneratorKind::Gen | GeneratorKind::Nuke)
            }
            _ => false,
        }
    }
}

/// A controllable load resource.
#[derive(Clone, Copy, Debug, PartialEq, Eq)]
pub struct Clr {
    pub base: i64,
    pub lpc: i64,
    pub nonspin: i64,
    pub regup: i64,
}

/// A load resource that is not controllable.
#[derive(Clone, Copy, Debug, PartialEq, Eq)]
pub struct Nclr {
    /// Whether the load is validated for RRS.
    pub rrsok: bool,
    pub net: i64,
    pub lpc: i64,
    pub rrs: i64,
}

/// Reads a snapshot's text.
pub fn read_snapshot(text: &[u8]) -> Result<Snapshot<'_>, Refusal> {
    let mut lines = Lines::within(text, SNAPSHOT_LIMIT)?;
    let mut snapshot = Snapshot {
        month: lines.number("month", MONTH_RANGE)?,
        hour: lines.number("hour", HOUR_RANGE)?,
        lambda: lines.number("lambda", LAMBDA_RANGE)?,
        factor: lines.number("factor", FACTOR_RANGE)?,
        prc: lines.number("prc", SYSTEM_POWER_RANGE)?,
        eea1: lines.number("eea1", SYSTEM_POWER_RANGE)?,
        short: lines.number("short", SYSTEM_POWER_RANGE)?,
        resources: Vec::new(),
    };
    let count = lines.number("count", 0..=MOST_RESOURCES)? as usize;
    snapshot.resources.reserve_exact(count);
    let mut ids_above = HashSet::with_capacity(count);
    for _ in 0..count {
        let id = lines.word("id", parse_id)?;
        if !ids_above.insert(id) {
            return Err(lines.refuse(number::REPEATED_ID));
        }
        let (unit, marks) = read_unit(&mut lines)?;
        snapshot.resources.push(Resource { id, unit, marks });
    }
    lines.end()?;
    // Only now: a fault of any line, and bytes after the last, come before.
    refuse_suspect(&snapshot)?;
    Ok(snapshot)
}

/// An id has 1..16 of the bytes A-Z, 0-9 and _. That it is not empty is for the
/// caller to see.
pub(crate) fn parse_id(value: &[u8]) -> Option<&str> {
    let is_id_byte = |byte: &u8| matches!(byte, b'A'..=b'Z' | b'0'..=b'9' | b'_');
    if value.len() > 16 || !value.iter().all(is_id_byte) {
        return None;
    }
    std::str::from_utf8(value).ok()
}

#[derive(Clone, Copy, PartialEq, Eq)]
pub(crate) enum Kind {
    Generator(GeneratorKind),
    Clr,
    Nclr,
}

fn parse_kind(value: &[u8]) -> Option<Kind> {
    match value {
        b"gen" => Some(Kind::Generator(GeneratorKind::Gen)),
        b"wind" => Some(Kind::Generator(GeneratorKind::Wind)),
        b"irr" => Some(Kind::Generator(GeneratorKind::Irr)),
        b"nuke" => Some(Kind::Generator(GeneratorKind::Nuke)),
        b"clr" => Some(Kind::Clr),
        b"nclr" => Some(Kind::Nclr),
        _ => None,
    }
}

fn parse_status(value: &[u8]) -> Option<Status> {
    match value {
        b"ON" => Some(Status::On),
        b"OFF" => Some(Status::Off),
        b"OFFNS" => Some(Status::OffNs),
        b"ONTEST" => Some(Status::OnTest),
        b"STARTUP" => Some(Status::Startup),
        b"SHUTDOWN" => Some(Status::Shutdown),
        b"OUT" => Some(Status::Out),
        _ => None,
    }
}

/// Reads a resource's lines from its `kind` on: the unit, and its marks.
fn read_unit(lines: &mut Lines) -> Result<(Unit, u8), Refusal> {
    let kind = lines.word("kind", parse_kind)?;
    let mut lines = UnitLines::after_kind(lines);
    let unit = match kind {
        Kind::Generator(kind) => Unit::Generator(read_generator(&mut lines, kind)?),
        Kind::Clr => Unit::Clr(read_clr(&mut lines)?),
        Kind::Nclr => Unit::Nclr(read_nclr(&mut lines)?),
    };
    Ok((unit, lines.marks))
}

/// The lines of one unit, whose numbers' marks are gathered.
struct UnitLines<'l, 'a> {
    lines: &'l mut Lines<'a>,
    marks: u8,
    /// How many numbers are read.
    numbers: u32,
}

impl<'l, 'a> UnitLines<'l, 'a> {
    fn after_kind(lines: &'l mut Lines<'a>) -> UnitLines<'l, 'a> {
        UnitLines {
            lines,
            marks: 0,
            numbers: 0,
        }
    }

    fn status(&mut self) -> Result<Status, Refusal> {
        self.lines.word("status", parse_status)
    }

    fn number(&mut self, key: &str, range: RangeInclusive<i64>) -> Result<i64, Refusal> {
        let (number, marked) = self.lines.markable_number(key, range)?;
        self.marks |= u8::from(marked) << self.numbers;
        self.numbers += 1;
        Ok(number)
    }

    /// A flag carries no mark, but it has its place among the numbers.
    fn flag(&mut self, key: &str) -> Result<bool, Refusal> {
        self.numbers += 1;
        self.lines.flag(key)
    }
}

// The fields below are read in the order in which they are written here,
// which is the order of the lines.

fn read_generator(lines: &mut UnitLines, kind: GeneratorKind) -> Result<Generator, Refusal> {
    Ok(Generator {
        kind,
        status: lines.status()?,
        net: lines.number("net", GENERATOR_NET_RANGE)?,
        lsl: lines.number("lsl", POWER_RANGE)?,
        hsl: lines.number("hsl", POWER_RANGE)?,
        base: lines.number("base", POWER_RANGE)?,
        nonspin: lines.number("nonspin", POWER_RANGE)?,
        cold30: lines.flag("cold30")?,
    })
}

fn read_clr(lines: &mut UnitLines) -> Result<Clr, Refusal> {
    Ok(Clr {
        base: lines.number("base", POWER_RANGE)?,
        lpc: lines.number("lpc", POWER_RANGE)?,
        nonspin: lines.number("nonspin", POWER_RANGE)?,
        regup: lines.number("regup", POWER_RANGE)?,
    })
}

fn read_nclr(lines: &mut UnitLines) -> Result<Nclr, Refusal> {
    Ok(Nclr {
        rrsok: lines.flag("rrsok")?,
        net: lines.number("net", POWER_RANGE)?,
        lpc: lines.number("lpc", POWER_RANGE)?,
        rrs: lines.number("rrs", POWER_RANGE)?,
    })
}
