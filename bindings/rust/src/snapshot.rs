//! A snapshot held as values.

use crate::raw;
use crate::refusal::Refusal;
use crate::rows::Rows;

/// One SCED run, whose values can be changed before it is written again.
///
/// Any values can be held. What no text can have is refused where the text is asked for, at the line where it would
/// stand.
///
/// ```
/// use ordc::{Snapshot, Status, Unit};
///
/// let text = b"month=7\nhour=14\nlambda=2500\nfactor=10000\nprc=3000000\neea1=2300000\nshort=0\ncount=1\n\
///     id=C\nkind=gen\nstatus=OFFNS\nnet=0\nlsl=0\nhsl=293000\nbase=0\nnonspin=0\ncold30=0\n";
/// let mut snapshot = Snapshot::from_text(text)?;
/// assert_eq!(snapshot.to_text()?, text);
/// if let Unit::Generator(unit) = &mut snapshot.resources[0].unit {
///     unit.status = Status::Out;
/// }
/// assert_eq!(snapshot.text_length()?, text.len() - 2);
/// # Ok::<(), ordc::Refusal>(())
/// ```
///
/// A reading that telemetry flagged is marked suspect, in the text by one `?` after the number. On a unit that enters a
/// sum, or may enter one, a marked reading turns the snapshot back: reading, pricing and writing give 15 at its line. On
/// any other unit the mark is kept, and the price is that of the snapshot without it. `docs/FORMAT.md` lists the units.
///
/// ```
/// use ordc::{Refusal, Snapshot, Status, Unit};
///
/// let text = b"month=7\nhour=14\nlambda=2500\nfactor=10000\nprc=3000000\neea1=2300000\nshort=0\ncount=1\n\
///     id=C\nkind=gen\nstatus=OUT\nnet=0\nlsl=0\nhsl=293000?\nbase=0\nnonspin=0\ncold30=0\n";
/// let mut snapshot = Snapshot::from_text(text)?;
/// if let Unit::Generator(unit) = &mut snapshot.resources[0].unit {
///     assert!(unit.marks.hsl && !unit.marks.net);
///     unit.status = Status::OffNs;
/// }
/// assert_eq!(snapshot.to_text(), Err(Refusal { number: 15, line: 14 }));
/// # Ok::<(), Refusal>(())
/// ```
#[derive(Clone, Debug, PartialEq, Eq)]
pub struct Snapshot {
    /// 1 to 12.
    pub month: i64,
    /// 0 to 23.
    pub hour: i64,
    /// System Lambda, cents per MWh.
    pub lambda: i64,
    /// The discount factor, ten-thousandths.
    pub factor: i64,
    /// PRC, kW.
    pub prc: i64,
    /// The PRC at which EEA Level 1 starts, kW.
    pub eea1: i64,
    /// The under-generation of SCED, kW.
    pub short: i64,
    /// At most [`RESOURCES`](crate::RESOURCES) in a text. Their number is the text's `count`.
    pub resources: Vec<Resource>,
}

/// A resource with its id.
#[derive(Clone, Debug, PartialEq, Eq)]
pub struct Resource {
    /// In a text, 1 to 16 of A to Z, 0 to 9 and _, and no id twice.
    pub id: String,
    pub unit: Unit,
}

/// What a resource is, with its readings.
#[derive(Clone, Copy, Debug, PartialEq, Eq)]
pub enum Unit {
    Generator(Generator),
    ControllableLoad(ControllableLoad),
    OtherLoad(OtherLoad),
}

/// A generator's readings, kW.
#[derive(Clone, Copy, Debug, PartialEq, Eq)]
pub struct Generator {
    pub kind: GeneratorKind,
    pub status: Status,
    /// Net output; below zero where the unit consumes.
    pub net: i64,
    pub lsl: i64,
    pub hsl: i64,
    /// The base point.
    pub base: i64,
    pub nonspin: i64,
    /// Whether it can start from cold within 30 minutes.
    pub cold30: bool,
    pub marks: GeneratorMarks,
}

/// Which of a generator's readings are marked suspect; by default none. `cold30` carries no mark.
#[derive(Clone, Copy, Debug, Default, PartialEq, Eq)]
pub struct GeneratorMarks {
    pub net: bool,
    pub lsl: bool,
    pub hsl: bool,
    pub base: bool,
    pub nonspin: bool,
}

/// The kinds of generator, which the text has as `gen`, `wind`, `irr` and `nuke`.
#[derive(Clone, Copy, Debug, PartialEq, Eq)]
pub enum GeneratorKind {
    /// Any generator that is none of the next three.
    Gen,
    Wind,
    /// Intermittent, but not wind.
    Irr,
    Nuke,
}

/// The telemetered status of a generator.
#[derive(Clone, Copy, Debug, PartialEq, Eq)]
pub enum Status {
    On,
    Off,
    OffNs,
    OnTest,
    Startup,
    Shutdown,
    Out,
}

/// The readings of a controllable load (`clr`), kW.
#[derive(Clone, Copy, Debug, PartialEq, Eq)]
pub struct ControllableLoad {
    /// The base point.
    pub base: i64,
    pub lpc: i64,
    pub nonspin: i64,
    pub regup: i64,
    pub marks: ControllableLoadMarks,
}

/// Which of a controllable load's readings are marked suspect; by default none.
#[derive(Clone, Copy, Debug, Default, PartialEq, Eq)]
pub struct ControllableLoadMarks {
    pub base: bool,
    pub lpc: bool,
    pub nonspin: bool,
    pub regup: bool,
}

/// The readings of a load that is not controllable (`nclr`), kW.
#[derive(Clone, Copy, Debug, PartialEq, Eq)]
pub struct OtherLoad {
    /// Whether the RRS schedule is validated.
    pub rrsok: bool,
    /// Net consumption.
    pub net: i64,
    pub lpc: i64,
    pub rrs: i64,
    pub marks: OtherLoadMarks,
}

/// Which of another load's readings are marked suspect; by default none. `rrsok` carries no mark.
#[derive(Clone, Copy, Debug, Default, PartialEq, Eq)]
pub struct OtherLoadMarks {
    pub net: bool,
    pub lpc: bool,
    pub rrs: bool,
}

impl Snapshot {
    /// Reads a snapshot's text.
    ///
    /// # Errors
    /// 2, 3 to 8, 9, 15.
    pub fn from_text(text: &[u8]) -> Result<Snapshot, Refusal> {
        let mut rows = Rows::enough_for(text);
        raw::read_snapshot(text, &mut rows.header, &mut rows.ids, &mut rows.numbers)?;
        Ok(rows.snapshot())
    }

    /// The snapshot's text, as [`CurveSet::price`](crate::CurveSet::price) takes it. Reading it gives an equal
    /// snapshot, and a snapshot that was read from a text gives that text.
    ///
    /// # Errors
    /// 6, 7, 8, at the line that would be wrong; then 15, at the line of the suspect number.
    pub fn to_text(&self) -> Result<Vec<u8>, Refusal> {
        let rows = Rows::of(self);
        let mut text = vec![0; raw::snapshot_length(&rows.header, &rows.ids, &rows.numbers)?];
        raw::write_snapshot(&rows.header, &rows.ids, &rows.numbers, &mut text)?;
        Ok(text)
    }

    /// The length of the text, in bytes.
    ///
    /// # Errors
    /// 6, 7, 8, then 15.
    pub fn text_length(&self) -> Result<usize, Refusal> {
        let rows = Rows::of(self);
        raw::snapshot_length(&rows.header, &rows.ids, &rows.numbers)
    }

    /// Writes the text to the front of a buffer and gives its length; bytes after it stay.
    ///
    /// # Errors
    /// 6, 7, 8, then 15, then 14; the buffer is then as it was.
    pub fn write_text(&self, buffer: &mut [u8]) -> Result<usize, Refusal> {
        let rows = Rows::of(self);
        raw::write_snapshot(&rows.header, &rows.ids, &rows.numbers, buffer)
    }
}
