//! Changes every reading of a snapshot, one at a time, prices each changed
//! snapshot and tells what came of it; names the readings whose change moved
//! no price, and why.

mod change;
mod reading;
mod reason;
mod report;
mod tight;

pub use change::{changes, Change, ChangeKind};
pub use reading::{readings, Holds, Reading};
pub use reason::{mark_is_fine, reasons, Reason};
pub use report::{csv, plain};
pub use tight::{tighten, Edit, Tightened};

use reference::{price_values, read_curves, read_snapshot, CurveSet, Prices, Refusal, Snapshot};

/// What came of one change.
#[derive(Clone, Debug, PartialEq, Eq)]
pub enum Outcome {
    /// The changed line is the line that stood there: zero made zero.
    Same,
    Refused(Refusal),
    /// The reasons are given where neither price moved.
    Priced {
        after: Prices,
        moved: bool,
        reasons: Vec<Reason>,
    },
}

/// One change of one reading, and what came of it.
#[derive(Clone, Debug)]
pub struct Row {
    pub reading: usize,
    pub kind: ChangeKind,
    /// The line as changed; empty where it was cut or moved.
    pub becomes: String,
    pub outcome: Outcome,
}

/// What the changes of a reading did, all taken together.
#[derive(Clone, Debug, PartialEq, Eq)]
pub enum Verdict {
    Moves,
    /// No other value that was tried is accepted.
    AlwaysRefused,
    Unmoved(Vec<Reason>),
}

/// All changes of all readings of one snapshot.
#[derive(Clone, Debug)]
pub struct Study {
    pub readings: Vec<Reading>,
    pub before: Prices,
    pub rows: Vec<Row>,
    /// By reading.
    pub verdicts: Vec<Verdict>,
}

/// An input that is refused before anything is changed.
#[derive(Clone, Copy, Debug, PartialEq, Eq)]
pub struct RefusedText {
    pub text: &'static str,
    pub refusal: Refusal,
}

/// Reads the curve text, naming the text where it is refused.
pub fn curves_of(text: &[u8]) -> Result<CurveSet, RefusedText> {
    read_curves(text).map_err(|refusal| RefusedText {
        text: "curves",
        refusal,
    })
}

/// Reads the snapshot, naming the text where it is refused.
pub fn snapshot_of(text: &[u8]) -> Result<Snapshot<'_>, RefusedText> {
    read_snapshot(text).map_err(|refusal| RefusedText {
        text: "snapshot",
        refusal,
    })
}

/// Changes every reading of the snapshot in every way.
pub fn study(curves: &CurveSet, text: &[u8]) -> Result<Study, RefusedText> {
    let snapshot = snapshot_of(text)?;
    let before = price_values(curves, &snapshot);
    let readings = readings(text, &snapshot);
    let lines: Vec<String> = readings.iter().map(Reading::text).collect();
    let mut rows = Vec::new();
    let mut verdicts = Vec::new();
    for (index, reading) in readings.iter().enumerate() {
        let first = rows.len();
        for change in changes(&readings, &lines, index) {
            let outcome = outcome_of(curves, &snapshot, &before, reading, &change);
            rows.push(Row {
                reading: index,
                kind: change.kind,
                becomes: change.becomes,
                outcome,
            });
        }
        verdicts.push(verdict_of(&rows[first..]));
    }
    Ok(Study {
        readings,
        before,
        rows,
        verdicts,
    })
}

fn outcome_of(
    curves: &CurveSet,
    snapshot: &Snapshot,
    before: &Prices,
    reading: &Reading,
    change: &Change,
) -> Outcome {
    if change.becomes == reading.text() {
        return Outcome::Same;
    }
    let changed = match read_snapshot(&change.text) {
        Ok(changed) => changed,
        Err(refusal) => return Outcome::Refused(refusal),
    };
    let after = price_values(curves, &changed);
    let moved = (after.online, after.offline) != (before.online, before.offline);
    let reasons = match reading.resource {
        _ if moved => Vec::new(),
        Some(place) if change.kind.changes_the_mark() => {
            let fine = mark_is_fine(&snapshot.resources[place].unit);
            fine.into_iter().collect()
        }
        _ => reasons(curves, snapshot, &changed, reading),
    };
    Outcome::Priced {
        after,
        moved,
        reasons,
    }
}

/// A reading is judged by the changes that give it another value a reading
/// may have; a damaged line is refused whatever it held.
fn verdict_of(rows: &[Row]) -> Verdict {
    let mut accepted = false;
    let mut all = Vec::new();
    for row in rows.iter().filter(|row| row.kind.gives_a_value()) {
        if let Outcome::Priced { moved, reasons, .. } = &row.outcome {
            if *moved {
                return Verdict::Moves;
            }
            accepted = true;
            for reason in reasons {
                if !all.contains(reason) {
                    all.push(reason.clone());
                }
            }
        }
    }
    if accepted {
        Verdict::Unmoved(all)
    } else {
        Verdict::AlwaysRefused
    }
}
