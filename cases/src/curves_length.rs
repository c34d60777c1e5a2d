//! Cases of the length of a curve text: of every curve set that another case
//! has, and of numbers with every number of digits.

use crate::curve_text::{due, longest, shortest};
use crate::texts::*;
use crate::{curve_numbers, Case, Input};
use reference::{read_curves, run_curves, settle, CurveSet};
use std::collections::BTreeSet;

/// The cases of the other operations stand before these, but for those with
/// marks.
pub fn add(cases: &mut Vec<Case>) {
    let mut asked = Asked {
        cases,
        sets: BTreeSet::new(),
    };
    stored(&mut asked);
    digits(&mut asked);
    bounds(&mut asked);
    raised(&mut asked);
}

/// The cases, and the numbers of the sets that are asked for, each set once.
struct Asked<'a> {
    cases: &'a mut Vec<Case>,
    sets: BTreeSet<Vec<i64>>,
}

impl Asked<'_> {
    fn ask(&mut self, label: String, curves: CurveSet) {
        if self.sets.insert(curve_numbers(&curves)) {
            let label = format!("length, {label}");
            self.cases.case(label, Input::CurvesLength { curves });
        }
    }
}

/// Every set of the cases so far, possible or not.
fn stored(asked: &mut Asked) {
    for place in 0..asked.cases.len() {
        if let Some(curves) = set_of(&asked.cases[place].input) {
            asked.ask(format!("the set of case {}", place + 1), curves);
        }
    }
}

/// The curve set that an input holds, or that comes of it where it is accepted.
fn set_of(input: &Input) -> Option<CurveSet> {
    match input {
        Input::Write { curves, .. }
        | Input::WritePage { curves, .. }
        | Input::Price { curves, .. } => Some(*curves),
        Input::Settle {
            record,
            voll,
            floor,
        } => settle(record, *voll, *floor).ok(),
        Input::Read { text } | Input::PageProgram { text } => read_curves(&text.bytes()).ok(),
        Input::PriceProgram { text } => {
            // The curve text ends where an empty line follows.
            let text = text.bytes();
            let last = text.windows(2).position(|pair| pair == b"\n\n")?;
            read_curves(&text[..=last]).ok()
        }
        Input::CurvesProgram { text, .. } => read_curves(&run_curves(&text.bytes())).ok(),
        Input::Book { .. }
        | Input::CurvesLength { .. }
        | Input::ReadValues { .. }
        | Input::WriteValues { .. } => None,
    }
}

/// The lines of VOLL and X, and those of the first, a middle and the last pair.
const LINES: [usize; 8] = [1, 2, 3, 4, 25, 26, 49, 50];

/// The range of the number on a line.
fn range(at: usize) -> (i64, i64) {
    match due(at) {
        Due::Number(low, high) => (low, high),
        _ => unreachable!("every line has a number"),
    }
}

/// The set with another number on one line.
fn with_line(mut curves: CurveSet, at: usize, value: i64) -> CurveSet {
    match at {
        1 => curves.voll = value,
        2 => curves.floor = value,
        _ => {
            let (mu, sigma) = &mut curves.pairs[(at - 3) / 2];
            *(if at % 2 == 1 { mu } else { sigma }) = value;
        }
    }
    curves
}

/// The greatest number of so many digits and the least with one digit more, and
/// both below 0: on one line, and on all lines whose range has it.
fn digits(asked: &mut Asked) {
    let sizes = (1..8).map(|digits| 10_i64.pow(digits));
    for size in sizes.flat_map(|power| [power - 1, power]) {
        for value in [size, -size] {
            let has = |at: &usize| {
                let (low, high) = range(*at);
                (low..=high).contains(&value)
            };
            for at in LINES.into_iter().filter(has) {
                let curves = with_line(shortest(), at, value);
                asked.ask(format!("line {at} at {value}"), curves);
            }
            let lines = (1..=50).filter(has);
            let curves = lines.fold(shortest(), |curves, at| with_line(curves, at, value));
            asked.ask(format!("every line that can be at {value}"), curves);
        }
    }
}

/// Every number at its bounds and one beyond, some at the ends of a machine
/// number.
fn bounds(asked: &mut Asked) {
    let mut ask = |at, value| {
        let curves = with_line(shortest(), at, value);
        asked.ask(format!("line {at} at {value}"), curves);
    };
    for at in 1..=50 {
        let (low, high) = range(at);
        for value in [low - 1, low, high, high + 1] {
            ask(at, value);
        }
    }
    for at in LINES {
        ask(at, i64::MIN);
        ask(at, i64::MAX);
    }
}

/// From the shortest text to the longest, line by line.
fn raised(asked: &mut Asked) {
    let values = curve_numbers(&longest());
    let mut curves = shortest();
    for (at, value) in (1..).zip(values) {
        curves = with_line(curves, at, value);
        asked.ask(format!("the lines 1 to {at} at their longest"), curves);
    }
}
