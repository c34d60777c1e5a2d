//! The reports: plain text for people, and CSV.

use crate::reading::Reading;
use crate::reason::Reason;
use crate::tight::Tightened;
use crate::{Outcome, Row, Study, Verdict};
use reference::{number, Prices};
use std::fmt::Write;

/// The report for people. With a tight variant, `study` is of that variant
/// and `given` of the snapshot as given.
pub fn plain(study: &Study, tight: Option<(&Tightened, &Study)>) -> String {
    let mut out = String::new();
    if let Some((tight, given)) = tight {
        tight_part(&mut out, tight, given);
    }
    push(&mut out, &prices_line(&study.before));
    push(&mut out, "");
    table(&mut out, study);
    push(&mut out, "");
    summary(&mut out, study);
    if let Some((_, given)) = tight {
        push(&mut out, "");
        shown_only_here(&mut out, study, given);
    }
    out
}

fn push(out: &mut String, line: &str) {
    out.push_str(line.trim_end());
    out.push('\n');
}

fn prices_line(prices: &Prices) -> String {
    let Prices {
        rs,
        rsns,
        pis,
        pins,
        online,
        offline,
    } = prices;
    format!(
        "Before: RS {rs}, RSNS {rsns}, piS {pis}, piNS {pins}, on-line {online}, off-line {offline}"
    )
}

fn tight_part(out: &mut String, tight: &Tightened, given: &Study) {
    push(out, &format!("As given. {}", prices_line(&given.before)));
    push(out, "");
    push(out, "Changed to make the snapshot tight:");
    if tight.edits.is_empty() {
        push(out, "  nothing");
    }
    for edit in &tight.edits {
        let name = name(edit.line, &edit.id, edit.key);
        let (from, to, why) = (edit.from, edit.to, edit.why);
        push(out, &format!("  {name}: {from} -> {to} ({why})"));
    }
    for note in &tight.notes {
        push(out, &format!("  note: {note}"));
    }
    push(out, "");
}

/// How a reading is named: line, resource and key.
fn name(line: usize, id: &str, key: &str) -> String {
    if id.is_empty() {
        format!("line {line} {key}")
    } else {
        format!("line {line} {id} {key}")
    }
}

fn name_of(reading: &Reading) -> String {
    name(reading.line, &reading.id, reading.key)
}

fn table(out: &mut String, study: &Study) {
    let heads = ["line", "resource", "key", "perturbation", "becomes"];
    let cells: Vec<[String; 5]> = study
        .rows
        .iter()
        .map(|row| {
            let reading = &study.readings[row.reading];
            [
                reading.line.to_string(),
                reading.id.clone(),
                reading.key.to_string(),
                row.kind.name().to_string(),
                row.becomes.clone(),
            ]
        })
        .collect();
    let widths: [usize; 5] = std::array::from_fn(|column| {
        let longest = cells.iter().map(|cells| cells[column].len()).max();
        longest.unwrap_or(0).max(heads[column].len())
    });
    let line = |cells: [&str; 5], last: &str| {
        let mut line = format!("{:>width$}", cells[0], width = widths[0]);
        for column in 1..5 {
            let width = widths[column];
            write!(line, "  {:width$}", cells[column]).expect("a String takes every byte");
        }
        format!("{line}  {last}")
    };
    push(out, &line(heads, "what came of it"));
    for (row, cells) in study.rows.iter().zip(&cells) {
        let cells = std::array::from_fn(|column| cells[column].as_str());
        push(out, &line(cells, &outcome(study, row)));
    }
}

fn outcome(study: &Study, row: &Row) -> String {
    let before = &study.before;
    match &row.outcome {
        Outcome::Same => format!("the value as it was: {}", study.readings[row.reading].value),
        Outcome::Refused(refusal) => {
            format!("refused {} at line {}", refusal.number, refusal.line)
        }
        Outcome::Priced { after, reasons, .. } => {
            let prices = format!(
                "on-line {} -> {}, off-line {} -> {}",
                before.online, after.online, before.offline, after.offline
            );
            if reasons.is_empty() {
                prices
            } else {
                format!("{prices}; unmoved: {}", short_names(reasons))
            }
        }
    }
}

fn short_names(reasons: &[Reason]) -> String {
    let mut names: Vec<&str> = reasons.iter().map(Reason::name).collect();
    names.dedup();
    names.join("; ")
}

fn in_full(reasons: &[Reason]) -> String {
    let reasons: Vec<String> = reasons.iter().map(Reason::to_string).collect();
    reasons.join("; ")
}

fn summary(out: &mut String, study: &Study) {
    let with = |wanted: fn(&Verdict) -> bool| {
        let all = study.readings.iter().zip(&study.verdicts);
        all.filter(move |(_, verdict)| wanted(verdict))
    };
    let moving = with(|verdict| matches!(verdict, Verdict::Moves)).count();
    let total = study.readings.len();
    push(
        out,
        &format!("Readings that move a price: {moving} of {total}."),
    );
    push(out, "");
    push(out, "Readings of which no other value is accepted:");
    for (reading, _) in with(|verdict| matches!(verdict, Verdict::AlwaysRefused)) {
        push(out, &format!("  {}", name_of(reading)));
    }
    push(out, "");
    push(out, "Readings whose change moved nothing:");
    for (reading, verdict) in with(|verdict| matches!(verdict, Verdict::Unmoved(_))) {
        if let Verdict::Unmoved(reasons) = verdict {
            let (name, value) = (name_of(reading), &reading.value);
            push(out, &format!("  {name}={value}: {}", in_full(reasons)));
        }
    }
    push(out, "");
    marks(out, study);
}

/// What a mark does, by resource: it goes by the unit and not by the number.
fn marks(out: &mut String, study: &Study) {
    let (mut refused, mut fine) = (Vec::new(), Vec::new());
    let mut last = None;
    for row in study.rows.iter().filter(|row| row.kind.changes_the_mark()) {
        let reading = &study.readings[row.reading];
        if reading.resource.is_none() || reading.resource == last {
            continue;
        }
        match &row.outcome {
            // Flags can have no mark, so that another number tells.
            Outcome::Refused(refusal) if refusal.number != number::SUSPECT => continue,
            Outcome::Priced { reasons, .. } => {
                fine.push(format!("  {}: {}", reading.id, in_full(reasons)));
            }
            _ => refused.push(format!("  {}", reading.id)),
        }
        last = reading.resource;
    }
    push(out, "Resources of which a marked number is refused:");
    refused.iter().for_each(|line| push(out, line));
    push(out, "");
    push(out, "Resources of which a marked number is not:");
    fine.iter().for_each(|line| push(out, line));
}

/// What the tight variant brought to light.
fn shown_only_here(out: &mut String, study: &Study, given: &Study) {
    push(
        out,
        "Readings that moved nothing as given and move a price here:",
    );
    let verdicts = given.verdicts.iter().zip(&study.verdicts);
    for (reading, verdicts) in given.readings.iter().zip(verdicts) {
        if let (Verdict::Unmoved(reasons), Verdict::Moves) = verdicts {
            let name = name_of(reading);
            push(out, &format!("  {name}: as given {}", in_full(reasons)));
        }
    }
}

const CSV_HEAD: &str = "line,resource,key,value,perturbation,becomes,result,refused,refused_line,\
online_before,online_after,offline_before,offline_after,reason";

/// The report as CSV. The result is `same`, `refused`, `moved` or `unmoved`;
/// a last row for each reading, `summary`, takes all its changes together.
pub fn csv(study: &Study, tight: Option<(&Tightened, &Study)>) -> String {
    let mut out = String::new();
    push(&mut out, CSV_HEAD);
    if let Some((tight, _)) = tight {
        for edit in &tight.edits {
            let key = edit.key;
            row(
                &mut out,
                [
                    &edit.line.to_string(),
                    &edit.id,
                    key,
                    &edit.from.to_string(),
                    "made tight",
                    &format!("{key}={}", edit.to),
                ],
                "",
                edit.why,
            );
        }
        for note in &tight.notes {
            row(&mut out, ["", "", "", "", "made tight", ""], "", note);
        }
    }
    let mut rows = study.rows.iter().peekable();
    for (index, (reading, verdict)) in study.readings.iter().zip(&study.verdicts).enumerate() {
        let line = reading.line.to_string();
        let front = |kind, becomes| {
            [
                line.as_str(),
                &reading.id,
                reading.key,
                &reading.value,
                kind,
                becomes,
            ]
        };
        while let Some(one) = rows.next_if(|row| row.reading == index) {
            let (middle, reason) = csv_outcome(&study.before, &one.outcome);
            row(
                &mut out,
                front(one.kind.name(), &one.becomes),
                &middle,
                &reason,
            );
        }
        let (middle, reason) = match verdict {
            Verdict::Moves => ("moved,,,,,,", String::new()),
            Verdict::AlwaysRefused => ("refused,,,,,,", String::new()),
            Verdict::Unmoved(reasons) => ("unmoved,,,,,,", in_full(reasons)),
        };
        row(&mut out, front("summary", ""), middle, &reason);
    }
    out
}

fn csv_outcome(before: &Prices, outcome: &Outcome) -> (String, String) {
    match outcome {
        Outcome::Same => ("same,,,,,,".to_string(), String::new()),
        Outcome::Refused(refusal) => (
            format!("refused,{},{},,,,", refusal.number, refusal.line),
            String::new(),
        ),
        Outcome::Priced {
            after,
            moved,
            reasons,
        } => (
            format!(
                "{},,,{},{},{},{}",
                if *moved { "moved" } else { "unmoved" },
                before.online,
                after.online,
                before.offline,
                after.offline
            ),
            in_full(reasons),
        ),
    }
}

/// A CSV row; an empty middle is seven empty cells.
fn row(out: &mut String, front: [&str; 6], middle: &str, reason: &str) {
    let front: Vec<String> = front.iter().map(|cell| quoted(cell)).collect();
    let middle = if middle.is_empty() { ",,,,,," } else { middle };
    push(
        out,
        &format!("{},{middle},{}", front.join(","), quoted(reason)),
    );
}

fn quoted(cell: &str) -> String {
    if cell.contains([',', '"', '\n']) {
        format!("\"{}\"", cell.replace('"', "\"\""))
    } else {
        cell.to_string()
    }
}
