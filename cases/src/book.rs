//! Cases of booking an hour.

use crate::texts::*;
use crate::{Case, Input, Random, Text};
use reference::{Group, Record};

const HEAD: [(&str, i64, i64); 13] = [
    ("month", 1, 12),
    ("hour", 0, 23),
    ("ongen", 0, POWER),
    ("load", 0, POWER),
    ("tie", -20_000_000, 20_000_000),
    ("ns", 0, POWER),
    ("reg", 0, POWER),
    ("rrs", 0, POWER),
    ("nclr", 0, POWER),
    ("offns", 0, POWER),
    ("cold30", 0, POWER),
    ("shed", 0, POWER),
    ("runs", 1, 60),
];
const RUN: [&str; 9] = [
    "hsl", "base", "rrs", "nclr", "reg", "ns", "offns", "cold30", "short",
];
const POWER: i64 = 100_000_000;
const LARGEST_ERROR: i64 = 20_000_000;
const HOUR_LIMIT: usize = 65_536;

/// The lines of an hour with these numbers; the runs are counted.
pub fn hour_lines(head: [i64; 12], runs: &[[i64; 9]]) -> Lines {
    let head = head.into_iter().chain([runs.len() as i64]);
    let mut lines: Lines = HEAD
        .iter()
        .zip(head)
        .map(|((key, ..), value)| format!("{key}={value}"))
        .collect();
    for run in runs {
        lines.extend(run_lines(run));
    }
    lines
}

fn run_lines(run: &[i64; 9]) -> Lines {
    let fields = RUN.iter().zip(run);
    fields
        .map(|(key, value)| format!("{key}={value}"))
        .collect()
}

/// An hour in which every field counts.
fn plain_hour(runs: usize) -> Lines {
    let head = [7, 14, 50, 20, -3, 1, 2, 3, 4, 5, 6, 7];
    hour_lines(head, &vec![[40, 10, 1, 2, 3, 4, 5, 6, 8]; runs])
}

/// An hour in the group of month 7 and hour 14 with this error.
pub fn hour_with_error(error: i64) -> Lines {
    let tie = (-error).clamp(-LARGEST_ERROR, LARGEST_ERROR);
    let rest = error + tie;
    let (ns, load) = (rest.max(0), (-rest).max(0));
    hour_lines([7, 14, 0, load, tie, ns, 0, 0, 0, 0, 0, 0], &[[0; 9]])
}

fn due(at: usize) -> Due {
    match HEAD.get(at - 1) {
        Some(&(_, low, high)) => Due::Number(low, high),
        None => Due::Number(0, POWER),
    }
}

/// The group of month 7 and hour 14.
const PLAIN_GROUP: usize = 16;

fn booked(record: Record, text: impl Into<Text>) -> Input {
    Input::Book {
        record,
        text: text.into(),
    }
}

fn on_fresh(text: impl Into<Text>) -> Input {
    booked(Record::fresh(), text)
}

pub fn add(cases: &mut Vec<Case>, random: &mut Random) {
    damaged_lines(cases);
    lengths(cases);
    bounds(cases);
    errors(cases);
    groups(cases);
    records(cases);
    random_hours(cases, random);
}

fn damaged_lines(cases: &mut Vec<Case>) {
    let one = plain_hour(1);
    for at in 1..=one.len() {
        for (label, text) in damages(&one, at, due(at)) {
            cases.case(label, on_fresh(text));
        }
    }
    let two = plain_hour(2);
    for at in [23, 27, 31] {
        for (label, text) in damages(&two, at, due(at)) {
            cases.case(format!("of 2 runs, {label}"), on_fresh(text));
        }
    }
    // The last line an hour can have: only the last of 60 runs is damaged.
    let long = with_value(&one, 13, "60");
    let (head, run) = (bytes(&long[..13]), bytes(&long[13..]));
    for (label, text) in damages(&long, 22, due(22)) {
        let text = Text::from(head.clone())
            .then(59, run.clone())
            .then(1, &text[head.len()..]);
        let label = label.replace("line 22", "line 553");
        cases.case(format!("of 60 runs, {label}"), on_fresh(text));
    }
    cases.case("no byte at all", on_fresh(""));
    for more in ["\n", "x", "0", "hsl=40\n", "month=7\n", "\0"] {
        let label = format!("bytes {more:?} follow");
        for runs in [1, 2] {
            let text = Text::from(bytes(&plain_hour(runs))).then(1, more);
            cases.case(format!("of {runs} runs, {label}"), on_fresh(text));
        }
        let text = Text::from(head.clone()).then(60, run.clone()).then(1, more);
        cases.case(format!("of 60 runs, {label}"), on_fresh(text));
    }
    for runs in ["59", "61", "0", "2"] {
        let text = Text::from(bytes(&with_value(&long, 13, runs)[..13])).then(60, run.clone());
        cases.case(format!("60 runs, said to be {runs}"), on_fresh(text));
    }
}

fn lengths(cases: &mut Vec<Case>) {
    let hour = bytes(&plain_hour(1));
    let room = HOUR_LIMIT - hour.len();
    for (name, length) in [("at", room), ("one over", room + 1), ("far over", 9 * room)] {
        let text = Text::from(hour.clone()).then(length, "x");
        cases.case(format!("an hour {name} its limit of bytes"), on_fresh(text));
    }
    for (name, length) in [("at", HOUR_LIMIT), ("one over", HOUR_LIMIT + 1)] {
        for byte in ["m", "\n"] {
            let text = Text::default().then(length, byte);
            let label = format!("bytes {byte:?} {name} the limit");
            cases.case(label, on_fresh(text));
        }
    }
    let impossible = with_group(Record::fresh(), 0, group_of(1001, 0, 0));
    let text = Text::default().then(HOUR_LIMIT + 1, "x");
    cases.case("1 comes before 2", booked(impossible, text));
    cases.case("1 comes before 3", booked(impossible, ""));
}

/// Every bound of every field, alone and with another field against it, so
/// that the error stays small.
fn bounds(cases: &mut Vec<Case>) {
    let plain = plain_hour(1);
    for at in 1..=plain.len() {
        let Due::Number(low, high) = due(at) else {
            continue;
        };
        let key = plain[at - 1].split('=').next().unwrap_or_default();
        if key == "runs" {
            continue;
        }
        for bound in [low, high] {
            let lines = with_value(&plain, at, &bound.to_string());
            let label = format!("line {at} {key} at {bound}");
            cases.case(label.clone(), on_fresh(bytes(&lines)));
            if bound == POWER {
                // These raise the error, so load is set against them.
                let raises = !matches!(key, "load" | "hsl") && (at < 14 || at == 15 || at == 22);
                let other = if raises { 4 } else { 3 };
                let lines = with_value(&lines, other, &POWER.to_string());
                cases.case(label + ", balanced", on_fresh(bytes(&lines)));
            }
        }
    }
    let most = hour_lines(
        [
            12,
            23,
            POWER,
            0,
            -20_000_000,
            POWER,
            POWER,
            POWER,
            POWER,
            POWER,
            POWER,
            POWER,
        ],
        &[[0, POWER, 0, 0, 0, 0, 0, 0, POWER]],
    );
    cases.case("the largest error there is", on_fresh(bytes(&most)));
    let least = [POWER, 0, POWER, POWER, POWER, POWER, POWER, POWER, 0];
    let head = hour_lines([1, 0, 0, POWER, 20_000_000, 0, 0, 0, 0, 0, 0, 0], &[]);
    let head = with_value(&head, 13, "60");
    let text = Text::from(bytes(&head)).then(60, bytes(&run_lines(&least)));
    cases.case("the smallest error there is, of 60 runs", on_fresh(text));
    for number in [
        "100000001",
        "1000000000",
        "9223372036854775807",
        "9223372036854775808",
        "18446744073709551616",
        "99999999999999999999999999999999999999999",
    ] {
        for sign in ["", "-"] {
            let lines = with_value(&plain, 3, &format!("{sign}{number}"));
            cases.case(format!("ongen {sign}{number}"), on_fresh(bytes(&lines)));
        }
    }
}

/// Errors at their bounds, and the mean of the runs rounded down.
fn errors(cases: &mut Vec<Case>) {
    for error in [
        0,
        1,
        -1,
        2,
        -2,
        19_999_999,
        -19_999_999,
        20_000_000,
        -20_000_000,
        20_000_001,
        -20_000_001,
        20_000_002,
        100_000_000,
        -100_000_000,
    ] {
        let text = bytes(&hour_with_error(error));
        cases.case(format!("error {error}"), on_fresh(text));
    }
    for runs in [1_usize, 2, 3, 7, 59, 60] {
        for total in [
            -61, -60, -59, -8, -7, -4, -3, -2, -1, 1, 2, 3, 4, 7, 8, 59, 60, 61,
        ] {
            let mut head = hour_lines([7, 14, 0, 0, 0, 0, 0, 0, 0, 0, 0, 0], &[]);
            head = with_value(&head, 13, &runs.to_string());
            let mut run = [0; 9];
            if total < 0 {
                run[1] = -total;
            } else {
                run[0] = total;
            }
            head.extend(run_lines(&run));
            let text = Text::from(bytes(&head)).then(runs - 1, bytes(&run_lines(&[0; 9])));
            cases.case(format!("{total} kW over {runs} runs"), on_fresh(text));
        }
    }
    // Each run counts once, and every field of a run with its sign.
    for (place, key) in RUN.iter().enumerate() {
        let mut run = [0; 9];
        run[place] = 1000;
        let lines = hour_lines([7, 14, 0, 0, 0, 0, 0, 0, 0, 0, 0, 0], &[run, [0; 9], run]);
        cases.case(
            format!("{key} in two of three runs"),
            on_fresh(bytes(&lines)),
        );
    }
    for (place, (key, ..)) in HEAD.iter().enumerate().take(12).skip(2) {
        let mut head = [7, 14, 0, 0, 0, 0, 0, 0, 0, 0, 0, 0];
        head[place] = 1000;
        let lines = hour_lines(head, &[[0; 9]]);
        cases.case(format!("{key} alone"), on_fresh(bytes(&lines)));
    }
}

fn groups(cases: &mut Vec<Case>) {
    let in_hour = |month, hour| {
        let head = [month, hour, 3, 0, 0, 0, 0, 0, 0, 0, 0, 0];
        on_fresh(bytes(&hour_lines(head, &[[0; 9]])))
    };
    for month in 1..=12 {
        cases.case(format!("month {month}, hour 0"), in_hour(month, 0));
        cases.case(format!("month {month}, hour 23"), in_hour(month, 23));
    }
    for hour in 0..24 {
        cases.case(format!("month 6, hour {hour}"), in_hour(6, hour));
    }
    for (month, hour) in bounds_of_the_first_block() {
        cases.case(format!("month {month}, hour {hour}"), in_hour(month, hour));
    }
}

/// The bounds of the first block, which has the hours 22, 23, 0 and 1, in the
/// last month of each season: its hours before midnight stay in that season.
pub fn bounds_of_the_first_block() -> impl Iterator<Item = (i64, i64)> {
    let months = [2, 5, 8, 11];
    months
        .into_iter()
        .flat_map(|month| [1, 2, 21, 22].map(|hour| (month, hour)))
}

fn group_of(count: u64, sum: i64, squares: i64) -> Group {
    Group {
        count,
        sum,
        squares,
    }
}

/// A group of equal errors.
fn equal_errors(count: u64, error: i64) -> Group {
    let hours = count as i64;
    group_of(count, hours * error, hours * error * error)
}

fn records(cases: &mut Vec<Case>) {
    let text = |error| bytes(&hour_with_error(error));
    let full = equal_errors(1000, 5);
    let nearly = equal_errors(999, 5);
    let fresh = Record::fresh();
    let here = PLAIN_GROUP;
    let mut case = |label: &str, record, error| {
        cases.case(label, booked(record, text(error)));
    };
    case(
        "the hour 1000 of a group",
        with_group(fresh, here, nearly),
        7,
    );
    case("the hour 1001 of a group", with_group(fresh, here, full), 7);
    case(
        "another group is full",
        with_group(fresh, here - 1, full),
        7,
    );
    case("all groups are full", record_of(full), 7);
    case("all groups are nearly full", record_of(nearly), -7);
    case(
        "all others are full",
        with_group(record_of(full), here, nearly),
        7,
    );
    case(
        "10 comes before 11",
        with_group(fresh, here, full),
        20_000_001,
    );
    for error in [20_000_000, -20_000_000] {
        let nearly = with_group(fresh, here, equal_errors(999, error));
        case("largest errors, the hour 1000", nearly, error);
        let full = with_group(fresh, here, equal_errors(1000, error));
        case("largest errors, the hour 1001", full, error);
        case(
            "largest errors, in all groups",
            record_of(equal_errors(999, error)),
            -error,
        );
    }
    for count in [1, 2, 3, 500, 998] {
        let record = record_of(equal_errors(count, -3));
        case("groups of equal errors", record, 4);
    }
    for (label, group) in impossible_groups() {
        for place in [0, 11, 23] {
            let record = with_group(fresh, place, group);
            case(&format!("group {place}: {label}"), record, 1);
        }
        case(&format!("all groups: {label}"), record_of(group), 1);
    }
    // The least squares a group can have, which is accepted.
    case(
        "V of 0 about mu + 1",
        with_group(fresh, 3, group_of(3, 2, 1)),
        1,
    );
    case(
        "V of 0 about mu",
        with_group(fresh, 3, group_of(3, -4, 5)),
        1,
    );
    let impossible = with_group(fresh, here, group_of(1001, 0, 0));
    case("1 comes before 10", impossible, 1);
    case("1 comes before 11", impossible, 30_000_000);
}

/// A power value: most are small, some are as large as can be.
fn power(random: &mut Random) -> i64 {
    let most = *random.pick(&[0, 9, 9, 1000, 1000, 1_000_000, 1_000_000, 5_000_000]);
    if random.one_in(40) {
        return random.within(0, POWER);
    }
    random.within(0, most)
}

/// A group of a few random errors, perhaps many times.
pub fn random_group(random: &mut Random, largest: i64) -> Group {
    let errors: Vec<i64> = (0..random.within(0, 6))
        .map(|_| random.within(-largest, largest))
        .collect();
    let one = group(&errors);
    let times = if random.one_in(4) {
        random.within(1, 1000 / one.count.max(1) as i64)
    } else {
        1
    };
    group_of(
        one.count * times as u64,
        one.sum * times,
        one.squares * times,
    )
}

fn random_hours(cases: &mut Vec<Case>, random: &mut Random) {
    for number in 0..160 {
        let largest = *random.pick(&[3, 1000, 1_000_000, LARGEST_ERROR]);
        let mut record = record_of(random_group(random, largest));
        for _ in 0..random.within(0, 3) {
            let place = random.within(0, 23) as usize;
            record = with_group(record, place, random_group(random, largest));
        }
        let mut head: [i64; 12] = std::array::from_fn(|_| power(random));
        head[0] = random.within(1, 12);
        head[1] = random.within(0, 23);
        head[4] = random.within(-largest, largest);
        // Generation is near load, as it is on most days.
        head[2] = (head[3] + random.within(-largest, largest)).clamp(0, POWER);
        let runs: Vec<[i64; 9]> = (0..random.within(1, 3))
            .map(|_| {
                let mut run: [i64; 9] = std::array::from_fn(|_| power(random) / 10);
                run[1] = (run[0] + random.within(-largest, largest)).clamp(0, POWER);
                run
            })
            .collect();
        let lines = hour_lines(head, &runs);
        let mut text = bytes(&lines);
        if random.one_in(4) {
            let at = random.within(1, lines.len() as i64) as usize;
            let mut all = damages(&lines, at, due(at));
            let one = random.within(0, all.len() as i64 - 1) as usize;
            text = all.swap_remove(one).1;
        }
        cases.case(format!("random hour {number}"), booked(record, text));
    }
}
