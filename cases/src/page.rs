//! Cases of writing a page, and of the program `page`.

use crate::curve_text::{
    curve_lines, due, impossible_sets, longest, mixed, random_set, shortest, READ_LIMIT,
};
use crate::texts::*;
use crate::{Case, Input, Random, Text};
use reference::{CurveSet, GROUPS, PAGE_LENGTH};

/// How far above X the probabilities of a row stand, in kW.
const STEPS: [i64; 4] = [1_000_000, 2_000_000, 3_000_000, 4_000_000];

/// A row with its byte 10.
const ROW_LENGTH: usize = PAGE_LENGTH / GROUPS;

pub fn add(cases: &mut Vec<Case>, random: &mut Random) {
    bounds(cases);
    impossible(cases);
    lengths(cases);
    widths(cases);
    probabilities(cases);
    other_numbers(cases);
    random_pages(cases, random);
    printed(cases, random);
    damaged_lines(cases);
    long_inputs(cases);
    cut_and_lengthened(cases);
    damaged_inputs(cases, random);
}

fn written(curves: CurveSet, length: usize) -> Input {
    Input::WritePage { curves, length }
}

/// The case of a buffer that the page fills.
fn page(curves: CurveSet) -> Input {
    written(curves, PAGE_LENGTH)
}

/// A curve set with a pair for each group.
fn pairs(pair: impl Fn(i64) -> (i64, i64)) -> CurveSet {
    CurveSet {
        pairs: std::array::from_fn(|group| pair(group as i64)),
        ..plain()
    }
}

fn plain() -> CurveSet {
    curves_of(900_000, 2_000_000, 0, 1_000_000)
}

/// Every number at each of its bounds, and one inside.
fn bounds(cases: &mut Vec<Case>) {
    for voll in [0, 2_000_000] {
        let curves = CurveSet { voll, ..plain() };
        cases.case(format!("a page, VOLL {voll}"), page(curves));
    }
    for floor in [0, 20_000_000] {
        let curves = CurveSet { floor, ..plain() };
        cases.case(format!("a page, X {floor}"), page(curves));
    }
    for at in [0, 11, 23] {
        for (mu, sigma) in [
            (-20_000_000, 1_000_000),
            (20_000_000, 1_000_000),
            (0, 1),
            (0, 20_000_000),
        ] {
            let mut curves = plain();
            curves.pairs[at] = (mu, sigma);
            let label = format!("a page, pair {at} is {mu} and {sigma}");
            cases.case(label, page(curves));
        }
    }
    for curves in [
        curves_of(1, 1, -19_999_999, 2),
        curves_of(1_999_999, 19_999_999, 19_999_999, 19_999_999),
    ] {
        cases.case("a page, every number next to a bound", page(curves));
    }
}

/// Each number outside its range, with the buffer that would do and with one
/// that is too short.
fn impossible(cases: &mut Vec<Case>) {
    let mut sets = impossible_sets();
    let least = i64::MIN;
    sets.push((
        format!("VOLL {least}"),
        CurveSet {
            voll: least,
            ..plain()
        },
    ));
    sets.push((
        format!("X {least}"),
        CurveSet {
            floor: least,
            ..plain()
        },
    ));
    for (at, pair) in [(0, (0, least)), (23, (least, 1))] {
        let mut curves = plain();
        curves.pairs[at] = pair;
        let label = format!("pair {at} is {} and {}", pair.0, pair.1);
        sets.push((label, curves));
    }
    for (label, curves) in sets {
        cases.case(format!("a page, {label}"), page(curves));
        let label = format!("a page, 1 comes before 14: {label}");
        cases.case(label, written(curves, 0));
    }
    let beyond = curves_of(-1, -1, -20_000_001, 0);
    cases.case("a page, every number too small", page(beyond));
    let label = "a page, 1 comes before 14: a byte short";
    cases.case(label, written(beyond, PAGE_LENGTH - 1));
}

/// Buffers that are too short, and bytes after the page, which stay.
fn lengths(cases: &mut Vec<Case>) {
    for (name, curves) in [
        ("shortest", shortest()),
        ("longest", longest()),
        ("mixed", mixed()),
    ] {
        for length in [
            0,
            1,
            ROW_LENGTH - 1,
            ROW_LENGTH,
            PAGE_LENGTH - 1,
            PAGE_LENGTH,
            PAGE_LENGTH + 1,
            PAGE_LENGTH + ROW_LENGTH,
        ] {
            let label = format!("a page of the {name} curves, buffer of {length}");
            cases.case(label, written(curves, length));
        }
    }
    let label = "a page of the mixed curves, buffer of 4096";
    cases.case(label, written(mixed(), 4096));
}

/// Numbers that fill their cells, and numbers of every length.
fn widths(cases: &mut Vec<Case>) {
    for (mu, sigma) in [
        (-20_000_000, 20_000_000),
        (20_000_000, 20_000_000),
        (-20_000_000, 1),
        (20_000_000, 1),
        (0, 1),
        (-1, 9),
    ] {
        let curves = curves_of(900_000, 2_000_000, mu, sigma);
        let label = format!("a page, every pair is {mu} and {sigma}");
        cases.case(label, page(curves));
    }
    // The least and the greatest number of each length.
    let sizes: [i64; 16] = [
        1, 9, 10, 99, 100, 999, 1000, 9999, 10_000, 99_999, 100_000, 999_999, 1_000_000, 9_999_999,
        10_000_000, 19_999_999,
    ];
    for turn in 0..2 {
        let size = |place: i64| sizes[place as usize % sizes.len()];
        let curves = pairs(|group| {
            let mu = size(group + 6 * turn);
            let sign = if (group + turn) % 2 == 0 { 1 } else { -1 };
            (sign * mu, size(7 * group + 3 * turn))
        });
        let label = format!("a page, numbers of every length, part {turn}");
        cases.case(label, page(curves));
    }
    // No two rows are alike but for their names.
    let own = pairs(|group| (100_000 * group, 1_000_000 + group));
    cases.case("a page, each group with its own pair", page(own));
}

/// Probabilities along the whole curve, at its flat ends and between knots.
fn probabilities(cases: &mut Vec<Case>) {
    for part in 0..4 {
        let curves = pairs(|group| {
            let p = 1040 * (24 * part + group) / 95 - 520;
            (STEPS[0] - 10_000 * p, 1_000_000)
        });
        let label = format!("a page along the curve, part {part}");
        cases.case(label, page(curves));
    }
    // With sigma 200 a kW is half a knot.
    let mut beside = Vec::new();
    for step in STEPS {
        for p in [-500, 0, 500] {
            for kilowatts in -2..=2 {
                beside.push((step - 2 * p + kilowatts, 200));
            }
        }
    }
    for (number, chunk) in beside.chunks(GROUPS).enumerate() {
        let curves = pairs(|group| chunk[group as usize % chunk.len()]);
        let label = format!("a page at p of -500, 0 and 500, part {number}");
        cases.case(label, page(curves));
    }
    // Spreads that leave a remainder, on both sides of each step.
    let spreads = [7, 700, 12_345, 999_999, 1_000_003, 3_333_333];
    let curves = pairs(|group| {
        let sigma = spreads[group as usize % spreads.len()];
        let step = STEPS[group as usize / spreads.len()];
        (step - sigma * (2 * group - 23) / 5, sigma)
    });
    cases.case("a page between knots", page(curves));
}

/// VOLL and X, of which the page shows nothing.
fn other_numbers(cases: &mut Vec<Case>) {
    for (voll, floor) in [
        (0, 0),
        (1, 1),
        (1_234_567, 999_999),
        (2_000_000, 20_000_000),
    ] {
        let curves = CurveSet {
            voll,
            floor,
            ..pairs(|group| (300_000 * group - 2_000_000, 1_000_000))
        };
        let label = format!("a page of the same pairs, VOLL {voll}, X {floor}");
        cases.case(label, page(curves));
    }
}

/// Numbers of all lengths, or pairs whose probabilities lie between 0 and 1.
fn random_curves(random: &mut Random) -> CurveSet {
    let mut curves = random_set(random);
    if random.one_in(2) {
        for pair in &mut curves.pairs {
            *pair = (
                random.within(-3_000_000, 5_000_000),
                random.within(200_000, 3_000_000),
            );
        }
    }
    curves
}

fn random_pages(cases: &mut Vec<Case>, random: &mut Random) {
    for number in 0..20 {
        let curves = random_curves(random);
        let length = (PAGE_LENGTH as i64 + random.within(-1, 3)) as usize;
        let label = format!("a page of random curves {number}");
        cases.case(label, written(curves, length));
    }
}

fn program(text: impl Into<Text>) -> Input {
    Input::PageProgram { text: text.into() }
}

fn text_of(curves: &CurveSet) -> Vec<u8> {
    bytes(&curve_lines(curves))
}

fn printed(cases: &mut Vec<Case>, random: &mut Random) {
    for (name, curves) in [
        ("mean 0 and spread 1000000", plain()),
        ("the shortest text", shortest()),
        ("the longest text", longest()),
        ("the mixed curves", mixed()),
    ] {
        cases.case(format!("page: {name}"), program(text_of(&curves)));
    }
    for number in 0..6 {
        let text = text_of(&random_curves(random));
        cases.case(format!("page: random curves {number}"), program(text));
    }
}

/// The first lines, two in the middle and the last ones, damaged in every way.
fn damaged_lines(cases: &mut Vec<Case>) {
    let lines = curve_lines(&shortest());
    for at in [1, 2, 25, 26, 49, 50] {
        for (label, text) in damages(&lines, at, due(at)) {
            cases.case(format!("page: {label}"), program(text));
        }
    }
}

/// Inputs at the most bytes of a curve text and one above. None of them can be
/// accepted, since a right text is much shorter.
fn long_inputs(cases: &mut Vec<Case>) {
    let text = text_of(&shortest());
    for length in [READ_LIMIT - 1, READ_LIMIT, READ_LIMIT + 1, 16 * READ_LIMIT] {
        for (name, front) in [("a right text", &text[..]), ("a number", b"voll=")] {
            let input = Text::from(front).then(length - front.len(), "1");
            let label = format!("page: {name} and ones, {length} bytes in all");
            cases.case(label, program(input));
        }
        let input = Text::default().then(length, "\n");
        cases.case(format!("page: {length} empty lines"), program(input));
    }
    // The byte 10 of a long number is the last byte that is accepted, or the
    // first that is not.
    for length in [READ_LIMIT, READ_LIMIT + 1] {
        let input = Text::from("voll=").then(length - 6, "1").then(1, "\n");
        let label = format!("page: a number's line of {length} bytes");
        cases.case(label, program(input));
    }
}

fn cut_and_lengthened(cases: &mut Vec<Case>) {
    let text = text_of(&shortest());
    let ends = text.len() - 16;
    for end in (0..16)
        .chain((16..ends).step_by(11))
        .chain(ends..text.len())
    {
        cases.case(format!("page: cut at byte {end}"), program(&text[..end]));
    }
    for more in ["\n", "x", "mu=0\n", "voll=0\n", "\0", "\nmonth=7\n"] {
        let input = Text::from(&text[..]).then(1, more);
        cases.case(format!("page: bytes {more:?} follow"), program(input));
    }
    let twice = Text::default().then(2, &text[..]);
    cases.case("page: the text twice", program(twice));
    for first in ["\n", " ", "\0", "mu=0\n"] {
        let input = Text::from(first).then(1, &text[..]);
        cases.case(format!("page: bytes {first:?} first"), program(input));
    }
}

/// A text with some bytes replaced.
fn damaged_inputs(cases: &mut Vec<Case>, random: &mut Random) {
    let right = text_of(&mixed());
    for number in 0..40 {
        let mut text = right.clone();
        for _ in 0..random.within(1, 3) {
            let place = random.place(text.len());
            text[place] = *random.pick(b"0123456789-=\nABz");
        }
        cases.case(format!("page: damaged {number}"), program(text));
    }
}
