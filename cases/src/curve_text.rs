//! Cases of reading and of writing a curve text.

use crate::texts::*;
use crate::{Case, Input, Random, Text};
use reference::{write_curves, CurveSet, GROUPS, WRITTEN_LIMIT};

/// The most bytes of a curve text that is read.
pub const READ_LIMIT: usize = 4096;

pub fn add(cases: &mut Vec<Case>, random: &mut Random) {
    damaged_texts(cases);
    read_bounds(cases);
    lengths(cases);
    written(cases);
    impossible(cases);
    random_sets(cases, random);
}

pub fn curve_lines(curves: &CurveSet) -> Lines {
    let mut lines = vec![
        format!("voll={}", curves.voll),
        format!("floor={}", curves.floor),
    ];
    for (mu, sigma) in curves.pairs {
        lines.push(format!("mu={mu}"));
        lines.push(format!("sigma={sigma}"));
    }
    lines
}

/// What each line may hold.
pub fn due(at: usize) -> Due {
    match at {
        1 => Due::Number(0, 2_000_000),
        2 => Due::Number(0, 20_000_000),
        _ if at % 2 == 1 => Due::Number(-20_000_000, 20_000_000),
        _ => Due::Number(1, 20_000_000),
    }
}

fn read(text: impl Into<Text>) -> Input {
    Input::Read { text: text.into() }
}

/// The curve sets with the shortest and the longest text.
pub fn shortest() -> CurveSet {
    curves_of(0, 0, 0, 1)
}

pub fn longest() -> CurveSet {
    curves_of(2_000_000, 20_000_000, -20_000_000, 20_000_000)
}

fn damaged_texts(cases: &mut Vec<Case>) {
    let lines = curve_lines(&shortest());
    for at in 1..=lines.len() {
        for (label, text) in damages(&lines, at, due(at)) {
            cases.case(label, read(text));
        }
    }
    cases.case("no byte at all", read(""));
    for more in ["\n", "x", "mu=0\n", "voll=0\n", "\0"] {
        let text = Text::from(bytes(&lines)).then(1, more);
        cases.case(format!("bytes {more:?} follow"), read(text));
    }
}

fn read_bounds(cases: &mut Vec<Case>) {
    let lines = curve_lines(&curves_of(900_000, 2_000_000, 5, 1000));
    for at in [1, 2, 3, 4, 25, 26, 49, 50] {
        let Due::Number(low, high) = due(at) else {
            continue;
        };
        for value in [low, low + 1, 7, high - 1, high] {
            let text = bytes(&with_value(&lines, at, &value.to_string()));
            cases.case(format!("line {at} at {value}"), read(text));
        }
        for number in [
            "20000001",
            "200000000",
            "9223372036854775808",
            "18446744073709551617",
        ] {
            for sign in ["", "-"] {
                let text = bytes(&with_value(&lines, at, &format!("{sign}{number}")));
                cases.case(format!("line {at} at {sign}{number}"), read(text));
            }
        }
    }
    for curves in [shortest(), longest()] {
        cases.case("every value at a bound", read(bytes(&curve_lines(&curves))));
    }
}

fn lengths(cases: &mut Vec<Case>) {
    let text = bytes(&curve_lines(&shortest()));
    let room = READ_LIMIT - text.len();
    for (name, length) in [
        ("at", room),
        ("one over", room + 1),
        ("far over", 99 * room),
    ] {
        let text = Text::from(text.clone()).then(length, "x");
        cases.case(
            format!("a curve text {name} its limit of bytes"),
            read(text),
        );
    }
    for (name, length) in [("at", READ_LIMIT), ("one over", READ_LIMIT + 1)] {
        for byte in ["v", "\n"] {
            let text = Text::default().then(length, byte);
            cases.case(format!("bytes {byte:?} {name} the limit"), read(text));
        }
    }
    // A number may be as long as the text allows, and is only out of range.
    let head = Text::from("voll=");
    for digits in [30, 4000] {
        let text = head.clone().then(digits, "9").then(1, "\n");
        cases.case(format!("a number of {digits} digits"), read(text));
    }
}

fn text_length(curves: &CurveSet) -> usize {
    let mut buffer = [0; WRITTEN_LIMIT];
    write_curves(curves, &mut buffer).expect("the set is possible and the buffer long")
}

/// A curve set whose pairs have numbers of every length.
pub fn mixed() -> CurveSet {
    let mut pairs = [(0, 1); GROUPS];
    for (place, pair) in pairs.iter_mut().enumerate() {
        let size = 10_i64.pow(place as u32 % 8);
        *pair = (if place % 2 == 0 { size } else { -size }, size + 9);
    }
    CurveSet {
        voll: 900_000,
        floor: 2_000_000,
        pairs,
    }
}

fn written(cases: &mut Vec<Case>) {
    for (name, curves) in [
        ("shortest", shortest()),
        ("longest", longest()),
        ("mixed", mixed()),
    ] {
        let fits = text_length(&curves);
        for length in [
            0,
            1,
            2,
            12,
            fits - 2,
            fits - 1,
            fits,
            fits + 1,
            fits + 2,
            699,
            700,
            701,
            1024,
        ] {
            let label = format!("{name} text, buffer of {length}");
            cases.case(label, Input::Write { curves, length });
        }
    }
    for at in [0, 1, 11, 22, 23] {
        for (mu, sigma) in [
            (-20_000_000, 1),
            (20_000_000, 20_000_000),
            (-9, 10),
            (-10, 9),
            (99, 100),
        ] {
            let mut curves = shortest();
            curves.pairs[at] = (mu, sigma);
            let length = text_length(&curves);
            let label = format!("pair {at} is {mu} and {sigma}");
            cases.case(label.clone(), Input::Write { curves, length });
            let length = length - 1;
            cases.case(label + ", short by one", Input::Write { curves, length });
        }
    }
}

/// Curve sets with one number outside its range: by one, and by far.
pub fn impossible_sets() -> Vec<(String, CurveSet)> {
    let good = curves_of(900_000, 2_000_000, 0, 1000);
    let mut sets = Vec::new();
    for voll in [-1, 2_000_001, i64::MAX, -i64::MAX] {
        sets.push((format!("VOLL {voll}"), CurveSet { voll, ..good }));
    }
    for floor in [-1, 20_000_001, i64::MAX, -i64::MAX] {
        sets.push((format!("X {floor}"), CurveSet { floor, ..good }));
    }
    for at in [0, 11, 23] {
        for (mu, sigma) in [
            (-20_000_001, 1),
            (20_000_001, 1),
            (i64::MAX, 1),
            (-i64::MAX, 1),
            (0, 0),
            (0, -1),
            (0, 20_000_001),
            (0, i64::MAX),
            (0, -i64::MAX),
        ] {
            let mut curves = good;
            curves.pairs[at] = (mu, sigma);
            sets.push((format!("pair {at} is {mu} and {sigma}"), curves));
        }
    }
    sets
}

fn impossible(cases: &mut Vec<Case>) {
    for (label, curves) in impossible_sets() {
        let write = |length| Input::Write { curves, length };
        cases.case(label.clone(), write(1024));
        cases.case(format!("1 comes before 14: {label}"), write(0));
        let header = "month=7 hour=14 lambda=0 factor=0 prc=0 eea1=0 short=0 count=0";
        let text = Text::from(bytes(&listing(header)));
        cases.case(label.clone(), Input::Price { curves, text });
        let text = Text::default();
        cases.case(
            format!("1 comes before 3: {label}"),
            Input::Price { curves, text },
        );
    }
}

/// A curve set whose numbers have all lengths.
pub fn random_set(random: &mut Random) -> CurveSet {
    let value = |random: &mut Random, low: i64, high: i64| {
        let most = 10_i64.pow(random.within(1, 8) as u32).min(high);
        random.within(low.max(-most), most)
    };
    CurveSet {
        voll: value(random, 0, 2_000_000),
        floor: value(random, 0, 20_000_000),
        pairs: std::array::from_fn(|_| {
            (
                value(random, -20_000_000, 20_000_000),
                value(random, 1, 20_000_000),
            )
        }),
    }
}

fn random_sets(cases: &mut Vec<Case>, random: &mut Random) {
    for number in 0..60 {
        let curves = random_set(random);
        let lines = curve_lines(&curves);
        cases.case(format!("random set {number}"), read(bytes(&lines)));
        let length = text_length(&curves);
        let length = (length as i64 + random.within(-2, 2)) as usize;
        cases.case(
            format!("random set {number}"),
            Input::Write { curves, length },
        );
    }
}
