//! Cases of the programs `curves` and `price`: what each prints of an input.

use crate::book::{hour_lines, hour_with_error};
use crate::curve_text::curve_lines;
use crate::price::{example, generator, nclr, snapshot, HEADER};
use crate::texts::*;
use crate::{Case, Input, Random, Text};

/// The most bytes of an hour, of a line with a setting, and of `price`'s input.
const LIMIT: usize = 65_536;

pub fn add(cases: &mut Vec<Case>, random: &mut Random) {
    histories(cases, random);
    settings(cases);
    hours(cases);
    long_hours(cases);
    full_groups(cases);
    priced(cases);
    damaged(cases, random);
}

/// The whole input in one part.
pub fn fed(text: impl Into<Text>) -> Input {
    fed_in_two(text, 0)
}

/// The input in two parts, of which the first has so many bytes.
fn fed_in_two(text: impl Into<Text>, first: usize) -> Input {
    Input::CurvesProgram {
        text: text.into(),
        first,
    }
}

pub const SETTINGS: &str = "voll=900000\nfloor=2000000\n";

/// The settings, then hours with an empty line between.
fn history(hours: &[Vec<u8>]) -> Vec<u8> {
    [SETTINGS.as_bytes(), &hours.join(&b'\n')].concat()
}

/// An hour of July from 2 to 3 in the afternoon.
pub fn one_hour() -> Vec<u8> {
    bytes(&hour_with_error(7))
}

/// An hour of this group, its first month and the third hour of its block.
fn hour_in(group: usize, random: &mut Random) -> Vec<u8> {
    let mut head: [i64; 12] = std::array::from_fn(|_| random.within(0, 99));
    head[0] = [12, 3, 6, 9][group / 6];
    head[1] = 4 * (group % 6) as i64;
    let runs: Vec<[i64; 9]> = (0..random.within(1, 2))
        .map(|_| std::array::from_fn(|_| random.within(0, 99)))
        .collect();
    bytes(&hour_lines(head, &runs))
}

/// Three hours in each group: whole, cut off, and in two parts.
fn histories(cases: &mut Vec<Case>, random: &mut Random) {
    let mut hours: Vec<Vec<u8>> = (0..72).map(|place| hour_in(place % 24, random)).collect();
    let all = history(&hours);
    cases.case("curves: three hours in each group", fed(&all[..]));
    let ended = [&all[..], b"\n"].concat();
    cases.case("curves: an empty line at the end", fed(&ended[..]));
    let begun = SETTINGS.len() + hours[0].len() + 40;
    for first in (1..begun).step_by(3).chain((begun..all.len()).step_by(997)) {
        let label = format!("curves: a first part of {first} bytes");
        cases.case(label, fed_in_two(&all[..], first));
    }
    for end in (0..begun).chain((begun..all.len()).step_by(97)) {
        cases.case(format!("curves: cut at byte {end}"), fed(&all[..end]));
    }
    hours[50] = bytes(&hour_with_error(20_000_001));
    let label = "curves: an error beyond its bounds in hour 51";
    cases.case(label, fed(history(&hours)));
}

fn settings(cases: &mut Vec<Case>) {
    let hour = String::from_utf8(one_hour()).expect("an hour has ASCII alone");
    for lines in [
        "",
        "\n",
        "voll",
        "voll=",
        "voll=\n",
        "voll=x\n",
        "voll=01\n",
        "voll=-1\n",
        "voll=2000001\n",
        "floor=1\n",
        "voll=1\n",
        "voll=1\n\n",
        "voll=1\nfloor",
        "voll=1\nfloor=\n",
        "voll=1\nfloor=-0\n",
        "voll=1\nfloor=-1\n",
        "voll=2000000\nfloor=20000001\n",
        "voll=2000000\nvoll=1\n",
    ] {
        let label = format!("curves: {lines:?} alone");
        cases.case(label, fed(lines));
        let label = format!("curves: {lines:?} and an hour");
        cases.case(label, fed(format!("{lines}{hour}")));
    }
    let voll = Text::from("voll=");
    let floor = Text::from("voll=1\nfloor=");
    for (line, end) in [(&voll, "\nfloor=1\n"), (&voll, ""), (&floor, "")] {
        for length in [LIMIT - 1, LIMIT, LIMIT + 1] {
            for first in [0, 1, LIMIT - 1, LIMIT] {
                let label = format!("curves: a line of {length} bytes and {end:?}, {first} first");
                let text = line.clone().then(length - 6, "1").then(1, end);
                cases.case(label, fed_in_two(text, first));
            }
        }
    }
}

fn hours(cases: &mut Vec<Case>) {
    let hour = one_hour();
    let lines = hour_with_error(7);
    cases.case("curves: no hours", fed(SETTINGS));
    for (label, between) in [
        ("one empty line", "\n"),
        ("no empty line", ""),
        ("two empty lines", "\n\n"),
    ] {
        let text = Text::from(SETTINGS)
            .then(1, hour.clone())
            .then(1, between)
            .then(1, hour.clone());
        cases.case(format!("curves: {label} between hours"), fed(text));
        let text = Text::from(SETTINGS).then(1, between).then(1, hour.clone());
        cases.case(format!("curves: {label} before an hour"), fed(text));
        let text = Text::from(SETTINGS).then(1, hour.clone()).then(1, between);
        cases.case(format!("curves: {label} after an hour"), fed(text));
    }
    for at in [1, 13, 22] {
        for (label, text) in damages(&lines, at, Due::Number(0, 100_000_000)) {
            let label = format!("curves: second hour, {label}");
            cases.case(label, fed(history(&[hour.clone(), text])));
        }
    }
}

/// Hours at their most bytes and one above, in one line and in many.
fn long_hours(cases: &mut Vec<Case>) {
    let lengths = [LIMIT - 1, LIMIT, LIMIT + 1];
    let line = [b"x".repeat(63), vec![b'\n']].concat();
    for length in lengths {
        let text = Text::from(SETTINGS).then(length, "x");
        for first in [0, SETTINGS.len() + LIMIT] {
            let label = format!("curves: a last hour of {length} bytes, {first} first");
            cases.case(label, fed_in_two(text.clone(), first));
        }
    }
    for length in lengths {
        let text = Text::from(SETTINGS)
            .then(length, "x")
            .then(1, "\n\nmonth=1\n");
        cases.case(
            format!("curves: an hour of {length} bytes in one line"),
            fed(text),
        );
    }
    for length in lengths {
        let text = Text::from(SETTINGS).then(length / 64, line.clone());
        let text = text.then(length % 64, "y").then(1, "\n\n");
        cases.case(
            format!("curves: an hour of {length} bytes in lines"),
            fed(text),
        );
    }
}

/// A group takes 1000 hours; no spread, so settling is refused as well.
fn full_groups(cases: &mut Vec<Case>) {
    for count in [1, 2, 1000, 1001] {
        let hours = vec![one_hour(); count];
        let label = format!("curves: {count} equal hours in a group");
        cases.case(label, fed(history(&hours)));
    }
    let all: Vec<Vec<u8>> = (0..48)
        .map(|place| {
            let month = [12, 3, 6, 9][place / 12];
            let hour = 4 * (place as i64 / 2 % 6);
            let head = [month, hour, 0, 0, 0, 0, 0, 0, 0, 0, 0, 0];
            bytes(&hour_lines(head, &[[0; 9]]))
        })
        .collect();
    cases.case("curves: two equal hours in each group", fed(history(&all)));
}

pub fn program(text: impl Into<Text>) -> Input {
    Input::PriceProgram { text: text.into() }
}

/// A curve text, an empty line, a snapshot.
fn priced(cases: &mut Vec<Case>) {
    let curves = bytes(&curve_lines(&curves_of(900_000, 2_000_000, 0, 1_000_000)));
    let lines = example();
    let on_curves = |lines: &[String]| [&curves[..], b"\n", &bytes(lines)].concat();
    let whole = on_curves(&lines);
    cases.case("price: the worked example", program(&whole[..]));
    for (at, value) in [
        (3, "900000"),
        (3, "900001"),
        (3, "2000001"),
        (5, "2300000"),
        (8, "2"),
        (8, "4"),
        (14, ""),
        (21, "94999"),
        (27, "A"),
        (28, "wind"),
    ] {
        let text = on_curves(&with_value(&lines, at, value));
        let label = format!("price: the worked example, line {at} made {value:?}");
        cases.case(label, program(text));
    }
    for end in 0..whole.len() {
        cases.case(format!("price: cut at byte {end}"), program(&whole[..end]));
    }
    let ended = [&whole[..], b"\n"].concat();
    cases.case("price: an empty line at the end", program(ended));
    let begun = [b"\n", &whole[..]].concat();
    cases.case("price: an empty line at the start", program(begun));
    let apart = [&curves[..], b"\n\n", &bytes(&lines)].concat();
    cases.case("price: two empty lines", program(apart));
    let load = snapshot(&HEADER, &[nclr("L", 1, 10, 0, 3)]);
    cases.case("price: one load resource", program(on_curves(&load)));
    let long = Text::from(&curves[..]).then(4097 - curves.len(), "x");
    cases.case("price: 4097 bytes of curves", program(long));
    let unit = |place: i64| {
        let hsl = 300_000 + place;
        generator(
            &format!("U{place:04}"),
            "gen",
            "ON",
            [200_000, 100_000, hsl, 200_000, 0, 0],
        )
    };
    let many = on_curves(&snapshot(&HEADER, &(0..600).map(unit).collect::<Vec<_>>()));
    let room = LIMIT - many.len();
    cases.case("price: 600 resources", program(&many[..]));
    for more in [room, room + 1, room + LIMIT] {
        let text = Text::from(&many[..]).then(more, "x");
        let label = format!("price: 600 resources, {more} bytes more");
        cases.case(label, program(text));
    }
}

/// The worked example and a short history with some bytes replaced.
fn damaged(cases: &mut Vec<Case>, random: &mut Random) {
    let curves = bytes(&curve_lines(&curves_of(900_000, 2_000_000, 0, 1_000_000)));
    let example = [&curves[..], b"\n", &bytes(&example())].concat();
    let short = history(&[one_hour(), one_hour()]);
    for number in 0..200 {
        let replace = |mut text: Vec<u8>, random: &mut Random| {
            for _ in 0..random.within(1, 3) {
                let place = random.place(text.len());
                text[place] = *random.pick(b"0123456789-=\nABz");
            }
            text
        };
        let text = replace(example.clone(), random);
        cases.case(format!("price: damaged {number}"), program(text));
        let text = replace(short.clone(), random);
        let first = random.place(text.len());
        cases.case(format!("curves: damaged {number}"), fed_in_two(text, first));
    }
}
