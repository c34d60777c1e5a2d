//! The cases of the length of a curve text: which sets they ask for, and that
//! the length is the one of the text that is written.

use cases::{all_cases, answer, buffer, curve_numbers, Answer, Case, Input};
use reference::{write_curves, CurveSet, Refusal};
use std::collections::BTreeSet;

/// The sets that are asked for, each with its case.
fn asked(cases: &[Case]) -> impl Iterator<Item = (&Case, CurveSet)> {
    cases.iter().filter_map(|case| match case.input {
        Input::CurvesLength { curves } => Some((case, curves)),
        _ => None,
    })
}

#[test]
fn every_stored_set_is_asked_for_once() {
    let cases = all_cases(1);
    let once: Vec<Vec<i64>> = asked(&cases)
        .map(|(_, curves)| curve_numbers(&curves))
        .collect();
    let sets: BTreeSet<&Vec<i64>> = once.iter().collect();
    assert_eq!(sets.len(), once.len());
    for case in &cases {
        let numbers = match &case.input {
            Input::Write { curves, .. }
            | Input::WritePage { curves, .. }
            | Input::Price { curves, .. } => curve_numbers(curves),
            // What is lent is a curve set where it is accepted.
            Input::Settle { .. } | Input::Read { .. } => match answer(&case.input) {
                Answer::Accepted(numbers) => numbers,
                _ => continue,
            },
            _ => continue,
        };
        assert!(sets.contains(&numbers), "{}", case.label);
    }
}

/// The cases of the length stand together after those before them, and the cases
/// with marks after all: so that cases keep their places.
#[test]
fn the_length_is_asked_for_in_one_place() {
    let cases = all_cases(1);
    let length = |case: &Case| case.input.letter() == 'L';
    let first = cases.iter().position(length).unwrap();
    let count = asked(&cases).count();
    assert!(cases[first..][..count].iter().all(length));
    let mark = |case: &Case| case.label.contains("mark");
    let marked = cases.iter().skip(first + count).filter(|case| mark(case));
    assert!(marked.count() > 7000);
}

#[test]
fn the_text_has_the_length_that_was_told() {
    let short = Refusal {
        number: 14,
        line: 0,
    };
    let cases = all_cases(1);
    let mut lengths = BTreeSet::new();
    for (case, curves) in asked(&cases) {
        match answer(&case.input) {
            Answer::Accepted(told) => {
                let length = told[0] as usize;
                let mut fits = buffer(length);
                assert_eq!(
                    write_curves(&curves, &mut fits),
                    Ok(length),
                    "{}",
                    case.label
                );
                assert_eq!(fits.last(), Some(&b'\n'), "{}", case.label);
                let mut less = buffer(length - 1);
                assert_eq!(
                    write_curves(&curves, &mut less),
                    Err(short),
                    "{}",
                    case.label
                );
                assert_eq!(less, buffer(length - 1), "{}", case.label);
                lengths.insert(length);
            }
            refused => {
                assert_eq!(refused.line(), "refused 1 line 0 7", "{}", case.label);
                let written = write_curves(&curves, &mut buffer(1024));
                assert_eq!(written.unwrap_err().number, 1, "{}", case.label);
            }
        }
    }
    assert_eq!(lengths.first(), Some(&327));
    assert_eq!(lengths.last(), Some(&700));
    assert!(lengths.len() > 150, "{lengths:?}");
}

/// The least and the greatest number of every number of digits, up to the end
/// of each range.
#[test]
fn numbers_have_every_number_of_digits() {
    let cases = all_cases(1);
    let mut found = BTreeSet::new();
    for (case, curves) in asked(&cases) {
        if matches!(answer(&case.input), Answer::Accepted(_)) {
            found.extend((0..).zip(curve_numbers(&curves)));
        }
    }
    let sizes: Vec<i64> = (1..8)
        .flat_map(|digits| [10_i64.pow(digits) - 1, 10_i64.pow(digits)])
        .collect();
    for place in [0, 1, 2, 3, 24, 25, 48, 49] {
        let most = if place == 0 { 2_000_000 } else { 20_000_000 };
        for &size in sizes.iter().filter(|&&size| size <= most) {
            assert!(found.contains(&(place, size)), "{place} at {size}");
            let mean = place > 1 && place % 2 == 0;
            assert_eq!(found.contains(&(place, -size)), mean, "{place} at -{size}");
        }
    }
    for place in 0..50 {
        let (low, high) = match place {
            0 => (0, 2_000_000),
            1 => (0, 20_000_000),
            _ if place % 2 == 0 => (-20_000_000, 20_000_000),
            _ => (1, 20_000_000),
        };
        for bound in [low, high] {
            assert!(found.contains(&(place, bound)), "{place} at {bound}");
        }
    }
}

#[test]
fn known_lengths() {
    let cases = all_cases(1);
    let line = |label: &str| {
        let case = cases.iter().find(|case| case.label == label);
        answer(&case.unwrap_or_else(|| panic!("{label}")).input).line()
    };
    // With one digit on every line there are 327 bytes.
    for (label, length) in [
        ("length, line 1 at 9", 327),
        ("length, line 1 at 10", 328),
        ("length, line 2 at 99", 328),
        ("length, line 2 at 100", 329),
        ("length, line 3 at -9", 328),
        ("length, line 25 at -10", 329),
        ("length, line 49 at -9999999", 334),
        ("length, line 49 at -10000000", 335),
        ("length, line 50 at 20000000", 334),
        ("length, every line that can be at 10", 377),
        ("length, every line that can be at -10", 375),
        ("length, the lines 1 to 3 at their longest", 348),
        ("length, the lines 1 to 49 at their longest", 693),
    ] {
        assert_eq!(line(label), format!("accepted {length}"), "{label}");
    }
    for label in [
        "length, line 1 at 2000001",
        "length, line 2 at -1",
        "length, line 3 at -20000001",
        "length, line 26 at 0",
        "length, line 50 at 20000001",
        "length, line 49 at -9223372036854775808",
    ] {
        assert_eq!(line(label), "refused 1 line 0 7", "{label}");
    }
}
