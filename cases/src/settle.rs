//! Cases of settling a record.

use crate::book::random_group;
use crate::texts::*;
use crate::{Case, Input, Random};
use reference::{settle, Group, Record, GROUPS};

fn settled(record: Record) -> Input {
    Input::Settle {
        record,
        voll: 900_000,
        floor: 2_000_000,
    }
}

/// Two hours whose mean is 0 and whose mean square is `variance`.
fn of_variance(variance: i64) -> Group {
    Group {
        count: 2,
        sum: 0,
        squares: 2 * variance,
    }
}

pub fn add(cases: &mut Vec<Case>, random: &mut Random) {
    ranges(cases);
    roots(cases);
    means(cases);
    faulty_groups(cases);
    random_records(cases, random);
}

fn ranges(cases: &mut Vec<Case>) {
    let good = record_of(group(&[-1, 2]));
    for voll in [-1, 0, 1, 2_000_000, 2_000_001, i64::MAX, -i64::MAX] {
        for floor in [-1, 0, 20_000_000, 20_000_001, i64::MAX, -i64::MAX] {
            let input = |record| Input::Settle {
                record,
                voll,
                floor,
            };
            cases.case(format!("VOLL {voll}, X {floor}"), input(good));
            if !(0..=2_000_000).contains(&voll) {
                let label = format!("7 comes before 12: VOLL {voll}, X {floor}");
                cases.case(label, input(Record::fresh()));
            }
        }
    }
    for (label, group) in impossible_groups() {
        for place in [0, 11, 23] {
            let record = with_group(good, place, group);
            cases.case(format!("group {place}: {label}"), settled(record));
        }
    }
    let impossible = with_group(
        Record::fresh(),
        23,
        Group {
            count: 1001,
            sum: 0,
            squares: 0,
        },
    );
    cases.case("1 comes before 12", settled(impossible));
    let input = Input::Settle {
        record: impossible,
        voll: -1,
        floor: -1,
    };
    cases.case("1 comes before 7", input);
}

/// Roots at, just below and just above a square, and about every power of 2.
fn roots(cases: &mut Vec<Case>) {
    let most = 400_000_000_000_000_i64;
    for root in [
        1, 2, 3, 4, 7, 8, 10, 255, 256, 1000, 46_340, 46_341, 65_535, 65_536, 1_000_000,
        14_142_135, 16_777_216, 19_999_999, 20_000_000,
    ] {
        let square = root * root;
        for variance in [square - 1, square, square + 1, square + 2 * root] {
            if (0..=most).contains(&variance) {
                let label = format!("mean square {variance}");
                cases.case(label, settled(record_of(of_variance(variance))));
            }
        }
    }
    // 24 values in a case, one for each group.
    let powers: Vec<i64> = (0..49)
        .flat_map(|power| [(1 << power) - 1, 1 << power, (1 << power) + 1])
        .filter(|&variance| (1..=most).contains(&variance))
        .collect();
    for (number, chunk) in powers.chunks(GROUPS).enumerate() {
        let groups = std::array::from_fn(|place| of_variance(chunk[place % chunk.len()]));
        let label = format!("mean squares about powers of 2, part {number}");
        cases.case(label, settled(Record { groups }));
    }
    // A remainder of the mean square is dropped, and so is one of the root.
    for squares in 1..=20 {
        let group = Group {
            count: 3,
            sum: 0,
            squares,
        };
        cases.case(
            format!("three hours, squares {squares}"),
            settled(record_of(group)),
        );
    }
}

/// Means rounded down, at and between whole numbers.
fn means(cases: &mut Vec<Case>) {
    for errors in [
        &[-1, 2][..],
        &[-1, 0],
        &[1, 0],
        &[-2, 1],
        &[5, 8],
        &[-5, -8],
        &[1, 2, 4],
        &[-1, -2, -4],
        &[20_000_000, -20_000_000],
        &[20_000_000, 19_999_998],
        &[-20_000_000, -19_999_998],
        &[20_000_000, 20_000_000, -20_000_000],
        &[0, 0, 0, 0, 0, 0, 100],
        &[0, 0, 0, 0, 0, 0, -100],
    ] {
        let label = format!("errors {errors:?} in every group");
        cases.case(label, settled(record_of(group(errors))));
    }
    for sum in [-1000, -999, -501, -500, -1, 0, 1, 499, 500, 999, 1000] {
        let group = Group {
            count: 1000,
            sum,
            squares: 1_000_000,
        };
        cases.case(format!("1000 hours, sum {sum}"), settled(record_of(group)));
    }
    for (sum, squares) in [
        (0, 1),
        (1, 1),
        (-1, 1),
        (20_000_000_000, 4),
        (-20_000_000_000, 4),
    ] {
        let group = Group {
            count: 1000,
            sum,
            squares: squares * 100_000_000_000_000_000,
        };
        let label = format!("1000 hours, sum {sum}, squares {}", group.squares);
        cases.case(label, settled(record_of(group)));
    }
}

fn faulty_groups(cases: &mut Vec<Case>) {
    let good = record_of(group(&[-1, 2]));
    let lone = group(&[5]);
    let flat = group(&[5, 5]);
    let none = Group::default();
    let nearly_flat = group(&[-1, 0]);
    cases.case("a fresh record", settled(Record::fresh()));
    for (name, faulty) in [
        ("no hour", none),
        ("one hour", lone),
        ("equal errors", flat),
        ("errors -1 and 0", nearly_flat),
        ("1000 equal errors", group(&[7; 1000])),
    ] {
        for place in [0, 1, 5, 11, 22, 23] {
            let record = with_group(good, place, faulty);
            cases.case(format!("group {place}: {name}"), settled(record));
        }
        cases.case(format!("all groups: {name}"), settled(record_of(faulty)));
    }
    for (first, second) in [(lone, flat), (flat, lone), (none, flat), (flat, none)] {
        for (at, then) in [(0, 1), (3, 20), (22, 23)] {
            let record = with_group(with_group(good, at, first), then, second);
            cases.case(
                format!("groups {at} and {then} are faulty"),
                settled(record),
            );
        }
    }
}

fn random_records(cases: &mut Vec<Case>, random: &mut Random) {
    for number in 0..100 {
        let largest = *random.pick(&[5, 1000, 1000, 100_000, 100_000, 20_000_000]);
        // Most groups settle; a flat or lone one is let through now and then.
        let mut good = || loop {
            let group = random_group(random, largest);
            if settle(&record_of(group), 0, 0).is_ok() || random.one_in(100) {
                return group;
            }
        };
        let record = Record {
            groups: std::array::from_fn(|_| good()),
        };
        let input = Input::Settle {
            record,
            voll: random.within(0, 2_000_000),
            floor: random.within(0, 20_000_000),
        };
        cases.case(format!("random record {number}"), input);
    }
}
