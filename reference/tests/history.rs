//! Booking and settling.

mod common;
use common::*;
use reference::{book, group_of, settle, Group, Record, GROUPS};

fn booked(text: &str) -> Result<Record, reference::Refusal> {
    book(&Record::fresh(), text.as_bytes())
}

/// An hour in which every field tells: HA = 10000 - 2000 + 30 + 1 + 2 + 3 + 4
/// + 5 + 6, SCED = 1000 - 100 + 1 + 2 + 3 + 4 + 5 + 6 - 20 and one run of -1.
fn full_hour() -> String {
    text(
        "month=7 hour=14
         ongen=10000 load=2000 tie=-30 ns=1 reg=2 rrs=3 nclr=4 offns=5 cold30=6 shed=70 runs=2
         hsl=1000 base=100 rrs=1 nclr=2 reg=3 ns=4 offns=5 cold30=6 short=20
         hsl=0 base=0 rrs=0 nclr=0 reg=0 ns=0 offns=0 cold30=0 short=2",
    )
}

#[test]
fn groups_are_seasons_of_blocks() {
    assert_eq!(group_of(12, 0), 0);
    assert_eq!(group_of(1, 1), 0);
    assert_eq!(group_of(1, 3), 1);
    assert_eq!(group_of(2, 4), 1);
    assert_eq!(group_of(3, 0), 6);
    assert_eq!(group_of(5, 21), 11);
    assert_eq!(group_of(5, 23), 6);
    assert_eq!(group_of(7, 14), 16);
    assert_eq!(group_of(8, 8), 14);
    assert_eq!(group_of(9, 0), 18);
    assert_eq!(group_of(11, 21), 23);
    assert_eq!(group_of(11, 23), 18);
}

#[test]
fn every_field_of_an_hour_counts() {
    let ha = 10_000 - 2000 + 30 + 1 + 2 + 3 + 4 + 5 + 6;
    let sced = 1000 - 100 + 1 + 2 + 3 + 4 + 5 + 6 - 20;
    let error = ha - (sced - 2_i64).div_euclid(2) + 70;
    let mut expected = Record::fresh();
    expected.groups[16] = Group {
        count: 1,
        sum: error,
        squares: error * error,
    };
    assert_eq!(booked(&full_hour()), Ok(expected));
}

/// The hour of docs/FORMAT.md.
#[test]
fn example_of_three_runs() {
    let error = 1_837_334;
    let mut expected = Record::fresh();
    expected.groups[16] = Group {
        count: 1,
        sum: error,
        squares: error * error,
    };
    let text = include_str!("../../bindings/python/examples/hour.txt");
    assert_eq!(booked(text), Ok(expected));
}

#[test]
fn the_mean_of_the_runs_goes_down() {
    // SCED sums to -1 over two runs: the mean is -1, not 0.
    let hour = text(
        "month=1 hour=0
         ongen=0 load=0 tie=0 ns=0 reg=0 rrs=0 nclr=0 offns=0 cold30=0 shed=0 runs=2
         hsl=0 base=1 rrs=0 nclr=0 reg=0 ns=0 offns=0 cold30=0 short=0
         hsl=0 base=0 rrs=0 nclr=0 reg=0 ns=0 offns=0 cold30=0 short=0",
    );
    let record = booked(&hour).unwrap();
    assert_eq!(record.groups[0].sum, 1);
}

#[test]
fn only_the_hours_own_group_changes() {
    let before = record_of_errors(&[3, -4]);
    let after = book(&before, hour_with_error(9, 1, -7).as_bytes()).unwrap();
    for group in 0..GROUPS {
        let mut expected = before.groups[group];
        if group == 18 {
            expected = Group {
                count: 3,
                sum: -8,
                squares: 9 + 16 + 49,
            };
        }
        assert_eq!(after.groups[group], expected);
    }
}

#[test]
fn refusal_1_of_records() {
    let hour = hour_with_error(1, 0, 0);
    let impossible = [
        (1001, 0, 0),
        (u64::MAX, 0, 0),
        (u64::MAX, i64::MAX, i64::MAX),
        (0, 1, 0),
        (0, -1, 0),
        (0, 0, 1),
        (0, 0, -1),
        (1, 20_000_001, 400_000_000_000_000),
        (1, -20_000_001, 400_000_000_000_000),
        (1, 0, 400_000_000_000_001),
        (2, 0, -1),
        (2, i64::MIN, 0),
        (2, i64::MAX, 0),
        (2, 0, i64::MIN),
        (2, 0, i64::MAX),
        // V is below 0: two errors of sum 10 have squares of 50 at least.
        (2, 10, 49),
        // V about mu = 0 is 0, but about 1 it is -1.
        (3, 2, 0),
    ];
    for (count, sum, squares) in impossible {
        let record = record_of_group(count, sum, squares);
        let context = format!("{count} {sum} {squares}");
        assert_eq!(book(&record, hour.as_bytes()), refusal(1, 0), "{context}");
        assert_eq!(settle(&record, 0, 0), refusal(1, 0), "{context}");
    }
    let possible = [
        (0, 0, 0),
        (1, 20_000_000, 400_000_000_000_000),
        (1, -20_000_000, 400_000_000_000_000),
        (1000, 0, 400_000_000_000_000_000),
        (1000, -20_000_000_000, 400_000_000_000_000_000),
        (2, 10, 50),
        (3, 2, 2),
        // No errors give this, but none of the rules is broken.
        (3, 2, 1),
    ];
    for (count, sum, squares) in possible {
        let record = record_of_group(count, sum, squares);
        let context = format!("{count} {sum} {squares}");
        assert!(book(&record, hour.as_bytes()).is_ok(), "{context}");
        assert_eq!(settle(&record, 0, 0), refusal(12, 0), "{context}");
    }
}

#[test]
fn refusal_1_comes_before_2() {
    let record = record_of_group(1001, 0, 0);
    assert_eq!(book(&record, &[b'x'; 70_000]), refusal(1, 0));
    assert_eq!(settle(&record, -1, 0), refusal(1, 0));
}

#[test]
fn refusal_2_of_hours() {
    assert_eq!(booked(&"x".repeat(65_537)), refusal(2, 0));
    assert_eq!(booked(&"x".repeat(65_536)), refusal(3, 1));
    // An accepted hour with too many bytes behind it.
    let long = full_hour() + &"\n".repeat(65_537);
    assert_eq!(booked(&long), refusal(2, 0));
}

#[test]
fn refusal_3_of_hours() {
    let hour = full_hour();
    let count = hour.lines().count();
    assert_eq!(count, 13 + 2 * 9);
    for line in 0..count {
        let cut = first_lines(&hour, line);
        assert_eq!(booked(&cut), refusal(3, line as u64 + 1));
        let mut unended = first_lines(&hour, line + 1);
        unended.pop();
        assert_eq!(booked(&unended), refusal(3, line as u64 + 1));
    }
}

#[test]
fn refusals_4_to_6_of_each_line_of_an_hour() {
    let hour = full_hour();
    for (index, line) in hour.lines().enumerate() {
        let place = index + 1;
        let refused = |new: &str| booked(&with_line_at(&hour, place, new));
        let (key, value) = line.split_once('=').unwrap();
        assert_eq!(refused(""), refusal(4, place as u64));
        assert_eq!(refused(key), refusal(4, place as u64));
        assert_eq!(refused(&format!("x{line}")), refusal(4, place as u64));
        assert_eq!(refused(&format!("{key}=")), refusal(5, place as u64));
        assert_eq!(refused(&format!("{key}=-")), refusal(6, place as u64));
        assert_eq!(refused(&format!("{key}=-0")), refusal(6, place as u64));
        assert_eq!(
            refused(&format!("{key}=+{value}")),
            refusal(6, place as u64)
        );
        assert_eq!(
            refused(&format!("{key}=0{value}")),
            refusal(6, place as u64)
        );
        assert_eq!(refused(&format!("{line}\r")), refusal(6, place as u64));
    }
}

#[test]
fn refusal_7_of_each_line_of_an_hour() {
    let hour = full_hour();
    for (index, line) in hour.lines().enumerate() {
        let place = index + 1;
        let (key, _) = line.split_once('=').unwrap();
        let (low, high) = match key {
            "month" => (1, 12),
            "hour" => (0, 23),
            "tie" => (-20_000_000, 20_000_000),
            "runs" => (1, 60),
            _ => (0, 100_000_000),
        };
        let answer = |value: &str| booked(&with_line_at(&hour, place, &format!("{key}={value}")));
        let out = refusal(7, place as u64);
        assert_eq!(answer(&(low - 1).to_string()), out);
        assert_eq!(answer(&(high + 1).to_string()), out);
        assert_eq!(answer("999999999999999999999999999999"), out);
        assert_eq!(answer("-999999999999999999999999999999"), out);
        assert_ne!(answer(&low.to_string()), out);
        assert_ne!(answer(&high.to_string()), out);
    }
}

#[test]
fn refusal_9_of_hours() {
    let hour = full_hour();
    assert_eq!(booked(&format!("{hour}\n")), refusal(9, 32));
    assert_eq!(booked(&format!("{hour}x")), refusal(9, 32));
    // A run more than told.
    let more = with_line(&hour, "runs=2", "runs=1");
    assert_eq!(booked(&more), refusal(9, 23));
}

#[test]
fn refusal_10_comes_after_9_and_before_11() {
    let mut record = Record::fresh();
    let hour = hour_with_error(1, 0, 5);
    for _ in 0..1000 {
        record = book(&record, hour.as_bytes()).unwrap();
    }
    assert_eq!(record.groups[0].count, 1000);
    assert_eq!(book(&record, hour.as_bytes()), refusal(10, 0));
    let more = format!("{hour}x");
    assert_eq!(book(&record, more.as_bytes()), refusal(9, 23));
    let too_far = with_line(&hour, "ongen=0", "ongen=100000000");
    assert_eq!(book(&record, too_far.as_bytes()), refusal(10, 0));
    // Another group still has room.
    let other = hour_with_error(1, 4, 5);
    assert!(book(&record, other.as_bytes()).is_ok());
}

#[test]
fn refusal_11_beyond_twenty_gigawatts() {
    for sign in [1, -1] {
        let at_limit = hour_with_error(1, 0, sign * 20_000_000);
        assert_eq!(booked(&at_limit).unwrap().groups[0].sum, sign * 20_000_000);
    }
    let above = with_line(&hour_with_error(1, 0, 20_000_000), "shed=0", "shed=1");
    assert_eq!(booked(&above), refusal(11, 0));
    let below = with_line(&hour_with_error(1, 0, -20_000_000), "load=0", "load=1");
    assert_eq!(booked(&below), refusal(11, 0));
}

#[test]
fn known_settlings() {
    let curves = settle(&record_of_errors(&[-1, 2]), 900_000, 2_000_000).unwrap();
    assert_eq!(curves.voll, 900_000);
    assert_eq!(curves.floor, 2_000_000);
    assert_eq!(curves.pairs, [(0, 1); GROUPS]);
    assert_eq!(settle(&record_of_errors(&[-1, 0]), 0, 0), refusal(13, 0));
}

#[test]
fn mu_and_sigma_go_down() {
    let curves = settle(&record_of_errors(&[-3, -3, -3, 5]), 0, 0).unwrap();
    // Mean -1, deviations 2, 2, 2 and 6: 48 / 4 = 12.
    assert_eq!(curves.pairs[0], (-1, 3));
    let curves = settle(&record_of_errors(&[-4, 1]), 0, 0).unwrap();
    // Mean -1.5, so mu is -2 and V is 4 + 9 = 13; 13 / 2 = 6.
    assert_eq!(curves.pairs[0], (-2, 2));
}

#[test]
fn settling_at_the_extremes() {
    let curves = settle(&record_of_errors(&[20_000_000, -20_000_000]), 0, 0).unwrap();
    assert_eq!(curves.pairs, [(0, 20_000_000); GROUPS]);
}

#[test]
fn refusal_7_of_voll_and_x_at_settling() {
    let record = record_of_errors(&[-1, 2]);
    for (voll, x) in [
        (-1, 0),
        (2_000_001, 0),
        (0, -1),
        (0, 20_000_001),
        (i64::MAX, i64::MIN),
    ] {
        assert_eq!(settle(&record, voll, x), refusal(7, 0));
        // 7 comes before the groups.
        assert_eq!(settle(&Record::fresh(), voll, x), refusal(7, 0));
    }
    assert!(settle(&record, 2_000_000, 20_000_000).is_ok());
    assert!(settle(&record, 0, 0).is_ok());
}

#[test]
fn refusals_12_and_13_name_the_first_faulty_group() {
    let good = record_of_errors(&[-1, 2]);
    let one_hour = record_of_errors(&[7]).groups[0];
    let flat = record_of_errors(&[7, 7]).groups[0];
    let with = |changes: &[(usize, Group)]| {
        let mut record = good;
        for &(index, group) in changes {
            record.groups[index] = group;
        }
        settle(&record, 0, 0)
    };
    assert_eq!(settle(&Record::fresh(), 0, 0), refusal(12, 0));
    assert_eq!(with(&[(23, Group::default())]), refusal(12, 23));
    // One hour has no spread either, but 12 comes first.
    assert_eq!(with(&[(4, one_hour)]), refusal(12, 4));
    assert_eq!(with(&[(4, flat)]), refusal(13, 4));
    assert_eq!(with(&[(4, flat), (5, one_hour)]), refusal(13, 4));
    assert_eq!(with(&[(4, one_hour), (3, flat)]), refusal(13, 3));
    assert_eq!(with(&[(4, flat), (3, one_hour)]), refusal(12, 3));
}
