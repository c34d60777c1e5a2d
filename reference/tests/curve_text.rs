//! Reading and writing the curve text.

mod common;
use common::*;
use reference::{
    curves_length, pi_ns, price_snapshot, read_curves, write_curves, CurveSet, Refusal, GROUPS,
    WRITTEN_LEAST, WRITTEN_LIMIT,
};

fn read(text: &str) -> Result<CurveSet, Refusal> {
    read_curves(text.as_bytes())
}

/// Curves in which all values differ.
fn mixed_curves() -> CurveSet {
    CurveSet {
        voll: 1,
        floor: 0,
        pairs: std::array::from_fn(|index| (index as i64 * 1000 - 9000, index as i64 + 1)),
    }
}

/// Curves with the shortest text.
fn shortest_curves() -> CurveSet {
    CurveSet {
        voll: 0,
        floor: 0,
        pairs: [(0, 1); GROUPS],
    }
}

/// Curves with the longest text.
fn longest_curves() -> CurveSet {
    CurveSet {
        voll: 2_000_000,
        floor: 20_000_000,
        pairs: [(-20_000_000, 20_000_000); GROUPS],
    }
}

/// The curves with another pair in this group.
fn with_pair(mut curves: CurveSet, group: usize, pair: (i64, i64)) -> CurveSet {
    curves.pairs[group] = pair;
    curves
}

/// The length told beforehand. The text must have just that length, and so
/// must the shortest buffer that takes it.
fn length_of(curves: &CurveSet) -> usize {
    let length = curves_length(curves).unwrap();
    let mut exact = vec![0xAA; length];
    assert_eq!(write_curves(curves, &mut exact), Ok(length));
    assert_eq!(read_curves(&exact), Ok(*curves));
    let mut short = vec![0xAA; length - 1];
    assert_eq!(write_curves(curves, &mut short), refusal(14, 0));
    assert!(short.iter().all(|&byte| byte == 0xAA));
    let mut long = vec![0xAA; length + 1];
    assert_eq!(write_curves(curves, &mut long), Ok(length));
    assert_eq!(long[..length], exact);
    assert_eq!(long[length], 0xAA);
    length
}

#[test]
fn what_is_written_is_read() {
    for curves in [example_curves(), mixed_curves()] {
        let mut buffer = [0; WRITTEN_LIMIT];
        let length = write_curves(&curves, &mut buffer).unwrap();
        assert_eq!(read_curves(&buffer[..length]), Ok(curves));
    }
    let mut buffer = [0; WRITTEN_LIMIT];
    let length = write_curves(&example_curves(), &mut buffer).unwrap();
    assert_eq!(&buffer[..length], example_curve_text().as_bytes());
}

#[test]
fn the_longest_text_has_700_bytes() {
    let longest = longest_curves();
    let mut buffer = [7; 701];
    assert_eq!(write_curves(&longest, &mut buffer), Ok(700));
    assert_eq!(buffer[700], 7);
    assert_eq!(read_curves(&buffer[..700]), Ok(longest));
}

/// Without their numbers the lines `voll=`, `floor=`, `mu=` and `sigma=` have
/// 6, 7, 4 and 7 bytes with byte 10, the text 6 + 7 + 24 × (4 + 7) = 277.
#[test]
fn the_length_of_whole_sets() {
    // One digit on each of 50 lines: 277 + 50.
    assert_eq!(length_of(&shortest_curves()), 327);
    assert_eq!(WRITTEN_LEAST, 327);
    // 277 + 7 + 8 + 24 × (9 + 8), the 9 with the sign.
    assert_eq!(length_of(&longest_curves()), 700);
    assert_eq!(WRITTEN_LIMIT, 700);
    // The same without the 24 signs.
    let unsigned = CurveSet {
        pairs: [(20_000_000, 20_000_000); GROUPS],
        ..longest_curves()
    };
    assert_eq!(length_of(&unsigned), 676);
    // The worked example: 277 + 6 + 7 + 24 × (1 + 7).
    assert_eq!(length_of(&example_curves()), 482);
    // Means -9000..-1000, 0, 1000..9000 and 10000..14000 in steps of 1000 have
    // 9 × 5 + 1 + 9 × 4 + 5 × 5 = 107 bytes, spreads 1..24 have 9 + 15 × 2 = 39:
    // 277 + 1 + 1 + 107 + 39.
    assert_eq!(length_of(&mixed_curves()), 425);
}

#[test]
fn the_length_at_every_number_of_digits() {
    // The least and the greatest numbers of each number of digits, as far as
    // they are in range.
    let numbers: [(usize, &[i64]); 8] = [
        (1, &[1, 9]),
        (2, &[10, 99]),
        (3, &[100, 999]),
        (4, &[1000, 9999]),
        (5, &[10_000, 99_999]),
        (6, &[100_000, 999_999]),
        (7, &[1_000_000, 2_000_000, 9_999_999]),
        (8, &[10_000_000, 20_000_000]),
    ];
    // The number stands in for one digit of the shortest text's 327 bytes.
    let shortest = shortest_curves();
    for (digits, numbers) in numbers {
        let length = 326 + digits;
        for &number in numbers {
            if number <= 2_000_000 {
                let with_voll = CurveSet {
                    voll: number,
                    ..shortest
                };
                assert_eq!(length_of(&with_voll), length, "voll {number}");
            }
            let with_floor = CurveSet {
                floor: number,
                ..shortest
            };
            assert_eq!(length_of(&with_floor), length, "floor {number}");
            for group in 0..GROUPS {
                let length_with = |pair| length_of(&with_pair(shortest, group, pair));
                assert_eq!(length_with((number, 1)), length, "mu {number}");
                assert_eq!(length_with((-number, 1)), length + 1, "mu -{number}");
                assert_eq!(length_with((0, number)), length, "sigma {number}");
            }
        }
    }
}

impl Random {
    /// A number 0..`most`. It is drawn with up to so many digits, 1..8, so that
    /// short numbers are no rarity.
    fn number(&mut self, most: u64) -> i64 {
        let digits = 1 + self.below(8) as u32;
        (self.below(10_u64.pow(digits)) % (most + 1)) as i64
    }

    fn curves(&mut self) -> CurveSet {
        CurveSet {
            voll: self.number(2_000_000),
            floor: self.number(20_000_000),
            pairs: std::array::from_fn(|_| {
                let sign = if self.below(2) == 0 { 1 } else { -1 };
                (sign * self.number(20_000_000), 1 + self.number(19_999_999))
            }),
        }
    }
}

#[test]
fn the_length_of_many_sets() {
    let mut random = Random(1);
    for _ in 0..500 {
        let length = length_of(&random.curves());
        assert!((WRITTEN_LEAST..=WRITTEN_LIMIT).contains(&length));
    }
}

#[test]
fn bytes_after_the_text_stay() {
    let text = example_curve_text();
    let mut buffer = [0xAA; 1000];
    let length = write_curves(&example_curves(), &mut buffer).unwrap();
    assert_eq!(length, text.len());
    assert!(buffer[length..].iter().all(|&byte| byte == 0xAA));
}

#[test]
fn refusal_14_leaves_the_buffer() {
    let length = example_curve_text().len();
    let mut exact = vec![0xAA; length];
    assert_eq!(write_curves(&example_curves(), &mut exact), Ok(length));
    let mut short = vec![0xAA; length - 1];
    assert_eq!(write_curves(&example_curves(), &mut short), refusal(14, 0));
    assert!(short.iter().all(|&byte| byte == 0xAA));
    assert_eq!(write_curves(&example_curves(), &mut []), refusal(14, 0));
}

#[test]
fn refusal_1_of_curves() {
    let good = example_curves();
    let impossible = [
        CurveSet { voll: -1, ..good },
        CurveSet {
            voll: 2_000_001,
            ..good
        },
        CurveSet { floor: -1, ..good },
        CurveSet {
            floor: 20_000_001,
            ..good
        },
        with_pair(good, 0, (-20_000_001, 1)),
        with_pair(good, 23, (20_000_001, 1)),
        with_pair(good, 23, (0, 0)),
        with_pair(good, 7, (0, -1)),
        with_pair(good, 0, (0, 20_000_001)),
        with_pair(good, 11, (i64::MIN, i64::MAX)),
    ];
    for curves in impossible {
        let mut buffer = [0xAA; 800];
        assert_eq!(curves_length(&curves), refusal(1, 0));
        assert_eq!(write_curves(&curves, &mut buffer), refusal(1, 0));
        assert_eq!(buffer, [0xAA; 800]);
        // 1 comes before 14, and before 2 at pricing.
        assert_eq!(write_curves(&curves, &mut []), refusal(1, 0));
        assert_eq!(price_snapshot(&curves, &[b'x'; 1_048_577]), refusal(1, 0));
    }
}

#[test]
fn refusals_of_reading() {
    let text = example_curve_text();
    assert_eq!(read(&"x".repeat(4097)), refusal(2, 0));
    assert_eq!(read(&"x".repeat(4096)), refusal(3, 1));
    assert_eq!(read(""), refusal(3, 1));
    assert_eq!(read(&format!("{text}\n")), refusal(9, 51));
    assert_eq!(read(&format!("{text}mu=0\n")), refusal(9, 51));
    for (index, line) in text.lines().enumerate() {
        let place = index as u64 + 1;
        let (key, _) = line.split_once('=').unwrap();
        let answer = |value: &str| {
            let line = format!("{key}={value}");
            read(&with_line_at(&text, index + 1, &line))
        };
        assert_eq!(read(&first_lines(&text, index)), refusal(3, place));
        let unended = first_lines(&text, index + 1);
        assert_eq!(read(&unended[..unended.len() - 1]), refusal(3, place));
        assert_eq!(read(&with_line_at(&text, index + 1, "")), refusal(4, place));
        assert_eq!(answer(""), refusal(5, place));
        assert_eq!(answer("00"), refusal(6, place));
        let (low, high) = match key {
            "voll" => (0, 2_000_000),
            "floor" => (0, 20_000_000),
            "mu" => (-20_000_000, 20_000_000),
            _ => (1, 20_000_000),
        };
        assert!(answer(&low.to_string()).is_ok());
        assert!(answer(&high.to_string()).is_ok());
        assert_eq!(answer(&(low - 1).to_string()), refusal(7, place));
        assert_eq!(answer(&(high + 1).to_string()), refusal(7, place));
    }
}

#[test]
fn the_pair_is_that_of_the_snapshots_group() {
    let curves = mixed_curves();
    for (group, (month, hour)) in month_and_hour_of_groups().enumerate() {
        let snapshot = with_line(&snapshot_of(&[]), "month=7", &format!("month={month}"));
        let snapshot = with_line(&snapshot, "hour=14", &format!("hour={hour}"));
        let load = text("id=L kind=clr base=1 lpc=0 nonspin=0 regup=0");
        let snapshot = with_line(&snapshot, "count=0", "count=1") + &load;
        let prices = price_snapshot(&curves, snapshot.as_bytes()).unwrap();
        let (mu, sigma) = curves.pairs[group];
        assert_eq!(prices.pins, pi_ns(1, 0, mu, sigma));
    }
}
