//! The programs `price` and `curves`, as bytes in and bytes out.

mod common;
use common::*;
use reference::{run_curves, run_curves_from, run_price, write_curves, CurveSet, GROUPS};
use std::io::{self, Read};

fn price(input: &str) -> String {
    String::from_utf8(run_price(input.as_bytes())).unwrap()
}

/// Gives its bytes in small and uneven pieces.
struct Trickle<'a> {
    rest: &'a [u8],
    piece: usize,
}

impl Read for Trickle<'_> {
    fn read(&mut self, buffer: &mut [u8]) -> io::Result<usize> {
        self.piece = self.piece % 7 + 1;
        let length = self.piece.min(self.rest.len()).min(buffer.len());
        buffer[..length].copy_from_slice(&self.rest[..length]);
        self.rest = &self.rest[length..];
        Ok(length)
    }
}

/// The output of `curves`, which must be the same from memory and streamed.
fn curves(input: &str) -> String {
    let output = run_curves(input.as_bytes());
    assert_eq!(run_curves_from(input.as_bytes()).unwrap(), output);
    let trickle = Trickle {
        rest: input.as_bytes(),
        piece: 0,
    };
    assert_eq!(run_curves_from(trickle).unwrap(), output);
    String::from_utf8(output).unwrap()
}

fn price_input() -> String {
    format!("{}\n{}", example_curve_text(), example_snapshot())
}

const SETTLE_LINES: &str = "voll=900000\nfloor=2000000\n";

fn curves_input(hours: &[String]) -> String {
    let hours: String = hours.iter().map(|hour| format!("{hour}\n")).collect();
    format!("{SETTLE_LINES}{hours}")
}

fn settled_text() -> String {
    let curves = CurveSet {
        voll: 900_000,
        floor: 2_000_000,
        pairs: [(0, 1); GROUPS],
    };
    let mut buffer = [0; 700];
    let length = write_curves(&curves, &mut buffer).unwrap();
    String::from_utf8(buffer[..length].to_vec()).unwrap()
}

#[test]
fn price_prints_the_worked_example() {
    let expected = "rs=2707000\nrsns=3000000\npis=158655254\npins=158655254\n\
                    online=142393\noffline=71197\n";
    assert_eq!(price(&price_input()), expected);
}

#[test]
fn price_prints_the_variants() {
    let input = price_input();
    let output = price(&with_line(&input, "prc=3000000", "prc=2300000"));
    assert!(output.starts_with("rs=2707000\nrsns=2707000\n"));
    let output = price(&with_line(&input, "net=95000", "net=94999"));
    assert!(output.starts_with("rs=1800000\nrsns=2093000\n"));
    let output = price(&with_line(&input, "hsl=2000000", "hsl="));
    assert_eq!(output, refused(5, 14, "snapshot"));
    let output = price(&with_line(&input, "lambda=2500", "lambda=900000"));
    assert!(output.ends_with("online=0\noffline=0\n"));
    let output = price(&with_line(&input, "short=0", "short=9000000"));
    assert!(output.starts_with("rs=-6293000\nrsns=-6000000\n"));
}

#[test]
fn price_refuses_long_input_first() {
    assert_eq!(price(&"\n".repeat(65_537)), refused(2, 0, "curves"));
    let padding = "x".repeat(65_537 - price_input().len());
    let input = price_input() + &padding;
    assert_eq!(price(&input), refused(2, 0, "curves"));
    assert_eq!(price(&input[..65_536]), refused(9, 36, "snapshot"));
}

#[test]
fn price_refuses_curves_before_the_snapshot() {
    assert_eq!(price(""), refused(3, 1, "curves"));
    assert_eq!(price("\n"), refused(3, 1, "curves"));
    let long = "x".repeat(4097);
    assert_eq!(price(&long), refused(2, 0, "curves"));
    assert_eq!(price(&format!("{long}\n\nmonth=")), refused(2, 0, "curves"));
    let input = with_line(&price_input(), "voll=900000", "voll=2000001");
    assert_eq!(price(&input), refused(7, 1, "curves"));
    // Without the empty line the snapshot follows the curves' last line.
    let joined = example_curve_text() + &example_snapshot();
    assert_eq!(price(&joined), refused(9, 51, "curves"));
}

#[test]
fn price_refuses_an_absent_snapshot() {
    let curve_text = example_curve_text();
    assert_eq!(price(&curve_text), refused(3, 1, "snapshot"));
    assert_eq!(price(&format!("{curve_text}\n")), refused(3, 1, "snapshot"));
}

#[test]
fn price_refuses_empty_lines_in_the_snapshot() {
    let (curves, snapshot) = (example_curve_text(), example_snapshot());
    let input = format!("{curves}\n\n{snapshot}");
    assert_eq!(price(&input), refused(4, 1, "snapshot"));
    let input = format!("{curves}\n{snapshot}\n");
    assert_eq!(price(&input), refused(9, 36, "snapshot"));
    let input = format!("{curves}\n{}", with_line(&snapshot, "hour=14", "\nhour=14"));
    assert_eq!(price(&input), refused(4, 2, "snapshot"));
}

#[test]
fn curves_prints_the_curve_text() {
    let hours = hours_with_errors(&[-1, 2]);
    assert_eq!(curves(&curves_input(&hours)), settled_text());
}

#[test]
fn the_last_hour_may_end_with_the_input() {
    let input = curves_input(&hours_with_errors(&[-1, 2]));
    assert_eq!(curves(&input[..input.len() - 1]), settled_text());
    // Without its byte 10 the last line is refused.
    let cut = &input[..input.len() - 2];
    assert_eq!(curves(cut), refused(3, 22, "hour"));
}

#[test]
fn curves_refuses_the_settle_lines() {
    for (input, number, line) in [
        ("", 3, 1),
        ("voll=1", 3, 1),
        ("x", 3, 1),
        ("\n", 4, 1),
        ("floor=1\n", 4, 1),
        ("voll=\n", 5, 1),
        ("voll=01\n", 6, 1),
        ("voll=2000001\n", 7, 1),
        ("voll=-1\n", 7, 1),
        ("voll=1\n", 3, 2),
        ("voll=1\nfloor=1", 3, 2),
        ("voll=1\n\n", 4, 2),
        ("voll=1\nvoll=1\n", 4, 2),
        ("voll=1\nfloor=\n", 5, 2),
        ("voll=1\nfloor=-0\n", 6, 2),
        ("voll=1\nfloor=20000001\n", 7, 2),
        ("voll=1\nfloor=20000001\nmonth=x\n", 7, 2),
    ] {
        assert_eq!(curves(input), refused(number, line, "settle"), "{input:?}");
    }
}

#[test]
fn a_settle_line_must_end_within_65536_bytes() {
    let line = |key: &str, length: usize| format!("{key}={}\n", "9".repeat(length - key.len() - 2));
    assert_eq!(curves(&line("voll", 65_536)), refused(7, 1, "settle"));
    assert_eq!(curves(&line("voll", 65_537)), refused(3, 1, "settle"));
    let input = format!("voll=1\n{}", line("floor", 65_536));
    assert_eq!(curves(&input), refused(7, 2, "settle"));
    let input = format!("voll=1\n{}", line("floor", 65_537));
    assert_eq!(curves(&input), refused(3, 2, "settle"));
}

#[test]
fn curves_without_hours_has_too_few() {
    assert_eq!(curves(SETTLE_LINES), refused(12, 0, "settle"));
}

#[test]
fn curves_refuses_empty_hours() {
    assert_eq!(curves(&format!("{SETTLE_LINES}\n")), refused(3, 1, "hour"));
    let hour = hour_with_error(1, 0, 1);
    let input = format!("{SETTLE_LINES}{hour}\n\n{hour}\n");
    assert_eq!(curves(&input), refused(3, 1, "hour"));
}

#[test]
fn curves_counts_lines_within_the_hour() {
    let good = hour_with_error(1, 0, 1);
    let bad = with_line(&good, "runs=1", "runs=61");
    let input = curves_input(&[good.clone(), bad, "x".to_string()]);
    assert_eq!(curves(&input), refused(7, 13, "hour"));
    // An empty line within an hour ends it.
    let broken = with_line(&good, "runs=1", "\nruns=1");
    assert_eq!(curves(&curves_input(&[broken])), refused(3, 13, "hour"));
    let joined = format!("{SETTLE_LINES}{good}{good}\n");
    assert_eq!(curves(&joined), refused(9, 23, "hour"));
}

#[test]
fn curves_limits_an_hour_to_65536_bytes() {
    let hour_of = |length: usize| "x".repeat(length - 1) + "\n";
    let with_end = |length| format!("{SETTLE_LINES}{}\n", hour_of(length));
    let cut = |length| format!("{SETTLE_LINES}{}", hour_of(length));
    assert_eq!(curves(&with_end(65_536)), refused(4, 1, "hour"));
    assert_eq!(curves(&cut(65_536)), refused(4, 1, "hour"));
    assert_eq!(curves(&with_end(65_537)), refused(2, 0, "hour"));
    assert_eq!(curves(&cut(65_537)), refused(2, 0, "hour"));
    let endless = format!("{SETTLE_LINES}{}", "x".repeat(200_000));
    assert_eq!(curves(&endless), refused(2, 0, "hour"));
    // The second byte 10 is the empty line, not the hour's 65537th byte.
    let input = with_end(65_536) + "x";
    assert_eq!(curves(&input), refused(4, 1, "hour"));
    let input = format!("{}x", cut(65_536));
    assert_eq!(curves(&input), refused(2, 0, "hour"));
}

#[test]
fn curves_refuses_hours_that_cannot_be_booked() {
    let hour = hour_with_error(1, 0, 1);
    let too_far = with_line(&hour, "ongen=0", "ongen=100000000");
    assert_eq!(curves(&curves_input(&[too_far])), refused(11, 0, "hour"));
    let many = vec![hour; 1001];
    assert_eq!(curves(&curves_input(&many)), refused(10, 0, "hour"));
    assert_eq!(curves(&curves_input(&many[1..])), refused(13, 0, "settle"));
}

#[test]
fn curves_refuses_groups_that_cannot_be_settled() {
    let hours = hours_with_errors(&[-1, 2]);
    let input = curves_input(&hours[..47]);
    assert_eq!(curves(&input), refused(12, 23, "settle"));
    let hours = hours_with_errors(&[-1, 0]);
    assert_eq!(curves(&curves_input(&hours)), refused(13, 0, "settle"));
}

#[test]
fn curves_stops_reading_at_the_first_refusal() {
    struct Failing;
    impl Read for Failing {
        fn read(&mut self, _: &mut [u8]) -> io::Result<usize> {
            Err(io::Error::other("read too far"))
        }
    }
    let stream = "voll=x\n".as_bytes().chain(Failing);
    let output = run_curves_from(stream).unwrap();
    assert_eq!(output, refused(6, 1, "settle").into_bytes());
    let stream = "voll=1\n".as_bytes().chain(Failing);
    assert!(run_curves_from(stream).is_err());
}

fn command(arguments: &[&str], input: &str) -> (String, Option<i32>) {
    let (output, code) = run_command(arguments, input.as_bytes());
    (String::from_utf8(output).unwrap(), code)
}

#[test]
fn the_command_runs_both_programs() {
    let input = price_input();
    assert_eq!(command(&["price"], &input), (price(&input), Some(0)));
    let input = curves_input(&hours_with_errors(&[-1, 2]));
    assert_eq!(command(&["curves"], &input), (settled_text(), Some(0)));
    let long = "x".repeat(1_000_000);
    let output = refused(2, 0, "curves");
    assert_eq!(command(&["price"], &long), (output, Some(0)));
    let output = refused(3, 1, "settle");
    assert_eq!(command(&["curves"], &long), (output, Some(0)));
    assert_eq!(command(&[], ""), (String::new(), Some(2)));
    assert_eq!(command(&["price", "x"], ""), (String::new(), Some(2)));
}
