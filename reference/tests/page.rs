//! The curve page: its rows, its refusals and the program that prints it.

mod common;
use common::*;
use reference::{
    price_snapshot, read_curves, run_page, write_curves, write_page, CurveSet, GROUPS,
    PAGE_INPUT_LIMIT, PAGE_LENGTH, WRITTEN_LIMIT,
};

/// Each group's pair and its row, worked out by hand.
///
/// The cells of a row stand for the fractions p = 100 × (d - mu) / sigma with
/// d = 1000000, 2000000, 3000000 and 4000000, since X drops out. A cell is
/// 10^9 - N(p), which is N(-p) where p is below 0. The knots used are
/// T(0) 500000000, T(1) 503989356, T(100) 841344746 and T(196) 975002105,
/// which are known values, and these, which the rule of the table gives in the
/// rational arithmetic of another language: T(5) 519938806, T(10) 539827837,
/// T(15) 559617692, T(80) 788144601, T(85) 802337457, T(90) 815939875,
/// T(95) 828943874, T(105) 853140944, T(110) 864333939, T(115) 874928064,
/// T(120) 884930330, T(200) 977249868, T(300) 998650102, T(400) 999968329 and
/// T(499) 999999698, with T(500) 999999713 known.
#[rustfmt::skip]
const ROWS: [((i64, i64), &str); GROUPS] = [
    // p = 100, 200, 300, 400: 10^9 less the knots.
    ((0, 1_000_000),
     "winter 0         0  1000000  158655254   22750132    1349898      31671"),
    // p = -100, 0, 100, 200: T(100), T(0), then 10^9 less T(100) and T(200).
    ((2_000_000, 1_000_000),
     "winter 1   2000000  1000000  841344746  500000000  158655254   22750132"),
    // p = -400, -300, -200, -100: the knots themselves.
    ((5_000_000, 1_000_000),
     "winter 2   5000000  1000000  999968329  998650102  977249868  841344746"),
    // The widest numbers. p = 2100000000 / 20000000 = 105, then 110, 115, 120.
    ((-20_000_000, 20_000_000),
     "winter 3 -20000000 20000000  146859056  135666061  125071936  115069670"),
    // p = -1900000000 / 20000000 = -95, then -90, -85, -80.
    ((20_000_000, 20_000_000),
     "winter 4  20000000 20000000  828943874  815939875  802337457  788144601"),
    // p = 0, 5, 10, 15.
    ((1_000_000, 20_000_000),
     "winter 5   1000000 20000000  500000000  480061194  460172163  440382308"),
    // p = 2100000000 to 2400000000: N is 10^9, which leaves 0.
    ((-20_000_000, 1),
     "spring 0 -20000000        1          0          0          0          0"),
    // p = -1900000000 to -1600000000: N(-p) is 10^9.
    ((20_000_000, 1),
     "spring 1  20000000        1 1000000000 1000000000 1000000000 1000000000"),
    // p = 0, then 100000000 and more.
    ((1_000_000, 1),
     "spring 2   1000000        1  500000000          0          0          0"),
    // p = -300000000, -200000000, -100000000, 0.
    ((4_000_000, 1),
     "spring 3   4000000        1 1000000000 1000000000 1000000000  500000000"),
    // One kW below the mean and a spread of one kW: p = -100 in the second.
    ((2_000_001, 1),
     "spring 4   2000001        1 1000000000  841344746          0          0"),
    // One kW above the mean: p = 100 in the third.
    ((2_999_999, 1),
     "spring 5   2999999        1 1000000000 1000000000  158655254          0"),
    // p = -1804, -804, 196, 1196; 10^9 - 975002105 = 24997895.
    ((2_804_000, 100_000),
     "summer 0   2804000   100000 1000000000 1000000000   24997895          0"),
    // p = -2196, -1196, -196, 804.
    ((3_196_000, 100_000),
     "summer 1   3196000   100000 1000000000 1000000000  975002105          0"),
    // p = 1/2, N = 500000000 + 3989356 / 2 = 501994678; then 1000 1/2.
    ((999_500, 100_000),
     "summer 2    999500   100000  498005322          0          0          0"),
    // p = -1/2, the mirror of the row above; then 999 1/2.
    ((1_000_500, 100_000),
     "summer 3   1000500   100000  501994678          0          0          0"),
    // p = 10000 / 30000, N = 500000000 + floor(3989356 / 3) = 501329785.
    ((999_900, 30_000),
     "summer 4    999900    30000  498670215          0          0          0"),
    // p = -10000 / 30000: the floor is taken before the mirror.
    ((1_000_100, 30_000),
     "summer 5   1000100    30000  501329785          0          0          0"),
    // p = 500 exactly, where N is 10^9 and no longer T(500); then more.
    ((0, 200_000),
     "fall   0         0   200000          0          0          0          0"),
    // p = 499 1/2: N = 999999698 + floor(15 / 2) = 999999705; then 999 1/2.
    ((1000, 200_000),
     "fall   1      1000   200000        295          0          0          0"),
    // p = -1999 1/2, -1499 1/2, -999 1/2, -499 1/2.
    ((4_999_000, 200_000),
     "fall   2   4999000   200000 1000000000 1000000000 1000000000  999999705"),
    // p = -2000, -1500, -1000, -500, where N(-p) is 10^9.
    ((5_000_000, 200_000),
     "fall   3   5000000   200000 1000000000 1000000000 1000000000 1000000000"),
    // p = 100 × 1000001 / 9, far above 500, and more.
    ((-1, 9),
     "fall   4        -1        9          0          0          0          0"),
    // p = 100 × 10999999 / 12345, which is above 89000, and more.
    ((-9_999_999, 12_345),
     "fall   5  -9999999    12345          0          0          0          0"),
];

/// The curves of the rows above.
fn curves_of_rows() -> CurveSet {
    CurveSet {
        voll: 900_000,
        floor: 2_000_000,
        pairs: ROWS.map(|(pair, _)| pair),
    }
}

/// The page of the rows above.
fn page_of_rows() -> String {
    ROWS.iter().map(|(_, row)| format!("{row}\n")).collect()
}

/// The page of these curves, which must be accepted.
fn page(curves: &CurveSet) -> String {
    let mut buffer = [0; PAGE_LENGTH];
    assert_eq!(write_page(curves, &mut buffer), Ok(1728));
    String::from_utf8(buffer.to_vec()).unwrap()
}

/// The numbers of the row that every group has with this pair, from the byte
/// before the cell of mu on.
fn numbers_of_pair(mu: i64, sigma: i64) -> String {
    let curves = CurveSet {
        pairs: [(mu, sigma); GROUPS],
        ..example_curves()
    };
    let page = page(&curves);
    let numbers: Vec<&str> = page.lines().map(|row| &row[8..]).collect();
    assert!(numbers.iter().all(|&cells| cells == numbers[0]));
    numbers[0].to_string()
}

fn curve_text(curves: &CurveSet) -> String {
    let mut buffer = [0; WRITTEN_LIMIT];
    let length = write_curves(curves, &mut buffer).unwrap();
    String::from_utf8(buffer[..length].to_vec()).unwrap()
}

/// The output of the program `page`.
fn printed(input: &str) -> String {
    String::from_utf8(run_page(input.as_bytes())).unwrap()
}

#[test]
fn the_rows_are_those_worked_out_by_hand() {
    assert_eq!(page(&curves_of_rows()), page_of_rows());
}

#[test]
fn a_page_has_24_rows_of_72_bytes() {
    assert_eq!(PAGE_LENGTH, 1728);
    let widest = CurveSet {
        voll: 2_000_000,
        floor: 20_000_000,
        pairs: [(-20_000_000, 20_000_000); GROUPS],
    };
    let narrowest = CurveSet {
        voll: 0,
        floor: 0,
        pairs: [(0, 1); GROUPS],
    };
    for curves in [curves_of_rows(), example_curves(), widest, narrowest] {
        let page = page(&curves);
        let rows: Vec<&[u8]> = page.as_bytes().chunks(72).collect();
        assert_eq!(rows.len(), 24);
        for row in rows {
            assert_eq!(row.len(), 72);
            assert_eq!(row[71], 10);
            assert!(!row[..71].contains(&10));
        }
    }
}

#[test]
fn every_group_has_its_season_and_block() {
    let page = page(&example_curves());
    let mut rows = page.lines();
    for season in ["winter ", "spring ", "summer ", "fall   "] {
        for block in ["0 ", "1 ", "2 ", "3 ", "4 ", "5 "] {
            let row = rows.next().unwrap();
            assert_eq!(&row[..7], season);
            assert_eq!(&row[7..9], block);
        }
    }
    assert_eq!(rows.next(), None);
}

#[test]
fn numbers_of_every_width_end_where_their_cell_ends() {
    for (mu, cell) in [
        (0, "         0"),
        (9, "         9"),
        (10, "        10"),
        (-1, "        -1"),
        (-10, "       -10"),
        (99_999, "     99999"),
        (-100_000, "   -100000"),
        (9_999_999, "   9999999"),
        (10_000_000, "  10000000"),
        (20_000_000, "  20000000"),
        (-19_999_999, " -19999999"),
        (-20_000_000, " -20000000"),
    ] {
        assert_eq!(&numbers_of_pair(mu, 1)[..10], cell);
    }
    for (sigma, cell) in [
        (1, "        1"),
        (90, "       90"),
        (1_000_000, "  1000000"),
        (9_999_999, "  9999999"),
        (10_000_000, " 10000000"),
        (20_000_000, " 20000000"),
    ] {
        assert_eq!(&numbers_of_pair(0, sigma)[10..19], cell);
    }
}

#[test]
fn every_row_has_its_own_pair() {
    for group in 0..GROUPS {
        let mut curves = example_curves();
        curves.pairs[group] = (-20_000_000, 1);
        let page = page(&curves);
        for (place, row) in page.lines().enumerate() {
            let expected = if place == group {
                " -20000000        1          0          0          0          0"
            } else {
                "         0  1000000  158655254   22750132    1349898      31671"
            };
            assert_eq!(&row[8..], expected, "group {group}, row {place}");
        }
    }
}

/// The probabilities stand at a distance from X, so X itself drops out, and
/// VOLL has no place on the page.
#[test]
fn voll_and_floor_do_not_change_the_page() {
    for (voll, floor) in [(0, 0), (2_000_000, 20_000_000), (1, 999_999)] {
        let curves = CurveSet {
            voll,
            floor,
            ..curves_of_rows()
        };
        assert_eq!(page(&curves), page_of_rows());
    }
}

/// A reserve that lies so far above X is priced with the number on the page.
#[test]
fn the_probabilities_are_those_of_pricing() {
    let curves = CurveSet {
        floor: 0,
        ..curves_of_rows()
    };
    let page = page(&curves);
    for (row, (month, hour)) in page.lines().zip(month_and_hour_of_groups()) {
        for step in 1..=4 {
            let loads: Vec<String> = (0..step)
                .map(|id| format!("id={id} kind=clr base=1000000 lpc=0 nonspin=0 regup=0"))
                .collect();
            let loads: Vec<&str> = loads.iter().map(String::as_str).collect();
            let snapshot = with_line(&snapshot_of(&loads), "month=7", &format!("month={month}"));
            let snapshot = with_line(&snapshot, "hour=14", &format!("hour={hour}"));
            let prices = price_snapshot(&curves, snapshot.as_bytes()).unwrap();
            let end = 27 + 11 * step;
            let cell = row[end - 10..end].trim_start();
            assert_eq!(cell, prices.pins.to_string(), "{row}, step {step}");
        }
    }
}

#[test]
fn bytes_after_the_page_stay() {
    for extra in [0, 1, 700] {
        let mut buffer = vec![0xAA; 1728 + extra];
        assert_eq!(write_page(&curves_of_rows(), &mut buffer), Ok(1728));
        assert_eq!(&buffer[..1728], page_of_rows().as_bytes());
        assert!(buffer[1728..].iter().all(|&byte| byte == 0xAA));
    }
}

#[test]
fn refusal_14_leaves_the_buffer() {
    for length in [1727, 1656, 72, 1, 0] {
        let mut buffer = vec![0xAA; length];
        assert_eq!(write_page(&curves_of_rows(), &mut buffer), refusal(14, 0));
        assert!(buffer.iter().all(|&byte| byte == 0xAA));
    }
}

#[test]
fn refusal_1_comes_before_14() {
    let good = example_curves();
    let mut impossible = Vec::new();
    for voll in [-1, 2_000_001, i64::MIN, i64::MAX] {
        impossible.push(CurveSet { voll, ..good });
    }
    for floor in [-1, 20_000_001, i64::MIN, i64::MAX] {
        impossible.push(CurveSet { floor, ..good });
    }
    for group in 0..GROUPS {
        for pair in [
            (-20_000_001, 1),
            (20_000_001, 1),
            (0, 0),
            (0, -1),
            (0, 20_000_001),
            (i64::MIN, i64::MAX),
        ] {
            let mut curves = good;
            curves.pairs[group] = pair;
            impossible.push(curves);
        }
    }
    for curves in impossible {
        for length in [2000, 1728, 1727, 0] {
            let mut buffer = vec![0xAA; length];
            assert_eq!(write_page(&curves, &mut buffer), refusal(1, 0));
            assert!(buffer.iter().all(|&byte| byte == 0xAA));
        }
    }
}

#[test]
fn the_program_prints_the_page() {
    assert_eq!(printed(&curve_text(&curves_of_rows())), page_of_rows());
    let page = page(&example_curves());
    assert_eq!(printed(&example_curve_text()), page);
}

#[test]
fn the_program_refuses_cut_inputs() {
    // Wherever the text is cut, the line that is not whole is absent.
    let text = curve_text(&curves_of_rows());
    for length in 0..text.len() {
        let cut = &text[..length];
        let whole_lines = cut.matches('\n').count() as u64;
        assert_eq!(printed(cut), refused(3, whole_lines + 1, "curves"));
    }
    assert_eq!(printed(""), refused(3, 1, "curves"));
}

#[test]
fn the_program_refuses_long_inputs_first() {
    assert_eq!(PAGE_INPUT_LIMIT, 4096);
    let fill = |front: &str, length: usize| front.to_string() + &"x".repeat(length - front.len());
    assert_eq!(printed(&fill("", 4096)), refused(3, 1, "curves"));
    assert_eq!(printed(&fill("", 4097)), refused(2, 0, "curves"));
    let text = example_curve_text();
    assert_eq!(printed(&fill(&text, 4096)), refused(9, 51, "curves"));
    assert_eq!(printed(&fill(&text, 4097)), refused(2, 0, "curves"));
    // A number of too many digits is still a number, only out of its range.
    let line = |length: usize| format!("voll={}\n", "9".repeat(length - 6));
    assert_eq!(printed(&line(4096)), refused(7, 1, "curves"));
    assert_eq!(printed(&line(4097)), refused(2, 0, "curves"));
    assert_eq!(printed(&"\n".repeat(4096)), refused(4, 1, "curves"));
    assert_eq!(printed(&"\n".repeat(100_000)), refused(2, 0, "curves"));
}

#[test]
fn the_program_refuses_bytes_after_the_curves() {
    let text = example_curve_text();
    for after in ["\n", "x", " ", "\r\n", "mu=0\n", "\u{0}"] {
        let input = format!("{text}{after}");
        assert_eq!(printed(&input), refused(9, 51, "curves"), "{after:?}");
    }
    // An empty line parts nothing here, not even before a snapshot.
    let input = format!("{text}\n{}", example_snapshot());
    assert_eq!(printed(&input), refused(9, 51, "curves"));
    let input = format!("\n{text}");
    assert_eq!(printed(&input), refused(4, 1, "curves"));
}

#[test]
fn the_program_refuses_damaged_lines() {
    let text = example_curve_text();
    for (index, line) in text.lines().enumerate() {
        let place = index as u64 + 1;
        let (key, _) = line.split_once('=').unwrap();
        let (low, high) = match key {
            "voll" => (0, 2_000_000),
            "floor" => (0, 20_000_000),
            "mu" => (-20_000_000, 20_000_000),
            _ => (1, 20_000_000),
        };
        for (damaged, number) in [
            (String::new(), 4),
            (format!("{key} =1"), 4),
            (format!("x{key}=1"), 4),
            (key.to_string(), 4),
            (format!("\n{line}"), 4),
            (format!("{key}="), 5),
            (format!("{key}=01"), 6),
            (format!("{key}=-0"), 6),
            (format!("{key}=1 "), 6),
            (format!("{key}=1\r"), 6),
            (format!("{key}={}", low - 1), 7),
            (format!("{key}={}", high + 1), 7),
        ] {
            let input = with_line_at(&text, index + 1, &damaged);
            let output = refused(number, place, "curves");
            assert_eq!(printed(&input), output, "{damaged:?}");
        }
        for value in [low, high] {
            let input = with_line_at(&text, index + 1, &format!("{key}={value}"));
            let curves = read_curves(input.as_bytes()).unwrap();
            assert_eq!(printed(&input), page(&curves));
        }
    }
}

#[test]
fn the_program_takes_any_bytes() {
    let text = example_curve_text();
    let with_byte = |place: usize, byte: u8| {
        let mut input = text.clone().into_bytes();
        input[place] = byte;
        String::from_utf8(run_page(&input)).unwrap()
    };
    // The text begins with the bytes of voll=900000.
    for byte in [0, 0x80, 0xC3, 0xFF] {
        assert_eq!(with_byte(0, byte), refused(4, 1, "curves"));
        assert_eq!(with_byte(4, byte), refused(4, 1, "curves"));
        assert_eq!(with_byte(5, byte), refused(6, 1, "curves"));
        assert_eq!(with_byte(11, byte), refused(6, 1, "curves"));
    }
}

#[test]
fn the_command_runs_the_program() {
    let text = curve_text(&curves_of_rows());
    let output = page_of_rows().into_bytes();
    assert_eq!(run_command(&["page"], text.as_bytes()), (output, Some(0)));
    for (length, number, line) in [(0, 3, 1), (4096, 3, 1), (4097, 2, 0), (1_000_000, 2, 0)] {
        let output = refused(number, line, "curves").into_bytes();
        let input = vec![b'x'; length];
        assert_eq!(run_command(&["page"], &input), (output, Some(0)));
    }
    assert_eq!(run_command(&["page", "x"], b""), (vec![], Some(2)));
}

#[test]
fn the_command_runs_the_program_for_each_input() {
    let framed = |parts: &[String]| -> Vec<u8> {
        let frame = |part: &String| {
            let length = (part.len() as u64).to_le_bytes();
            [&length, part.as_bytes()].concat()
        };
        parts.iter().flat_map(frame).collect()
    };
    let text = curve_text(&curves_of_rows());
    let inputs = [
        text.clone(),
        String::new(),
        "x".repeat(4096),
        "x".repeat(4097),
        format!("{text}\n"),
        text,
    ];
    let outputs = [
        page_of_rows(),
        refused(3, 1, "curves"),
        refused(3, 1, "curves"),
        refused(2, 0, "curves"),
        refused(9, 51, "curves"),
        page_of_rows(),
    ];
    let answer = run_command(&["each", "page"], &framed(&inputs));
    assert_eq!(answer, (framed(&outputs), Some(0)));
    assert_eq!(run_command(&["each", "page"], b""), (vec![], Some(0)));
}
