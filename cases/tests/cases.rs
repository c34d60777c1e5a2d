//! The cases as a whole: that they can be read back, and what they cover.

use cases::{
    all_cases, answer, buffer, checksum, checksum_of_numbers, decode, encode, tally, Answer, Case,
    Edit, Input, Text, CAN_REFUSE, LONGEST_BUFFER, MOST_EDITS, ROWS,
};
use reference::{held_text, read_held, write_page, Refusal, ID_ROW, NUMBER_ROW};
use std::collections::BTreeSet;

fn answers(cases: &[Case]) -> Vec<Answer> {
    cases.iter().map(|case| answer(&case.input)).collect()
}

/// The input's text, where it has one of its own.
fn text_of(input: &mut Input) -> Option<&mut Text> {
    match input {
        Input::Book { text, .. }
        | Input::Read { text }
        | Input::Price { text, .. }
        | Input::PriceProgram { text }
        | Input::CurvesProgram { text, .. }
        | Input::PageProgram { text }
        | Input::ReadValues { text, .. }
        | Input::WriteValues { text, .. } => Some(text),
        Input::Settle { .. }
        | Input::Write { .. }
        | Input::WritePage { .. }
        | Input::CurvesLength { .. } => None,
    }
}

/// The input with its text as one piece.
fn in_one_piece(input: &Input) -> Input {
    let mut input = input.clone();
    if let Some(text) = text_of(&mut input) {
        *text = Text::from(text.bytes());
    }
    input
}

#[test]
fn cases_are_read_back_as_they_were_written() {
    let cases = all_cases(1);
    let bytes = encode(&cases);
    let inputs = decode(&bytes).unwrap();
    assert_eq!(inputs.len(), cases.len());
    for (input, case) in inputs.iter().zip(&cases) {
        assert!(*input == in_one_piece(&case.input), "{}", case.label);
    }
    assert_eq!(decode(&bytes[..bytes.len() - 1]), None);
    assert_eq!(encode(&all_cases(1)), bytes);
    assert_ne!(encode(&all_cases(2)), bytes);
}

#[test]
fn there_are_enough_cases_and_they_are_small() {
    let cases = all_cases(1);
    assert!(cases.len() >= 2000);
    let answers: usize = answers(&cases).iter().map(|one| one.line().len() + 1).sum();
    assert!(encode(&cases).len() + answers < 9_500_000);
    for case in &cases {
        if let Some(text) = text_of(&mut case.input.clone()) {
            assert!(text.bytes().len() <= 1_048_577, "{}", case.label);
        }
        assert!(!case.label.contains('\n'), "{:?}", case.label);
        match &case.input {
            Input::ReadValues { ids, numbers, .. } => fits_the_rows(*ids, *numbers),
            Input::WriteValues {
                edits,
                ids,
                numbers,
                length,
                ..
            } => {
                fits_the_rows(*ids, *numbers);
                assert!(edits.len() <= MOST_EDITS, "{}", case.label);
                assert!(*length <= LONGEST_BUFFER, "{}", case.label);
            }
            _ => {}
        }
    }
}

fn fits_the_rows(ids: usize, numbers: usize) {
    assert!(ids <= ROWS * ID_ROW && numbers <= ROWS * NUMBER_ROW);
}

#[test]
fn every_refusal_of_every_operation_comes() {
    let cases = all_cases(3);
    let answers = answers(&cases);
    let tally = tally(cases.iter().zip(&answers));
    let can: BTreeSet<(char, u32)> = CAN_REFUSE
        .iter()
        .flat_map(|(letter, numbers)| [0].iter().chain(*numbers).map(|&number| (*letter, number)))
        .collect();
    assert_eq!(tally.into_keys().collect::<BTreeSet<_>>(), can);
}

/// The refusal of an answer, given back or printed.
fn refusal_of(answer: &Answer) -> Option<Refusal> {
    match answer {
        Answer::Accepted(_) => None,
        Answer::Refused(refusal, _) => Some(*refusal),
        Answer::Printed(lines) => {
            let mut lines = lines.lines();
            let mut value = |key| lines.next()?.strip_prefix(key);
            let (number, line) = (value("refused=")?, value("line=")?);
            Some(Refusal {
                number: number.parse().unwrap(),
                line: line.parse().unwrap(),
            })
        }
        Answer::Two(_, second) => refusal_of(second),
    }
}

#[test]
fn refusals_come_at_the_first_a_middle_and_the_last_line() {
    let cases = all_cases(1);
    let lines: BTreeSet<(char, u32, u64)> = cases
        .iter()
        .zip(answers(&cases))
        .filter_map(|(case, answer)| {
            let Refusal { number, line } = refusal_of(&answer)?;
            Some((case.input.letter(), number, line))
        })
        .collect();
    for number in 3..=7 {
        for (letter, places) in [
            ('B', [1, 12, 13, 22, 31, 553]),
            ('R', [1, 2, 3, 24, 49, 50]),
            ('P', [1, 8, 12, 20, 29, 36_872]),
            ('g', [1, 2, 25, 26, 49, 50]),
            ('V', [1, 8, 12, 20, 29, 36_872]),
        ] {
            for line in places {
                assert!(
                    lines.contains(&(letter, number, line)),
                    "{letter} {number} {line}"
                );
            }
        }
    }
    for place in [
        ('P', 8, 15),
        ('P', 8, 21),
        ('P', 8, 36_864),
        ('B', 9, 23),
        ('B', 9, 32),
        ('B', 9, 554),
        ('R', 9, 51),
        ('P', 9, 9),
        ('P', 9, 30),
        ('P', 9, 36_873),
        ('g', 2, 0),
        ('g', 9, 51),
        ('G', 1, 0),
        ('G', 14, 0),
        ('S', 12, 0),
        ('S', 12, 11),
        ('S', 12, 23),
        ('S', 13, 0),
        ('S', 13, 11),
        ('S', 13, 23),
        ('V', 2, 0),
        ('V', 8, 15),
        ('V', 8, 21),
        ('V', 8, 36_864),
        ('V', 9, 9),
        ('V', 9, 30),
        ('V', 9, 36_873),
        ('V', 14, 0),
        // Where values are written 6 comes at words alone, and 7 never there.
        ('T', 6, 9),
        ('T', 6, 10),
        ('T', 6, 11),
        ('T', 6, 46),
        ('T', 6, 36_864),
        ('T', 6, 36_865),
        ('T', 6, 36_866),
        ('T', 7, 1),
        ('T', 7, 7),
        ('T', 7, 8),
        ('T', 7, 12),
        ('T', 7, 44),
        ('T', 7, 56),
        ('T', 7, 36_872),
        ('T', 8, 15),
        ('T', 8, 45),
        ('T', 8, 36_864),
        ('T', 14, 0),
        // The first line that can carry a mark is a first clr's base, the last one
        // the Non-Spin of the last of as many units as there can be.
        ('P', 15, 11),
        ('P', 15, 12),
        ('P', 15, 22),
        ('P', 15, 36_871),
        ('p', 15, 12),
        ('p', 15, 20),
        ('p', 15, 34),
        ('V', 15, 11),
        ('V', 15, 38),
        ('V', 15, 36_867),
        ('V', 15, 36_871),
        ('T', 15, 12),
        ('T', 15, 56),
        ('T', 15, 18_435),
        ('T', 15, 36_871),
        ('T', 6, 17),
        ('T', 6, 53),
        ('T', 6, 36_872),
        ('L', 1, 0),
    ] {
        assert!(lines.contains(&place), "{place:?}");
    }
}

/// A text is refused before the space is looked at, by every number.
#[test]
fn every_refusal_of_a_text_comes_where_there_is_no_space() {
    let numbers: BTreeSet<u32> = all_cases(1)
        .iter()
        .filter(|case| {
            let Input::ReadValues { ids, numbers, .. } = case.input else {
                return false;
            };
            (ids, numbers) == (0, 0)
        })
        .map(|case| answer(&case.input).number())
        .collect();
    assert_eq!(
        numbers.into_iter().collect::<Vec<_>>(),
        [0, 2, 3, 4, 5, 6, 7, 8, 9, 14, 15]
    );
}

/// The label of such a case names both lines.
#[test]
fn of_two_faults_the_earlier_line_is_told() {
    let cases = all_cases(1);
    let line = |label: &str| -> u64 {
        let at = label.rsplit(' ').next().unwrap();
        at.parse().unwrap()
    };
    let mut pairs = 0;
    for case in &cases {
        let Some((first, later)) = case.label.split_once(", then ") else {
            continue;
        };
        assert!(line(first) < line(later), "{}", case.label);
        let refusal = refusal_of(&answer(&case.input)).unwrap();
        assert_eq!(refusal.line, line(first), "{}", case.label);
        pairs += 1;
    }
    assert_eq!(pairs, 22 * 21 / 2);
}

/// The header, ids and numbers of a text and edits, as they are handed over.
fn values(input: &Input) -> Option<([i64; 8], Vec<u8>, Vec<i64>)> {
    let Input::WriteValues {
        text,
        edits,
        ids,
        numbers,
        ..
    } = input
    else {
        return None;
    };
    let mut header = [0; 8];
    let mut all_ids = vec![0; ROWS * ID_ROW];
    let mut all_numbers = vec![0; ROWS * NUMBER_ROW];
    let _ = read_held(&text.bytes(), &mut header, &mut all_ids, &mut all_numbers);
    for edit in edits {
        match *edit {
            Edit::Header(place, value) => header[place] = value,
            Edit::Ids(place, byte) => all_ids[place] = byte,
            Edit::Numbers(place, value) => all_numbers[place] = value,
        }
    }
    all_ids.truncate(*ids);
    all_numbers.truncate(*numbers);
    Some((header, all_ids, all_numbers))
}

#[test]
fn what_is_written_is_accepted_and_written_again() {
    let mut accepted = 0;
    for case in all_cases(1) {
        let Some((header, ids, numbers)) = values(&case.input) else {
            continue;
        };
        let Ok(text) = held_text(&header, &ids, &numbers) else {
            continue;
        };
        let rows = (ids.len() / ID_ROW).min(numbers.len() / NUMBER_ROW);
        let (mut same, mut same_ids) = ([7; 8], vec![7; rows * ID_ROW]);
        let mut same_numbers = vec![7; rows * NUMBER_ROW];
        let read = read_held(&text, &mut same, &mut same_ids, &mut same_numbers);
        assert_eq!(read, Ok(()), "{}", case.label);
        assert_eq!(same[..7], header[..7], "{}", case.label);
        assert_eq!(same[7], rows as i64, "{}", case.label);
        assert_eq!(
            held_text(&same, &same_ids, &same_numbers),
            Ok(text),
            "{}",
            case.label
        );
        accepted += 1;
    }
    assert!(accepted > 300);
}

#[test]
fn known_values() {
    let cases = all_cases(1);
    let line = |label: &str| {
        let case = cases.iter().find(|case| case.label == label);
        answer(&case.unwrap_or_else(|| panic!("{label}")).input).line()
    };
    // The text of `no resource` has 67 bytes.
    let text = "month=7\nhour=14\nlambda=0\nfactor=10000\nprc=1\neea1=0\nshort=0\ncount=0\n";
    let longer = [text.as_bytes(), &buffer(68)[67..]].concat();
    assert_eq!(
        line("no resource, buffer of 68"),
        format!("accepted 67 accepted 67 {}", checksum(&longer))
    );
    assert_eq!(
        line("no resource, buffer of 66"),
        format!("accepted 67 refused 14 line 0 7 {}", checksum(&buffer(66)))
    );
    assert_eq!(
        line("no resource, buffer of 67"),
        format!("accepted 67 accepted 67 {}", checksum(text.as_bytes()))
    );
    // A refusal leaves the length, what was written and the buffer.
    assert!(
        line("written, cold30 at line 17").starts_with("refused 7 line 17 7 refused 7 line 17 7 ")
    );
    assert_eq!(
        line("written, 14 comes last: the id again at line 18"),
        "refused 8 line 18 7 refused 8 line 18 7 0"
    );
    // Whatever count is handed in, the same text is written.
    let plain = line("written, count 0");
    assert!(plain.starts_with("accepted "));
    assert_eq!(line("written, count 4097"), plain);
    assert_eq!(
        line("written, noise where no line comes from and in the marks"),
        plain
    );
    for (label, length) in [
        ("the longest text written, buffer of 495718", 495_718),
        ("the longest text written, buffer of 524288", 495_718),
    ] {
        let answer = line(label);
        assert!(answer.starts_with(&format!("accepted {length} accepted {length} ")));
    }
    assert!(line("the longest text written, buffer of 495717")
        .starts_with("accepted 495718 refused 14 line 0 7 "));
    assert!(line("the longest text written, one held too many")
        .starts_with("refused 7 line 8 7 refused 7 line 8 7 "));
    // Space that is refused stays, and so does what comes after the last row.
    let space = |ids: usize, numbers: usize| {
        let numbers: Vec<i64> = (7..).take(numbers).collect();
        format!(
            "7 7 7 7 7 7 7 7 {} {}",
            checksum(&buffer(ids)),
            checksum_of_numbers(&numbers)
        )
    };
    assert_eq!(
        line("3 resources into 96 bytes and 26 numbers"),
        format!("refused 14 line 0 {}", space(96, 26))
    );
    assert_eq!(
        line("values, 14 comes last: bytes \"x\" follow the header"),
        format!("refused 9 line 9 {}", space(0, 0))
    );
    assert_eq!(
        line("no resource into 31 bytes and 8 numbers"),
        space(31, 8).replace("7 7 7 7 7 7 7 7", "accepted 7 14 0 10000 1 0 0 0")
    );
    // Signs are told apart, and each place counts.
    let sums: BTreeSet<i64> = [
        &[][..],
        &[0],
        &[1],
        &[-1],
        &[2],
        &[-2],
        &[0, 0],
        &[0, 1],
        &[1, 0],
        &[i64::MIN],
        &[i64::MAX],
    ]
    .iter()
    .map(|numbers| checksum_of_numbers(numbers))
    .collect();
    assert_eq!(sums.len(), 11);
    assert_eq!(checksum_of_numbers(&[0]), 258);
    assert_eq!(checksum_of_numbers(&[-3]), 518);
}

/// The cells of a page: each row as words.
fn words(page: &[u8]) -> Vec<Vec<String>> {
    let rows = String::from_utf8(page.to_vec()).unwrap();
    rows.lines()
        .map(|row| row.split_whitespace().map(str::to_string).collect())
        .collect()
}

#[test]
fn pages_show_numbers_of_every_length_and_sign() {
    let mut found = BTreeSet::new();
    for case in all_cases(1) {
        let Input::WritePage { curves, .. } = case.input else {
            continue;
        };
        let mut page = [0; 1728];
        if write_page(&curves, &mut page).is_err() {
            continue;
        }
        for row in words(&page) {
            for (place, word) in row.iter().enumerate() {
                found.insert((place, word.starts_with('-'), word.len()));
            }
        }
    }
    let lengths = |place, minus| -> Vec<usize> {
        let of_place = found.iter().filter(|one| (one.0, one.1) == (place, minus));
        of_place.map(|one| one.2).collect()
    };
    assert_eq!(lengths(2, false), [1, 2, 3, 4, 5, 6, 7, 8]);
    assert_eq!(lengths(2, true), [2, 3, 4, 5, 6, 7, 8, 9]);
    assert_eq!(lengths(3, false), [1, 2, 3, 4, 5, 6, 7, 8]);
    // The least probability above 0 has three digits.
    for place in 4..8 {
        assert_eq!(lengths(place, false), [1, 3, 4, 5, 6, 7, 8, 9, 10]);
    }
}

#[test]
fn pages_of_the_same_pairs_have_one_answer() {
    let cases = all_cases(1);
    let same = cases
        .iter()
        .filter(|case| case.label.starts_with("a page of the same pairs, "));
    let answers: Vec<String> = same.map(|case| answer(&case.input).line()).collect();
    assert_eq!(answers.len(), 4);
    assert!(answers.iter().all(|line| *line == answers[0]));
}

/// The page whose rows differ in their names alone.
fn page_of(row: &str) -> String {
    let seasons = ["winter", "spring", "summer", "fall  "];
    (0..24)
        .map(|group| format!("{} {} {row}\n", seasons[group / 6], group % 6))
        .collect()
}

#[test]
fn known_pages() {
    let cases = all_cases(1);
    let line = |label: &str| {
        let case = cases.iter().find(|case| case.label == label).unwrap();
        answer(&case.input).line()
    };
    // Mean 0, spread 1000000: one, two, three and four spreads above X.
    let page = page_of("        0  1000000  158655254   22750132    1349898      31671");
    assert_eq!(page.len(), 1728);
    assert_eq!(
        line("page: mean 0 and spread 1000000"),
        page.replace('\n', " ")
    );
    let written = format!("accepted {}", checksum(page.as_bytes()));
    assert_eq!(line("a page, VOLL 0"), written);
    assert_eq!(line("a page, X 20000000"), written);
    // A refusal leaves the buffer, and an accepted page what stands after it.
    for (label, refusal, length) in [
        ("a page, VOLL -1", "refused 1 line 0", 1728),
        ("a page, 1 comes before 14: VOLL -1", "refused 1 line 0", 0),
        (
            "a page of the mixed curves, buffer of 1727",
            "refused 14 line 0",
            1727,
        ),
    ] {
        let sum = checksum(&buffer(length));
        assert_eq!(line(label), format!("{refusal} {sum}"), "{label}");
    }
    // With spread 1 and mean 0 every step is far above the curve.
    let page = page_of("        0        1          0          0          0          0");
    let longer = [page.as_bytes(), &buffer(1729)[1728..]].concat();
    assert_eq!(
        line("a page of the shortest curves, buffer of 1729"),
        format!("accepted {}", checksum(&longer))
    );
    for (label, refused) in [
        (
            "page: a right text and ones, 4096 bytes in all",
            "refused=9 line=51",
        ),
        (
            "page: a right text and ones, 4097 bytes in all",
            "refused=2 line=0",
        ),
        ("page: cut at byte 0", "refused=3 line=1"),
        ("page: bytes \"\\n\" follow", "refused=9 line=51"),
    ] {
        assert_eq!(line(label), format!("{refused} text=curves "), "{label}");
    }
}

#[test]
fn known_answers() {
    let cases = all_cases(1);
    let line = |label: &str| {
        let case = cases.iter().find(|case| case.label == label).unwrap();
        answer(&case.input).line()
    };
    assert_eq!(
        line("the worked example"),
        "accepted 2707000 3000000 158655254 158655254 142393 71197"
    );
    assert_eq!(
        line("the worked example, line 14 made \"\""),
        "refused 5 line 14 7 7 7 7 7 7"
    );
    assert_eq!(
        line("price: the worked example"),
        "rs=2707000 rsns=3000000 pis=158655254 pins=158655254 online=142393 offline=71197 "
    );
    assert_eq!(
        line("price: the worked example, line 14 made \"\""),
        "refused=5 line=14 text=snapshot "
    );
    assert_eq!(line("curves: no hours"), "refused=12 line=0 text=settle ");
    let settled = line("errors [-1, 0] in every group");
    assert_eq!(settled, format!("refused 13 line 0{}", " 7".repeat(50)));
    assert_eq!(line("4096 load resources").split(' ').nth(1), Some("4096"));
    assert_eq!(
        line("4096 units, the last is G2047 again"),
        "refused 8 line 36864 7 7 7 7 7 7"
    );
    assert!(line("a fresh record").starts_with("refused 12 line 0"));
    assert_eq!(checksum(b""), 0);
    assert_eq!(checksum(&[0, 255]), 513);
}
