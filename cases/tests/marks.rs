//! Numbers marked suspect (W-206): the answers that the request itself gives,
//! beside those of the reference.

use cases::{all_cases, answer, Answer, Input};
use reference::Refusal;
use std::collections::{BTreeMap, BTreeSet};

/// What a mark on a number of a unit does.
#[derive(Clone, Copy, Debug, PartialEq, Eq)]
enum Mark {
    TurnsBack,
    IsFine,
    /// Turns back where cold30 is 1.
    ByCold30,
}

use Mark::{ByCold30, IsFine, TurnsBack};

/// By status, for gen, wind, irr and nuke. Neither Non-Spin nor the 95 percent has
/// a part in it.
const VERDICTS: [(&str, [Mark; 4]); 7] = [
    ("ON", [TurnsBack, TurnsBack, IsFine, IsFine]),
    ("OFF", [ByCold30, IsFine, IsFine, ByCold30]),
    ("OFFNS", [TurnsBack; 4]),
    ("ONTEST", [IsFine; 4]),
    ("STARTUP", [TurnsBack, TurnsBack, IsFine, IsFine]),
    ("SHUTDOWN", [IsFine; 4]),
    ("OUT", [IsFine; 4]),
];

const KINDS: [&str; 4] = ["gen", "wind", "irr", "nuke"];

fn is_fine(kind: &str, status: &str, cold30: &str) -> bool {
    let kind = KINDS.iter().position(|one| *one == kind).unwrap();
    let (_, verdicts) = VERDICTS.iter().find(|(one, _)| *one == status).unwrap();
    match verdicts[kind] {
        TurnsBack => false,
        IsFine => true,
        ByCold30 => cold30 == "0",
    }
}

/// The cases by their labels; of a label that comes again, the first.
fn inputs() -> BTreeMap<String, Input> {
    let mut inputs = BTreeMap::new();
    for case in all_cases(1) {
        inputs.entry(case.label).or_insert(case.input);
    }
    inputs
}

/// The number and the line of a refusal, none where the input is accepted.
fn refused(answer: &Answer) -> Option<(u32, u64)> {
    match answer {
        Answer::Accepted(_) => None,
        Answer::Refused(Refusal { number, line }, _) => Some((*number, *line)),
        Answer::Printed(lines) => {
            let mut lines = lines.lines();
            let number = lines.next()?.strip_prefix("refused=")?;
            let line = lines.next()?.strip_prefix("line=")?;
            Some((number.parse().unwrap(), line.parse().unwrap()))
        }
        // The length and the writing are refused alike, but for a short buffer.
        Answer::Two(asked, written) => {
            let (asked, written) = (refused(asked), refused(written));
            if written != Some((14, 0)) {
                assert_eq!(asked, written);
            }
            written
        }
    }
}

/// The input with a text without marks.
fn unmarked(input: &Input) -> Input {
    let mut input = input.clone();
    if let Input::Price { text, .. } | Input::ReadValues { text, .. } = &mut input {
        let bytes = text.bytes();
        *text = bytes
            .into_iter()
            .filter(|&byte| byte != b'?')
            .collect::<Vec<u8>>()
            .into();
    }
    input
}

/// The lines of the numbers of a unit beside a load, by their keys.
const LINES: [(&str, u64); 7] = [
    ("net", 18),
    ("lsl", 19),
    ("hsl", 20),
    ("base", 21),
    ("nonspin", 22),
    ("cold30", 23),
    ("every number", 18),
];

#[test]
fn a_mark_goes_by_kind_status_and_cold30_alone() {
    let inputs = inputs();
    let mut found = 0;
    for (status, _) in VERDICTS {
        for kind in KINDS {
            for cold30 in ["0", "1"] {
                for nonspin in ["0", "70"] {
                    for net in ["189", "190"] {
                        for (key, line) in LINES {
                            let due = match key {
                                "cold30" => Some((6, line)),
                                _ if is_fine(kind, status, cold30) => None,
                                _ => Some((15, line)),
                            };
                            for way in ["", "values, ", "written, "] {
                                let label = format!(
                                    "{way}{kind} {status} cold30 {cold30} nonspin {nonspin} \
                                     net {net} of 200, {key} marked"
                                );
                                let input = &inputs[&label];
                                assert_eq!(refused(&answer(input)), due, "{label}");
                                found += 1;
                            }
                        }
                    }
                }
            }
        }
    }
    assert_eq!(found, 7 * 4 * 2 * 2 * 2 * 7 * 3);
}

#[test]
fn a_mark_on_any_load_turns_back_and_on_a_flag_is_badly_written() {
    let inputs = inputs();
    for (load, keys) in [
        ("clr", ["base", "lpc", "nonspin", "regup"]),
        ("clr of zeros", ["base", "lpc", "nonspin", "regup"]),
        ("nclr rrsok 1", ["rrsok", "net", "lpc", "rrs"]),
        ("nclr rrsok 0", ["rrsok", "net", "lpc", "rrs"]),
        ("nclr of zeros", ["rrsok", "net", "lpc", "rrs"]),
    ] {
        for (line, key) in (17..).zip(keys) {
            let number = if key == "rrsok" { 6 } else { 15 };
            for way in ["", "values, ", "written, "] {
                let label = format!("{way}{load}, {key} marked");
                let answer = answer(&inputs[&label]);
                assert_eq!(refused(&answer), Some((number, line)), "{label}");
            }
        }
    }
}

#[test]
fn an_accepted_text_prices_as_if_it_had_no_marks() {
    let mut accepted = 0;
    for case in all_cases(1) {
        let Input::Price { text, .. } = &case.input else {
            continue;
        };
        let with_marks = answer(&case.input);
        if text.bytes().contains(&b'?') && refused(&with_marks).is_none() {
            assert_eq!(with_marks, answer(&unmarked(&case.input)), "{}", case.label);
            accepted += 1;
        }
    }
    assert!(accepted > 800, "{accepted}");
}

#[test]
fn a_mark_is_seen_in_what_is_read_and_in_what_is_written() {
    let inputs = inputs();
    let unit = "gen OUT cold30 0 nonspin 70 net 190 of 200";
    let line = |label: String| answer(&inputs[&label]).line();
    let keys = ["net", "lsl", "hsl", "base", "nonspin", "every number"];
    let read: BTreeSet<String> = keys
        .iter()
        .map(|key| line(format!("values, {unit}, {key} marked")))
        .collect();
    assert_eq!(read.len(), keys.len());
    let written: BTreeSet<String> = keys
        .iter()
        .map(|key| line(format!("written, {unit}, {key} marked")))
        .collect();
    assert_eq!(written.len(), keys.len());
    // Five marks take five bytes, whether they come from values or from a text.
    let plain = "month=7\nhour=14\nlambda=0\nfactor=10000\nprc=1\neea1=0\nshort=0\ncount=2\n\
                 id=FIRST\nkind=clr\nbase=500\nlpc=0\nnonspin=0\nregup=0\n\
                 id=A\nkind=gen\nstatus=OUT\nnet=190\nlsl=200\nhsl=1000\nbase=300\nnonspin=70\n\
                 cold30=0\n";
    let length = plain.len();
    let told = line(format!("written, {unit}, every number marked"));
    let both = format!("accepted {0} accepted {0} ", length + 5);
    assert!(told.starts_with(&both), "{told}");
    assert_eq!(
        line(format!("written, {unit}, every number marked in the text")),
        told
    );
    let told = line(format!("written, {unit}, hsl marked"));
    let both = format!("accepted {0} accepted {0} ", length + 1);
    assert!(told.starts_with(&both), "{told}");
}

/// The refusal of the case with this label.
fn refusal(inputs: &BTreeMap<String, Input>, label: &str) -> Option<(u32, u64)> {
    let input = inputs.get(label).unwrap_or_else(|| panic!("{label}"));
    refused(&answer(input))
}

#[test]
fn forms_of_a_marked_number() {
    let inputs = inputs();
    // The first unit is one on which a mark is fine, the second is not.
    for (form, fine, counted) in [
        ("0?", None, Some((15, 21))),
        ("5?", None, Some((15, 21))),
        ("-5?", None, Some((15, 21))),
        ("?", Some((6, 12)), Some((6, 21))),
        ("-?", Some((6, 12)), Some((6, 21))),
        ("5??", Some((6, 12)), Some((6, 21))),
        ("?5", Some((6, 12)), Some((6, 21))),
        ("-0?", Some((6, 12)), Some((6, 21))),
        ("05?", Some((6, 12)), Some((6, 21))),
        ("5? ", Some((6, 12)), Some((6, 21))),
    ] {
        for way in ["", "values, "] {
            let label = |at: u64| format!("{way}line {at} written {form:?}");
            assert_eq!(refusal(&inputs, &label(12)), fine, "{form}");
            assert_eq!(refusal(&inputs, &label(21)), counted, "{form}");
        }
    }
    // Only net may be below 0, so that elsewhere -5 is out of range.
    assert_eq!(refusal(&inputs, "line 14 written \"-5?\""), Some((7, 14)));
    assert_eq!(
        refusal(&inputs, "values, line 17 written \"0?\""),
        Some((6, 17))
    );
    for (value, due) in [
        ("-2000001", Some((7, 12))),
        ("-2000000", None),
        ("2000000", None),
        ("2000001", Some((7, 12))),
    ] {
        let label = format!("line 12 marked at {value}");
        assert_eq!(refusal(&inputs, &label), due, "{label}");
    }
    assert_eq!(
        refusal(&inputs, "line 29 marked at 2000000"),
        Some((15, 29))
    );
    assert_eq!(refusal(&inputs, "line 29 marked at 2000001"), Some((7, 29)));
}

#[test]
fn where_a_mark_cannot_be() {
    let inputs = inputs();
    for (at, key, form) in [
        (1, "month", "7?"),
        (2, "hour", "14?"),
        (3, "lambda", "0?"),
        (4, "factor", "10000?"),
        (5, "prc", "1?"),
        (6, "eea1", "0?"),
        (7, "short", "0?"),
        (8, "count", "3?"),
        (9, "id", "A?"),
        (10, "kind", "gen?"),
        (11, "status", "ON?"),
        (17, "cold30", "0?"),
        (19, "kind", "clr?"),
        (26, "rrsok", "1?"),
    ] {
        for way in ["", "values, "] {
            let label = format!("{way}line {at} {key} can have no mark, written {form:?}");
            assert_eq!(refusal(&inputs, &label), Some((6, at)), "{label}");
        }
    }
    for at in 1..=22 {
        let label = format!("hour with a mark on line {at}");
        assert_eq!(refusal(&inputs, &label), Some((6, at)), "{label}");
    }
    for at in 1..=50 {
        let label = format!("curve text with a mark on line {at}");
        assert_eq!(refusal(&inputs, &label), Some((6, at)), "{label}");
    }
    assert_eq!(refusal(&inputs, "curves: a mark on line 2"), Some((6, 2)));
    assert_eq!(
        refusal(&inputs, "curves: a mark on line 13 of an hour"),
        Some((6, 13))
    );
    assert_eq!(refusal(&inputs, "page: a mark on line 50"), Some((6, 50)));
}

#[test]
fn every_other_fault_of_a_text_comes_before_a_mark() {
    let inputs = inputs();
    for (label, due) in [
        // The marks are on lines that a fault stands above, and below.
        ("a mark on line 16, and line 12 net: badly written", (6, 12)),
        (
            "a mark on line 16, and line 29 rrs: below its range",
            (7, 29),
        ),
        ("a mark on line 16, and line 29 rrs: empty value", (5, 29)),
        ("a mark on line 16, and line 29 rrs: wrong key", (4, 29)),
        (
            "a mark on line 16, and line 29 rrs: lacks its byte 10",
            (3, 29),
        ),
        ("a mark on line 16, and line 1 month: absent", (3, 1)),
        (
            "values, a mark on line 12, and line 29 rrs: above its range",
            (7, 29),
        ),
        (
            "values, a mark on line 29, and line 12 net: above its range",
            (7, 12),
        ),
        ("a mark on line 12, the id B again on line 24", (8, 24)),
        ("a mark on line 29, the id A again on line 18", (8, 18)),
        ("a mark on line 12, bytes \"x\" follow", (9, 30)),
        ("a mark on line 29, bytes \"?\" follow", (9, 30)),
        ("a mark on line 12, 3 resources said to be 1", (9, 18)),
        ("a mark on line 12, 3 resources said to be 0", (9, 9)),
        ("a mark on line 12, 3 resources said to be 4", (3, 30)),
        ("a mark on line 12, a text at its limit of bytes", (9, 30)),
        (
            "a mark on line 12, a text one over its limit of bytes",
            (2, 0),
        ),
        (
            "values, a mark on line 29, a text one over its limit of bytes",
            (2, 0),
        ),
        ("a mark on line 29, 1 comes first", (1, 0)),
        // 15 comes before 14.
        ("a mark on line 21, into 0 rows", (15, 21)),
        ("a mark on line 38, into 3 rows", (15, 38)),
        ("a mark on line 12, into 3 rows", (14, 0)),
        // The first line of several.
        ("values, marks on the lines 21 and 38", (15, 21)),
        ("values, marks on the lines 12 and 38", (15, 38)),
        ("values, marks on the lines 32 and 36", (15, 32)),
        ("marks on every line that can have one", (15, 21)),
        ("a first clr with a mark on line 11", (15, 11)),
        ("price: the worked example, a mark on line 14", (15, 14)),
        ("price: the worked example, a mark on line 34", (15, 34)),
        ("price: the worked example, a mark on line 35", (6, 35)),
        ("price: the worked example, a mark on line 5", (6, 5)),
        ("price: a mark on line 50 of the curves", (6, 50)),
        (
            "the longest marked text, the last ON, nonspin marked alone",
            (15, 36_871),
        ),
        ("the longest marked text, the last ON", (15, 36_867)),
        (
            "the longest marked text, the last ON, its flag at 2",
            (7, 36_872),
        ),
        (
            "the longest marked text, the last ON, its flag marked",
            (6, 36_872),
        ),
        (
            "the longest marked text, the last ON, its id again",
            (8, 36_864),
        ),
        (
            "the longest marked text, the last ON, a byte follows",
            (9, 36_873),
        ),
        (
            "values, the longest marked text, the last ON, into 0 rows",
            (15, 36_867),
        ),
        (
            "values, the longest marked text, as it is, into 4095 rows",
            (14, 0),
        ),
    ] {
        assert_eq!(refusal(&inputs, label), Some(due), "{label}");
    }
    for label in [
        "marks on every line of the first unit",
        "values, marks on the lines 12 and 16",
        "a mark on line 12, into 4 rows",
        "the longest marked text, as it is",
        "values, the longest marked text, as it is, into 4096 rows",
    ] {
        assert_eq!(refusal(&inputs, label), None, "{label}");
    }
}

#[test]
fn marks_that_are_written() {
    let inputs = inputs();
    for (label, due) in [
        // Row 0 is ON, row 2 ONTEST; rows 4 and 5 are a clr and an nclr.
        ("marks 1 in row 0", Some((15, 12))),
        ("marks -1 in row 0", Some((15, 12))),
        ("marks 16 in row 0", Some((15, 16))),
        ("marks -24 in row 0", Some((15, 15))),
        ("marks 32 in row 0", Some((6, 17))),
        ("marks 33 in row 0", Some((6, 17))),
        ("marks 63 in row 0", Some((6, 17))),
        ("marks 64 in row 0", None),
        ("marks 31 in row 2", None),
        ("marks -31 in row 2", None),
        ("marks 32 in row 2", Some((6, 35))),
        ("marks 1 in row 4", Some((15, 47))),
        ("marks 8 in row 4", Some((15, 50))),
        ("marks 16 in row 4", None),
        ("marks 48 in row 4", None),
        ("marks -18 in row 4", Some((15, 48))),
        ("marks 1 in row 5", Some((6, 53))),
        ("marks 2 in row 5", Some((15, 54))),
        ("marks -8 in row 5", Some((15, 56))),
        ("marks 16 in row 5", None),
        // Of the least number the magnitude is the binary digit above all others.
        ("marks -9223372036854775808 in row 0", None),
        ("marks -9223372036854775807 in row 0", Some((6, 17))),
        ("marks -9223372036854775776 in row 0", Some((6, 17))),
        ("marks -9223372036854775777 in row 2", Some((6, 35))),
        ("marks 9223372036854775807 in row 1", Some((6, 26))),
        ("marks 9223372036854775775 in row 1", None),
        ("marks 4294967296 in row 0", None),
        ("marks 4294967297 in row 0", Some((15, 12))),
        ("marks -4294967312 in row 0", Some((15, 16))),
        // A flag that is marked is badly written, also out of its range.
        ("marks 32 and a flag of 2 in row 0", Some((6, 17))),
        ("marks 1 and a flag of -1 in row 5", Some((6, 53))),
        (
            "a marked flag in row 1, and cold30 at line 17",
            Some((7, 17)),
        ),
        (
            "a marked flag in row 1, and no id at line 27",
            Some((6, 26)),
        ),
        ("a marked flag in row 5, and rrs at line 56", Some((6, 53))),
        (
            "a marked flag in row 5, and regup at line 50",
            Some((7, 50)),
        ),
        ("marked flags in the rows 5 and 1", Some((6, 26))),
        // Faults of any line come before a mark.
        ("a mark on line 12, and month at line 1", Some((7, 1))),
        ("a mark on line 12, and rrs at line 56", Some((7, 56))),
        (
            "a mark on line 12, and the id again at line 51",
            Some((8, 51)),
        ),
        ("a mark on line 56, and the kind at line 10", Some((6, 10))),
        ("a mark on line 12, buffer of 0", Some((15, 12))),
        ("a mark on line 56, buffer of 1", Some((15, 56))),
        ("marks 16 in row 0, 1 in row 0, fine ones", Some((15, 12))),
        ("marks 8 in row 5, 1 in row 4, fine ones", Some((15, 47))),
        ("row 1 place 2 marked at -2000001", Some((7, 21))),
        ("row 1 place 2 marked at -1", None),
        ("row 0 place 2 marked at 0", Some((15, 12))),
    ] {
        let label = format!("written, {label}");
        assert_eq!(refusal(&inputs, &label), due, "{label}");
    }
    for (label, due) in [
        ("buffer of 516198", None),
        ("buffer of 516197", Some((14, 0))),
        ("buffer of 524288", None),
        ("the first ON", Some((15, 12))),
        ("one in the middle ON", Some((15, 18_435))),
        ("the last ON", Some((15, 36_867))),
        ("the last ON, its Non-Spin marked alone", Some((15, 36_871))),
        ("the first ON, the last flag marked", Some((6, 36_872))),
        ("the first ON, the last flag at 2", Some((7, 36_872))),
        ("the first ON, the last id ill-formed", Some((6, 36_864))),
        ("one in the middle not marked", None),
        ("one in the middle not marked, no buffer", Some((14, 0))),
        ("the last ON, no buffer", Some((15, 36_867))),
    ] {
        let label = format!("the longest marked text written, {label}");
        assert_eq!(refusal(&inputs, &label), due, "{label}");
    }
    let longest = &inputs["the longest marked text written, buffer of 516198"];
    let line = answer(longest).line();
    assert!(
        line.starts_with("accepted 516198 accepted 516198 "),
        "{line}"
    );
}
