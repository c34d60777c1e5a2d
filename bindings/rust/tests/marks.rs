//! Numbers marked suspect (document 02, W-206).

mod common;
use common::*;
use ordc::{
    ControllableLoad, ControllableLoadMarks, CurveSet, Generator, GeneratorKind, GeneratorMarks,
    OtherLoad, OtherLoadMarks, Prices, Record, Refusal, Resource, Snapshot, Status, Unit,
};

const CURVES: &str = include_str!("../../python/examples/listing.curves");
const HOUR: &str = include_str!("../../python/examples/hour.txt");
const SUSPECT_HSL: &[u8] = include_bytes!("../../python/examples/snapshots/7-suspect-hsl.txt");
/// ALL_KINDS with marks on lines 50 and 51, HSL and base point of SOLAR_1, and 57, the net output of NUKE_1.
const MARKED: &str = include_str!("../../python/examples/snapshots/6-marked.txt");

/// What a mark on a generator's number does to the snapshot.
#[derive(Clone, Copy)]
enum Mark {
    TurnsBack,
    IsFine,
    /// Turns back where cold30 is 1, and is fine where it is 0.
    GoesByCold30,
}
use Mark::{GoesByCold30 as COLD, IsFine as FINE, TurnsBack as BACK};

const KINDS: [(GeneratorKind, &str); 4] = [
    (GeneratorKind::Gen, "gen"),
    (GeneratorKind::Wind, "wind"),
    (GeneratorKind::Irr, "irr"),
    (GeneratorKind::Nuke, "nuke"),
];
/// By status, for the kinds in the order of KINDS, as the request has it. Neither Non-Spin nor the 95 percent test has a
/// part in it.
const STATUSES: [(Status, &str, [Mark; 4]); 7] = [
    (Status::On, "ON", [BACK, BACK, FINE, FINE]),
    (Status::Off, "OFF", [COLD, FINE, FINE, COLD]),
    (Status::OffNs, "OFFNS", [BACK, BACK, BACK, BACK]),
    (Status::OnTest, "ONTEST", [FINE, FINE, FINE, FINE]),
    (Status::Startup, "STARTUP", [BACK, BACK, FINE, FINE]),
    (Status::Shutdown, "SHUTDOWN", [FINE, FINE, FINE, FINE]),
    (Status::Out, "OUT", [FINE, FINE, FINE, FINE]),
];

/// A unit with one reading marked, its lines from `kind` on, and what becomes of the snapshot.
struct Case {
    unit: Unit,
    lines: String,
    /// The unit without the mark, and its lines.
    unmarked: (Unit, String),
    /// The line of the marked number, where it turns the snapshot back; the resource's first line is 9.
    refused_at: Option<u64>,
}

/// The lines with a `?` at the end of one of them, counted from 0.
fn marked_at(lines: &str, index: usize) -> String {
    let mut lines: Vec<String> = lines.lines().map(String::from).collect();
    lines[index].push('?');
    lines.join("\n") + "\n"
}

/// Every generator with a mark on each of its readings: of each kind and status, below and at 95 percent of LSL, without
/// and with Non-Spin, and with each flag.
fn generators() -> Vec<Case> {
    let mut cases = vec![];
    for (status, status_word, marks) in STATUSES {
        for ((kind, kind_word), mark) in KINDS.into_iter().zip(marks) {
            for (net, nonspin, cold30) in [
                (94, 0, false),
                (94, 1, true),
                (95, 0, true),
                (95, 1, false),
                (-1, 0, false),
            ] {
                let turned_back = match mark {
                    BACK => true,
                    FINE => false,
                    COLD => cold30,
                };
                let plain = Generator {
                    kind,
                    status,
                    net,
                    lsl: 100,
                    hsl: 500,
                    base: 60,
                    nonspin,
                    cold30,
                    marks: GeneratorMarks::default(),
                };
                let lines = format!(
                    "kind={kind_word}\nstatus={status_word}\nnet={net}\nlsl=100\nhsl=500\nbase=60\nnonspin={nonspin}\ncold30={}\n",
                    u8::from(cold30)
                );
                for reading in 0..5 {
                    let mut unit = plain;
                    let marks = &mut unit.marks;
                    *[
                        &mut marks.net,
                        &mut marks.lsl,
                        &mut marks.hsl,
                        &mut marks.base,
                        &mut marks.nonspin,
                    ][reading] = true;
                    cases.push(Case {
                        unit: Unit::Generator(unit),
                        lines: marked_at(&lines, 2 + reading),
                        unmarked: (Unit::Generator(plain), lines.clone()),
                        refused_at: turned_back.then_some(12 + reading as u64),
                    });
                }
            }
        }
    }
    cases
}

/// Every load with a mark on each of its readings, also loads that add nothing: all of them are summed.
fn loads() -> Vec<Case> {
    let mut cases = vec![];
    for power in [0, 7] {
        let plain = ControllableLoad {
            base: power,
            lpc: power,
            nonspin: power,
            regup: power,
            marks: ControllableLoadMarks::default(),
        };
        let lines =
            format!("kind=clr\nbase={power}\nlpc={power}\nnonspin={power}\nregup={power}\n");
        for reading in 0..4 {
            let mut load = plain;
            let marks = &mut load.marks;
            *[
                &mut marks.base,
                &mut marks.lpc,
                &mut marks.nonspin,
                &mut marks.regup,
            ][reading] = true;
            cases.push(Case {
                unit: Unit::ControllableLoad(load),
                lines: marked_at(&lines, 1 + reading),
                unmarked: (Unit::ControllableLoad(plain), lines.clone()),
                refused_at: Some(11 + reading as u64),
            });
        }
        for rrsok in [false, true] {
            let plain = OtherLoad {
                rrsok,
                net: power,
                lpc: power,
                rrs: power,
                marks: OtherLoadMarks::default(),
            };
            let lines = format!(
                "kind=nclr\nrrsok={}\nnet={power}\nlpc={power}\nrrs={power}\n",
                u8::from(rrsok)
            );
            for reading in 0..3 {
                let mut load = plain;
                let marks = &mut load.marks;
                *[&mut marks.net, &mut marks.lpc, &mut marks.rrs][reading] = true;
                cases.push(Case {
                    unit: Unit::OtherLoad(load),
                    lines: marked_at(&lines, 2 + reading),
                    unmarked: (Unit::OtherLoad(plain), lines.clone()),
                    refused_at: Some(12 + reading as u64),
                });
            }
        }
    }
    cases
}

fn curves() -> CurveSet {
    CurveSet::from_text(CURVES.as_bytes()).unwrap()
}

fn suspect(line: u64) -> Refusal {
    Refusal { number: 15, line }
}

/// ALL_KINDS with a `?` at the end of these lines, counted from 1.
fn with_marks(lines: &[usize]) -> String {
    let text = ALL_KINDS.to_string();
    lines
        .iter()
        .fold(text, |text, line| marked_at(&text, line - 1))
}

/// Where a mark turns the snapshot back, so do reading, pricing and writing, at the number's line. Elsewhere the mark is
/// kept both ways, takes one byte and changes no price.
#[test]
fn a_mark_turns_back_by_its_unit() {
    for case in generators().into_iter().chain(loads()) {
        let header = "month=7\nhour=14\nlambda=2500\nfactor=10000\nprc=3000000\neea1=2300000\nshort=0\ncount=1\nid=A\n";
        let snapshot_of = |unit| Snapshot {
            month: 7,
            hour: 14,
            lambda: 2500,
            factor: 10_000,
            prc: 3_000_000,
            eea1: 2_300_000,
            short: 0,
            resources: vec![Resource {
                id: "A".to_string(),
                unit,
            }],
        };
        let text = format!("{header}{}", case.lines);
        let snapshot = snapshot_of(case.unit);
        let (unmarked, plain_lines) = case.unmarked;
        let plain = format!("{header}{plain_lines}");
        let price = curves().price(plain.as_bytes()).unwrap();
        assert_eq!(snapshot_of(unmarked).to_text().unwrap(), plain.as_bytes());
        let text = text.as_bytes();
        if let Some(line) = case.refused_at {
            refused(text, 15, line);
            assert_eq!(curves().price(text), Err(suspect(line)), "{}", case.lines);
            assert_eq!(snapshot.to_text(), Err(suspect(line)));
            assert_eq!(snapshot.text_length(), Err(suspect(line)));
            let mut buffer = [7; 500];
            assert_eq!(snapshot.write_text(&mut buffer), Err(suspect(line)));
            assert_eq!(buffer, [7; 500]);
        } else {
            assert_eq!(curves().price(text), Ok(price), "{}", case.lines);
            assert_eq!(Snapshot::from_text(text).as_ref(), Ok(&snapshot));
            assert_eq!(snapshot.to_text().unwrap(), text);
            assert_eq!(snapshot.text_length(), Ok(plain.len() + 1));
        }
    }
}

/// The snapshot of docs/FORMAT.md with marks on units that enter no sum has the price that is worked out there.
#[test]
fn marks_are_kept_and_change_no_price() {
    assert_eq!(MARKED, with_marks(&[50, 51, 57]));
    let prices = Prices {
        rs: 2_626_301,
        rsns: 3_194_701,
        pis: 187_850_153,
        pins: 116_104_844,
        online: 136_096,
        offline: 51_986,
    };
    assert_eq!(curves().price(MARKED.as_bytes()), Ok(prices));
    let snapshot = Snapshot::from_text(MARKED.as_bytes()).unwrap();
    let mut unmarked = Snapshot::from_text(ALL_KINDS.as_bytes()).unwrap();
    for (row, marks) in [
        (
            4,
            GeneratorMarks {
                hsl: true,
                base: true,
                ..GeneratorMarks::default()
            },
        ),
        (
            5,
            GeneratorMarks {
                net: true,
                ..GeneratorMarks::default()
            },
        ),
    ] {
        if let Unit::Generator(unit) = &mut unmarked.resources[row].unit {
            unit.marks = marks;
        }
    }
    assert_eq!(snapshot, unmarked);
    // HSL is the third number and base point the fourth, 4 + 8; the net output is the first.
    let mut held = Held::rows(9);
    held.read(MARKED.as_bytes()).unwrap();
    let mut expected = Held::all_kinds();
    *expected.number(4, 8) = 4 + 8;
    *expected.number(5, 8) = 1;
    assert_eq!(held, expected);
    assert_eq!(held.text(), MARKED.as_bytes());
    // C of the listing is OFFNS, and its HSL stands in line 32.
    refused(SUSPECT_HSL, 15, 32);
    assert_eq!(curves().price(SUSPECT_HSL), Err(suspect(32)));
}

/// Each set of marks that a generator can have, in a row and in the text.
#[test]
fn marks_of_a_row_are_added_up() {
    for marks in 0..32_i64 {
        let lines: Vec<usize> = (0..5).filter(|bit| marks >> bit & 1 == 1).collect();
        let lines: Vec<usize> = lines.into_iter().map(|bit| 48 + bit).collect();
        let text = with_marks(&lines);
        let mut held = Held::all_kinds();
        *held.number(4, 8) = marks;
        assert_eq!(held.text(), text.as_bytes());
        let mut read = Held::rows(9);
        assert_eq!(read.read(text.as_bytes()), Ok(()));
        assert_eq!(read, held);
        assert_eq!(
            Snapshot::from_text(text.as_bytes()).unwrap().to_text(),
            Ok(text.into_bytes())
        );
    }
}

/// Marks are put in from the last line to the first: the first one on a unit that a mark turns back is told, and those on
/// SOLAR_1 and NUKE_1 are passed over.
#[test]
fn the_first_suspect_line_is_told() {
    let mut lines = vec![];
    for (line, first) in [
        (80, 80),
        (79, 79),
        (72, 72),
        (68, 68),
        (65, 65),
        (57, 65),
        (50, 65),
        (43, 43),
        (39, 39),
        (34, 34),
        (23, 23),
        (16, 16),
        (12, 12),
    ] {
        lines.push(line);
        refused(with_marks(&lines).as_bytes(), 15, first);
    }
}

/// A fault of any line, also of a later one, and bytes after the last line come before 15; so does an impossible curve set.
#[test]
fn every_other_refusal_of_a_text_comes_first() {
    let text = with_marks(&[12]);
    refused(text.as_bytes(), 15, 12);
    refused(&text.as_bytes()[..text.len() - 1], 3, 80);
    refused(text.replace("rrs=150000", "RRS=150000").as_bytes(), 4, 80);
    refused(with_line(&text, 80, "").as_bytes(), 5, 80);
    refused(with_line(&text, 80, "1.5").as_bytes(), 6, 80);
    refused(with_line(&text, 80, "2000001").as_bytes(), 7, 80);
    refused(with_line(&text, 75, "GAS_1").as_bytes(), 8, 75);
    refused(format!("{text}x").as_bytes(), 9, 81);
    let mut impossible = curves();
    impossible.voll = -1;
    assert_eq!(
        impossible.price(text.as_bytes()),
        Err(Refusal { number: 1, line: 0 })
    );
}

/// One `?` after a well-written number. What is badly written or out of range is refused by that, on SOLAR_1, where a mark
/// is fine, and on GAS_1, where it turns the snapshot back. The net output of both may be below zero, LSL may not.
#[test]
fn how_a_mark_is_written() {
    for (first, turned_back) in [(12, true), (48, false)] {
        for value in [
            "?", "-?", "5??", "?5", "?5?", "5?5", "-0?", "05?", "-05?", "+5?", "5 ?", "5? ", "5?\r",
        ] {
            for line in [first, first + 1] {
                refused(with_line(ALL_KINDS, line, value).as_bytes(), 6, line as u64);
            }
        }
        for value in ["2000001?", "-2000001?", "99999999999999999999?"] {
            for line in [first, first + 1] {
                refused(with_line(ALL_KINDS, line, value).as_bytes(), 7, line as u64);
            }
        }
        refused(
            with_line(ALL_KINDS, first + 1, "-5?").as_bytes(),
            7,
            first as u64 + 1,
        );
        for value in ["0?", "-5?", "2000000?", "-2000000?"] {
            let text = with_line(ALL_KINDS, first, value);
            if turned_back {
                refused(text.as_bytes(), 15, first as u64);
            } else {
                let snapshot = Snapshot::from_text(text.as_bytes()).unwrap();
                assert_eq!(snapshot.to_text(), Ok(text.into_bytes()));
            }
        }
    }
}

/// Words, ids, flags and the numbers of the header carry no mark, nor does any number of an hour or a curve text.
#[test]
fn what_carries_no_mark() {
    // id and kind, of a generator also status and cold30, of an nclr rrsok
    let mut lines: Vec<u64> = (1..9).collect();
    for (row, first) in FIRST_LINES.into_iter().enumerate() {
        lines.extend([first, first + 1]);
        match row {
            0..=5 => lines.extend([first + 2, first + 8]),
            6 => {}
            _ => lines.push(first + 2),
        }
    }
    for line in lines {
        refused(with_marks(&[line as usize]).as_bytes(), 6, line);
    }
    let badly_written = |line: usize| Refusal {
        number: 6,
        line: line as u64 + 1,
    };
    for line in 0..HOUR.lines().count() {
        let answer = Record::default().book(marked_at(HOUR, line).as_bytes());
        assert_eq!(answer, Err(badly_written(line)));
    }
    for line in 0..CURVES.lines().count() {
        let answer = CurveSet::from_text(marked_at(CURVES, line).as_bytes());
        assert_eq!(answer, Err(badly_written(line)));
    }
}

/// The mark of each place of each row. Below 0 the magnitude counts, and digits beyond the six or four numbers of the kind
/// are not looked at. On a flag a mark is badly written, also where the flag is out of range. A number out of range is 7
/// with a mark and without.
#[test]
fn marks_at_place_8() {
    let suspect_rows = [true, true, true, true, false, false, true, true, true];
    for (row, first) in FIRST_LINES.into_iter().enumerate() {
        let (numbers, words, flag) = match row {
            0..=5 => (6, 3, Some(7)),
            6 => (4, 2, None),
            _ => (4, 2, Some(2)),
        };
        let beyond = !0_i64 << numbers & i64::MAX;
        for unseen in [beyond, 1 << numbers, 1 << 62, i64::MIN, -(1 << numbers)] {
            let mut held = Held::all_kinds();
            *held.number(row, 8) = unseen;
            assert_eq!(held.text(), ALL_KINDS.as_bytes());
        }
        for place in 2..2 + numbers {
            let line = first + words + place as u64 - 2;
            let mark = 1_i64 << (place - 2);
            for marks in [
                mark,
                -mark,
                mark + (1 << numbers),
                -(mark + (1 << numbers)),
                mark | beyond,
                -(mark | beyond),
            ] {
                let mut held = Held::all_kinds();
                *held.number(row, 8) = marks;
                if flag == Some(place) {
                    held.refused(6, line);
                    *held.number(row, place) = 2;
                    held.refused(6, line);
                } else {
                    if suspect_rows[row] {
                        held.refused(15, line);
                    } else {
                        let text = with_marks(&[line as usize]);
                        assert_eq!(held.text(), text.as_bytes());
                    }
                    *held.number(row, place) = 2_000_001;
                    held.refused(7, line);
                }
            }
        }
    }
}

/// In writing 6, 7 and 8 of any line come before 15, and 15 before 14.
#[test]
fn the_order_of_writing() {
    let mut held = Held::all_kinds();
    *held.number(0, 8) = 1;
    held.refused(15, 12);
    *held.number(8, 5) = -1;
    held.refused(7, 80);
    *held.number(8, 8) = 1;
    held.refused(6, 77);
    held.set_id(8, b"GAS_1");
    held.refused(8, 75);
    *held.number(7, 0) = 6;
    held.refused(6, 70);
    // The lesser of two lines of suspect numbers, and the lesser of two numbers of a row.
    let mut held = Held::all_kinds();
    *held.number(8, 8) = 8;
    held.refused(15, 80);
    *held.number(8, 8) = 2 + 8;
    held.refused(15, 78);
    *held.number(6, 8) = 15;
    held.refused(15, 65);
    *held.number(5, 8) = 31;
    held.refused(15, 65);
    *held.number(3, 8) = 16;
    held.refused(15, 43);
}

/// A unit that a mark turns back is fine once it is out of service, and the other way round.
#[test]
fn a_changed_status_changes_what_a_mark_does() {
    let mut snapshot = Snapshot::from_text(MARKED.as_bytes()).unwrap();
    let Unit::Generator(solar) = &mut snapshot.resources[4].unit else {
        panic!("SOLAR_1 is a generator");
    };
    solar.status = Status::OffNs;
    assert_eq!(snapshot.to_text(), Err(suspect(50)));
    let Unit::Generator(solar) = &mut snapshot.resources[4].unit else {
        panic!("SOLAR_1 is a generator");
    };
    solar.status = Status::Out;
    let text = with_line(MARKED, 47, "OUT");
    assert_eq!(snapshot.to_text(), Ok(text.into_bytes()));
}

#[test]
fn the_refusal_is_explained() {
    assert_eq!(
        suspect(32).to_string(),
        "refused by 15, line 32: a number is marked suspect, on a unit where that turns the snapshot back"
    );
}
