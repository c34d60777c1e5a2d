//! Numbers marked suspect: which are turned back, and how marks are kept.

mod common;
use common::held::*;
use common::*;
use reference::{
    book, number, price_snapshot, read_curves, read_snapshot, run_price, turned_back_by_a_mark,
    write_held, Clr, Generator, GeneratorKind, Nclr, Prices, Record, Refusal, Status, Unit,
    NUMBER_ROW,
};

const KINDS: [&str; 6] = ["gen", "wind", "irr", "nuke", "clr", "nclr"];
const STATUSES: [&str; 7] = ["ON", "OFF", "OFFNS", "ONTEST", "STARTUP", "SHUTDOWN", "OUT"];
const CLR: usize = 4;
const NCLR: usize = 5;

/// What a mark on a generator's number does to the snapshot.
#[derive(Clone, Copy, PartialEq)]
enum Mark {
    TurnsBack,
    IsFine,
    /// Turns back where cold30 is 1, and is fine where it is 0.
    GoesByCold30,
}

use Mark::{GoesByCold30 as COLD, IsFine as FINE, TurnsBack as BACK};

/// The verdicts by status, in the order of `STATUSES`, and kind. Neither
/// Non-Spin nor the 95 percent test has a part in them.
#[rustfmt::skip]
const VERDICTS: [[Mark; 4]; 7] = [
    // gen wind  irr   nuke
    [BACK, BACK, FINE, FINE], // ON
    [COLD, FINE, FINE, COLD], // OFF
    [BACK, BACK, BACK, BACK], // OFFNS
    [FINE, FINE, FINE, FINE], // ONTEST
    [BACK, BACK, FINE, FINE], // STARTUP
    [FINE, FINE, FINE, FINE], // SHUTDOWN
    [FINE, FINE, FINE, FINE], // OUT
];

/// The number keys of a kind, and the place of the one that is a flag.
fn number_keys(kind: usize) -> (&'static [&'static str], Option<usize>) {
    match kind {
        CLR => (&["base", "lpc", "nonspin", "regup"], None),
        NCLR => (&["rrsok", "net", "lpc", "rrs"], Some(0)),
        _ => (&["net", "lsl", "hsl", "base", "nonspin", "cold30"], Some(5)),
    }
}

/// A resource as a row, whose last place holds the marks.
#[derive(Clone, Copy, Debug)]
struct Case {
    row: Row,
    turned_back: bool,
}

impl Case {
    fn kind(&self) -> usize {
        self.row[0] as usize
    }

    fn marked(mut self, marks: i64) -> Case {
        self.row[8] = marks;
        self
    }

    /// How many lines stand before the numbers.
    fn words(&self) -> u64 {
        if self.kind() < CLR {
            3
        } else {
            2
        }
    }

    fn lines(&self) -> u64 {
        self.words() + number_keys(self.kind()).0.len() as u64
    }

    /// Every set of marks on numbers that can carry one, but the empty set.
    fn mark_sets(&self) -> Vec<i64> {
        let (keys, flag) = number_keys(self.kind());
        let on_flag = |marks: &i64| flag.is_some_and(|place| marks >> place & 1 == 1);
        (1..1 << keys.len())
            .filter(|marks| !on_flag(marks))
            .collect()
    }

    /// The line of the first mark, this many lines being above the resource.
    fn first_mark(&self, lines_above: u64) -> u64 {
        lines_above + self.words() + u64::from(self.row[8].trailing_zeros()) + 1
    }

    fn listing(&self, id: &str) -> String {
        let kind = self.kind();
        let mut listing = format!("id={id} kind={}", KINDS[kind]);
        if kind < CLR {
            listing += &format!(" status={}", STATUSES[self.row[1] as usize]);
        }
        for (place, key) in number_keys(kind).0.iter().enumerate() {
            let mark = if self.row[8] >> place & 1 == 1 {
                "?"
            } else {
                ""
            };
            listing += &format!(" {key}={}{mark}", self.row[2 + place]);
        }
        listing
    }

    fn unit(&self) -> Unit {
        let [_, status, a, b, c, d, e, f, _] = self.row;
        let kind = match self.kind() {
            0 => GeneratorKind::Gen,
            1 => GeneratorKind::Wind,
            2 => GeneratorKind::Irr,
            3 => GeneratorKind::Nuke,
            CLR => {
                return Unit::Clr(Clr {
                    base: a,
                    lpc: b,
                    nonspin: c,
                    regup: d,
                })
            }
            _ => {
                return Unit::Nclr(Nclr {
                    rrsok: a == 1,
                    net: b,
                    lpc: c,
                    rrs: d,
                })
            }
        };
        let statuses = [
            Status::On,
            Status::Off,
            Status::OffNs,
            Status::OnTest,
            Status::Startup,
            Status::Shutdown,
            Status::Out,
        ];
        Unit::Generator(Generator {
            kind,
            status: statuses[status as usize],
            net: a,
            lsl: b,
            hsl: c,
            base: d,
            nonspin: e,
            cold30: f == 1,
        })
    }
}

/// Every kind, with every status and flag, without and with Non-Spin, and below,
/// at and above 95 percent of the LSL. None has a mark.
fn cases() -> Vec<Case> {
    let mut cases = Vec::new();
    for kind in 0..4 {
        for (status, verdicts) in VERDICTS.iter().enumerate() {
            for cold30 in [0, 1] {
                for nonspin in [0, 1] {
                    for net in [94, 95, 96, -1] {
                        let row = [
                            kind as i64,
                            status as i64,
                            net,
                            100,
                            500,
                            60,
                            nonspin,
                            cold30,
                            0,
                        ];
                        let turned_back = match verdicts[kind] {
                            BACK => true,
                            FINE => false,
                            COLD => cold30 == 1,
                        };
                        cases.push(Case { row, turned_back });
                    }
                }
            }
        }
    }
    // The loads that add 0 count as the others do.
    for row in [
        [4, 0, 7, 2, 3, 4, 0, 0, 0],
        [4, 0, 0, 0, 0, 0, 0, 0, 0],
        [5, 0, 0, 9, 2, 3, 0, 0, 0],
        [5, 0, 1, 9, 2, 3, 0, 0, 0],
        [5, 0, 0, 0, 0, 0, 0, 0, 0],
        [5, 0, 1, 0, 0, 0, 0, 0, 0],
    ] {
        cases.push(Case {
            row,
            turned_back: true,
        });
    }
    cases
}

/// A unit on which a mark is fine, and one on which it is not.
const OUT_UNIT: Row = [0, 6, -5, 0, 9, 2, 3, 1, 0];
const ON_UNIT: Row = [0, 0, -5, 0, 9, 2, 3, 1, 0];

fn price(text: &str) -> Result<Prices, Refusal> {
    price_snapshot(&example_curves(), text.as_bytes())
}

fn held_of(rows: &[(&str, Row)]) -> Held {
    let mut held = Held::of(rows);
    held.header = [7, 14, 0, 10_000, 1, 0, 0, rows.len() as i64];
    held
}

/// Asks everything that takes a text, and everything that takes values.
fn check(rows: &[(&str, Case)], expected: Result<(), Refusal>) {
    let listings: Vec<String> = rows.iter().map(|(id, case)| case.listing(id)).collect();
    let listings: Vec<&str> = listings.iter().map(String::as_str).collect();
    let text = snapshot_of(&listings);
    let held_rows: Vec<(&str, Row)> = rows.iter().map(|(id, case)| (*id, case.row)).collect();
    let held = held_of(&held_rows);
    let mut lent = Held::lent(rows.len());
    assert_eq!(lent.read(text.as_bytes()), expected, "{text}");
    let expected_text = expected.map(|()| text.clone().into_bytes());
    assert_eq!(held.written(), expected_text, "{text}");
    let Ok(()) = expected else {
        assert_eq!(read_snapshot(text.as_bytes()).err(), expected.err());
        assert_eq!(price(&text).err(), expected.err());
        return;
    };
    assert_eq!(lent, held);
    let snapshot = read_snapshot(text.as_bytes()).unwrap();
    for (resource, (id, case)) in snapshot.resources.iter().zip(rows) {
        assert_eq!(resource.id, *id);
        assert_eq!(resource.unit, case.unit());
        assert_eq!(i64::from(resource.marks), case.row[8]);
    }
    assert_eq!(price(&text), price(&text.replace('?', "")));
}

#[test]
fn the_number_of_the_refusal() {
    assert_eq!(number::SUSPECT, 15);
}

#[test]
fn which_units_a_mark_turns_back() {
    let cases = cases();
    assert_eq!(cases.len(), 4 * 7 * 2 * 2 * 4 + 6);
    for case in cases {
        let turned_back = turned_back_by_a_mark(&case.unit());
        assert_eq!(turned_back, case.turned_back, "{case:?}");
        check(&[("U", case)], Ok(()));
        for marks in case.mark_sets() {
            let case = case.marked(marks);
            let expected = if case.turned_back {
                refusal(15, case.first_mark(8))
            } else {
                Ok(())
            };
            check(&[("U", case)], expected);
        }
    }
}

/// The line is counted over the resources above, whose own marks are fine.
#[test]
fn the_line_is_that_of_the_first_mark_that_turns_back() {
    let case = |row: Row, turned_back: bool| Case { row, turned_back };
    let above = [
        case(OUT_UNIT, false).marked(31),
        case([4, 0, 7, 2, 3, 4, 0, 0, 0], true),
        case([5, 0, 1, 9, 2, 3, 0, 0, 0], true),
        case([3, 5, 0, 0, 0, 0, 0, 0, 0], false).marked(4),
    ];
    let ids = ["A", "B", "C", "D"];
    let last = case(ON_UNIT, true).marked(1);
    for marked in cases().into_iter().filter(|case| case.turned_back) {
        for marks in marked.mark_sets() {
            let marked = marked.marked(marks);
            for count in 0..=above.len() {
                let mut rows: Vec<(&str, Case)> = ids.into_iter().zip(above).take(count).collect();
                let lines: u64 = rows.iter().map(|(_, case)| case.lines()).sum();
                rows.push(("U", marked));
                rows.push(("Z", last));
                check(&rows, refusal(15, marked.first_mark(8 + lines)));
            }
        }
    }
}

#[test]
fn the_header_has_no_part_in_it() {
    let load = "id=L kind=clr base=0? lpc=0 nonspin=0 regup=0";
    let text = snapshot_of(&[load]);
    let line = 8 + 3;
    assert_eq!(price(&text), refusal(15, line));
    for (old, new) in [
        ("factor=10000", "factor=0"),
        ("prc=1", "prc=0"),
        ("lambda=0", "lambda=2000000"),
        ("short=0", "short=200000000"),
    ] {
        assert_eq!(price(&with_line(&text, old, new)), refusal(15, line));
    }
}

/// Two units that a mark leaves alone, at the lines 18 to 35, between one that
/// it turns back and the loads. The last line is 47.
fn resources_text() -> String {
    snapshot_of(&[
        "id=A kind=gen status=ON net=-5 lsl=0 hsl=9 base=2 nonspin=3 cold30=1",
        "id=B kind=gen status=OUT net=-5 lsl=0 hsl=9 base=2 nonspin=3 cold30=1",
        "id=C kind=irr status=STARTUP net=1 lsl=1 hsl=1 base=1 nonspin=1 cold30=1",
        "id=D kind=clr base=7 lpc=2 nonspin=3 regup=4",
        "id=E kind=nclr rrsok=1 net=9 lpc=2 rrs=3",
    ])
}

/// The lines of a snapshot that carry no mark.
const NOT_MARKABLE: [&str; 13] = [
    "month", "hour", "lambda", "factor", "prc", "eea1", "short", "count", "id", "kind", "status",
    "cold30", "rrsok",
];

#[test]
fn badly_written_marks() {
    let text = resources_text();
    for (index, line) in text.lines().enumerate() {
        let place = index as u64 + 1;
        let (key, value) = line.split_once('=').unwrap();
        let answer = |value: &str| {
            let line = format!("{key}={value}");
            price(&with_line_at(&text, index + 1, &line))
        };
        for value in [
            "?", "??", "-?", "5??", "?5", "?5?", "5?5", "-0?", "05?", "-05?", "+5?", " 5?", "5 ?",
            "5? ", "5?\r", "a?", "5.0?",
        ] {
            assert_eq!(answer(value), refusal(6, place), "{key}={value}");
        }
        assert_eq!(answer(""), refusal(5, place), "{key}=");
        let value = format!("{value}?");
        if NOT_MARKABLE.contains(&key) {
            assert_eq!(answer(&value), refusal(6, place), "{key}={value}");
            assert_eq!(answer("0?"), refusal(6, place), "{key}=0?");
            assert_eq!(answer("300000000?"), refusal(6, place), "{key}");
        } else {
            let fine = (18..36).contains(&place);
            let expected = if fine {
                price(&text)
            } else {
                refusal(15, place)
            };
            assert_eq!(answer(&value), expected, "{key}={value}");
        }
    }
}

#[test]
fn a_marked_number_out_of_range_is_refused_by_7() {
    let text = resources_text();
    for (index, line) in text.lines().enumerate().skip(8) {
        let place = index as u64 + 1;
        let (key, _) = line.split_once('=').unwrap();
        if NOT_MARKABLE.contains(&key) {
            continue;
        }
        let negative = key == "net" && place < 36;
        let low = if negative { -2_000_000 } else { 0 };
        let answer = |value: String| {
            let line = format!("{key}={value}?");
            price(&with_line_at(&text, index + 1, &line))
        };
        for value in [low, 2_000_000] {
            assert_ne!(answer(value.to_string()), refusal(7, place));
            assert_ne!(answer(value.to_string()), refusal(6, place));
        }
        for value in [low - 1, 2_000_001, i64::MIN, i64::MAX] {
            assert_eq!(answer(value.to_string()), refusal(7, place));
        }
        assert_eq!(answer("9".repeat(1000)), refusal(7, place));
        assert_eq!(answer(format!("-{}", "9".repeat(1000))), refusal(7, place));
    }
}

#[test]
fn a_negative_number_can_be_marked() {
    let unit = "id=A kind=gen status=OUT net=-5? lsl=0? hsl=0 base=0 nonspin=0 cold30=0";
    let text = snapshot_of(&[unit]);
    let snapshot = read_snapshot(text.as_bytes()).unwrap();
    let Unit::Generator(unit) = snapshot.resources[0].unit else {
        panic!("{snapshot:?}");
    };
    assert_eq!((unit.net, unit.lsl), (-5, 0));
    assert_eq!(snapshot.resources[0].marks, 1 + 2);
}

#[test]
fn hours_and_curves_carry_no_mark() {
    let hour = hour_with_error(7, 14, 5);
    for (index, line) in hour.lines().enumerate() {
        let text = with_line_at(&hour, index + 1, &format!("{line}?"));
        let answer = book(&Record::fresh(), text.as_bytes());
        assert_eq!(answer, refusal(6, index as u64 + 1), "{line}?");
    }
    let curves = example_curve_text();
    for (index, line) in curves.lines().enumerate() {
        let text = with_line_at(&curves, index + 1, &format!("{line}?"));
        let answer = read_curves(text.as_bytes());
        assert_eq!(answer, refusal(6, index as u64 + 1), "{line}?");
    }
}

/// The mark stands on the first number there is, so every other fault of a
/// resource comes on a later line or on the same.
#[test]
fn every_other_fault_of_a_text_comes_before_a_mark() {
    let text = with_line_at(&resources_text(), 12, "net=-5?");
    assert_eq!(price(&text), refusal(15, 12));
    for (index, line) in text.lines().enumerate() {
        let place = index as u64 + 1;
        let (key, _) = line.split_once('=').unwrap();
        let answer = |line: &str| price(&with_line_at(&text, index + 1, line));
        assert_eq!(price(&first_lines(&text, index)), refusal(3, place));
        assert_eq!(answer(key), refusal(4, place));
        assert_eq!(answer(&format!("{key}=")), refusal(5, place));
        assert_eq!(answer(&format!("{key}=+1")), refusal(6, place));
        if !["id", "kind", "status"].contains(&key) {
            assert_eq!(answer(&format!("{key}=200000001")), refusal(7, place));
        }
        if key == "id" && place > 9 {
            assert_eq!(answer("id=A"), refusal(8, place));
        }
    }
    assert_eq!(price(&format!("{text}\n")), refusal(9, 48));
    assert_eq!(price(&format!("{text}x")), refusal(9, 48));
    let long = text.clone() + &"x".repeat(1_048_577 - text.len());
    assert_eq!(price(&long), refusal(2, 0));
}

#[test]
fn a_mark_comes_before_too_little_space() {
    let text = with_line_at(&resources_text(), 47, "rrs=3?");
    for rows in 0..6 {
        let mut lent = Held::lent(rows);
        assert_eq!(lent.read(text.as_bytes()), refusal(15, 47));
    }
    let fine = with_line_at(&resources_text(), 21, "net=-5?");
    for rows in 0..5 {
        let mut lent = Held::lent(rows);
        assert_eq!(lent.read(fine.as_bytes()), refusal(14, 0));
    }
    assert_eq!(Held::lent(5).read(fine.as_bytes()), Ok(()));
}

#[test]
fn a_mark_comes_before_a_short_buffer() {
    let write = |held: &Held, room: usize| {
        let mut buffer = vec![0xAA; room];
        let answer = write_held(&held.header, &held.ids, &held.numbers, &mut buffer);
        assert!(answer.is_ok() || buffer.iter().all(|&byte| byte == 0xAA));
        answer
    };
    let mut held = held_of(&[("A", OUT_UNIT), ("B", ON_UNIT)]);
    let length = held.written().unwrap().len();
    *held.number(0, 8) = 31;
    assert_eq!(held.written().unwrap().len(), length + 5);
    for room in [0, length, length + 4] {
        assert_eq!(write(&held, room), refusal(14, 0));
    }
    assert_eq!(write(&held, length + 5), Ok(length + 5));
    *held.number(1, 8) = 16;
    for room in [0, length + 5, length + 6] {
        assert_eq!(write(&held, room), refusal(15, 25));
    }
    // Other faults come before, also of later lines.
    *held.number(1, 7) = 2;
    assert_eq!(write(&held, 0), refusal(7, 26));
    *held.number(1, 8) = 16 + 32;
    assert_eq!(write(&held, 0), refusal(6, 26));
}

#[test]
fn every_other_fault_of_values_comes_before_a_mark() {
    let good = || {
        held_of(&[
            ("A", [4, 0, 1, 2, 3, 4, 0, 0, 1]),
            ("B", OUT_UNIT),
            ("C", [5, 0, 1, 2, 3, 4, 0, 0, 0]),
        ])
    };
    assert_eq!(good().written(), refusal(15, 11));
    let spoilt = |spoil: &dyn Fn(&mut Held)| {
        let mut held = good();
        spoil(&mut held);
        held.written()
    };
    assert_eq!(spoilt(&|held| held.header[6] = -1), refusal(7, 7));
    assert_eq!(spoilt(&|held| held.set_id(0, b"")), refusal(6, 9));
    assert_eq!(spoilt(&|held| *held.number(0, 0) = 6), refusal(6, 10));
    assert_eq!(spoilt(&|held| *held.number(0, 2) = -1), refusal(7, 11));
    assert_eq!(spoilt(&|held| *held.number(0, 5) = -1), refusal(7, 14));
    assert_eq!(spoilt(&|held| held.set_id(1, b"A")), refusal(8, 15));
    assert_eq!(spoilt(&|held| *held.number(1, 1) = 7), refusal(6, 17));
    assert_eq!(spoilt(&|held| *held.number(1, 8) = 32), refusal(6, 23));
    assert_eq!(spoilt(&|held| held.set_id(2, b"c")), refusal(6, 24));
    assert_eq!(spoilt(&|held| *held.number(2, 8) = 1), refusal(6, 26));
    assert_eq!(spoilt(&|held| *held.number(2, 5) = -1), refusal(7, 29));
    // Marks that are fine leave the first one that is not.
    assert_eq!(spoilt(&|held| *held.number(1, 8) = 31), refusal(15, 11));
    assert_eq!(spoilt(&|held| *held.number(2, 8) = 14), refusal(15, 11));
}

#[test]
fn a_marked_value_out_of_range_is_refused_by_7() {
    for (place, low) in [(2, -2_000_000), (3, 0), (4, 0), (5, 0), (6, 0)] {
        let mut held = held_of(&[("A", OUT_UNIT)]);
        *held.number(0, 8) = 1 << (place - 2);
        for value in [low, 2_000_000] {
            *held.number(0, place) = value;
            assert!(held.written().is_ok());
        }
        for value in [low - 1, 2_000_001, i64::MIN, i64::MAX] {
            *held.number(0, place) = value;
            assert_eq!(held.written(), refusal(7, 10 + place as u64));
        }
    }
}

#[test]
fn a_marked_flag_is_refused_by_6() {
    for other_marks in [0, 1, 16, 31] {
        for kind in 0..4 {
            for flag in [0, 1, 2, -1, i64::MIN, i64::MAX] {
                let mut row = OUT_UNIT;
                row[0] = kind;
                row[7] = flag;
                row[8] = 32 + other_marks;
                assert_eq!(held_of(&[("A", row)]).written(), refusal(6, 17));
                // A number before the flag that is out of range is named first.
                row[6] = -1;
                assert_eq!(held_of(&[("A", row)]).written(), refusal(7, 16));
            }
        }
    }
    for marks in [1, 3, 15] {
        for flag in [0, 1, 2, -1, i64::MIN, i64::MAX] {
            let row = [5, 0, flag, -1, -1, -1, 0, 0, marks];
            assert_eq!(held_of(&[("A", row)]).written(), refusal(6, 11));
        }
        // At the same place a controllable load has no flag.
        let row = [4, 0, 1, 2, 3, 4, 0, 0, marks];
        assert_eq!(held_of(&[("A", row)]).written(), refusal(15, 11));
    }
}

/// The magnitude counts, and of it only the digits of the kind's numbers.
#[test]
fn any_number_can_hold_the_marks() {
    let written = |row: Row, held_marks: i64| {
        let mut row = row;
        row[NUMBER_ROW - 1] = held_marks;
        held_of(&[("A", row)]).written()
    };
    let clr = [4, 0, 1, 2, 3, 4, 9, 9, 0];
    let nclr = [5, 0, 1, 2, 3, 4, 9, 9, 0];
    for marks in 0..64 {
        let high = 0x2b5a_77f1_0c3d_e940 & !63;
        for held_marks in [
            marks,
            -marks,
            marks + 64,
            -marks - 64,
            marks + high,
            -marks - high,
            marks + (i64::MAX - 63),
            -marks - (i64::MAX - 63),
        ] {
            let out = written(OUT_UNIT, held_marks);
            assert_eq!(out, written(OUT_UNIT, marks), "{held_marks}");
            assert_eq!(out.is_ok(), marks < 32);
            for load in [clr, nclr] {
                let answer = written(load, held_marks);
                assert_eq!(answer, written(load, marks % 16), "{held_marks}");
                assert_eq!(answer.is_ok(), marks % 16 == 0);
            }
        }
    }
    // The least number has the magnitude 2^63, which holds no mark.
    for row in [OUT_UNIT, ON_UNIT, clr, nclr] {
        assert_eq!(written(row, i64::MIN), written(row, 0));
        assert!(written(row, 0).is_ok());
    }
    // The numbers next to it have 2^63 - 1, which holds every mark.
    for held_marks in [i64::MIN + 1, i64::MAX] {
        assert_eq!(written(OUT_UNIT, held_marks), refusal(6, 17));
        assert_eq!(written(clr, held_marks), refusal(15, 11));
        assert_eq!(written(nclr, held_marks), refusal(6, 11));
    }
}

#[test]
fn each_mark_has_its_place() {
    let unit = "id=A kind=gen status=OUT net=-5 lsl=0 hsl=9 base=2 nonspin=3 cold30=1";
    let keys = ["net=-5", "lsl=0", "hsl=9", "base=2", "nonspin=3"];
    for (place, line) in keys.into_iter().enumerate() {
        let text = with_line(&snapshot_of(&[unit]), line, &format!("{line}?"));
        let mut row = OUT_UNIT;
        row[8] = [1, 2, 4, 8, 16][place];
        let held = held_of(&[("A", row)]);
        assert_eq!(values_of(text.as_bytes()), held);
        assert_eq!(held.written(), Ok(text.into_bytes()));
    }
    // Space lent for reading holds something else before.
    assert_eq!(values_of(snapshot_of(&[unit]).as_bytes()).numbers[8], 0);
    let load = "id=A kind=clr base=1 lpc=2 nonspin=3 regup=4";
    assert_eq!(values_of(snapshot_of(&[load]).as_bytes()).numbers[8], 0);
}

/// Texts of several resources, marked at random: accepted where every unit with
/// a mark is one on which it is fine, and then read and written unchanged.
#[test]
fn marks_at_random() {
    let cases = cases();
    let ids = ["A", "B", "C", "D", "E"];
    let mut random = Random(4);
    let (mut accepted, mut refused) = (0, 0);
    for _ in 0..20_000 {
        let mut rows: Vec<(&str, Case)> = Vec::new();
        let mut expected = Ok(());
        let mut lines_above = 8;
        for id in ids.into_iter().take(random.below(6) as usize) {
            let mut case = cases[random.below(cases.len() as u64) as usize];
            let sets = case.mark_sets();
            if random.below(3) == 0 {
                case = case.marked(sets[random.below(sets.len() as u64) as usize]);
            }
            if case.row[8] != 0 && case.turned_back && expected.is_ok() {
                expected = refusal(15, case.first_mark(lines_above));
            }
            lines_above += case.lines();
            rows.push((id, case));
        }
        check(&rows, expected);
        match expected {
            Ok(()) => accepted += 1,
            Err(_) => refused += 1,
        }
    }
    assert!(accepted > 1000 && refused > 1000, "{accepted}, {refused}");
}

#[test]
fn the_program_refuses_a_suspect_number() {
    let printed = |snapshot: &str| {
        let input = format!("{}\n{snapshot}", example_curve_text());
        String::from_utf8(run_price(input.as_bytes())).unwrap()
    };
    let text = example_snapshot();
    let on_line = with_line(&text, "hsl=2000000", "hsl=2000000?");
    assert_eq!(printed(&on_line), refused(15, 14, "snapshot"));
    let not_counted = with_line(&text, "net=95000", "net=94999?");
    assert_eq!(printed(&not_counted), refused(15, 21, "snapshot"));
    let out = "id=D kind=gen status=OUT net=0? lsl=0? hsl=9? base=0? nonspin=0? cold30=0";
    let more = with_line(&text, "count=3", "count=4") + &common::text(out);
    assert_eq!(printed(&more), printed(&text));
    let curves = with_line(&example_curve_text(), "voll=900000", "voll=900000?");
    let input = format!("{curves}\n{on_line}");
    let output = refused(6, 1, "curves");
    assert_eq!(run_price(input.as_bytes()), output.into_bytes());
}
