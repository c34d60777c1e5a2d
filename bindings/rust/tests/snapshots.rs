mod common;
use common::*;
use ordc::{
    ControllableLoad, ControllableLoadMarks, CurveSet, Generator, GeneratorKind, GeneratorMarks,
    OtherLoad, OtherLoadMarks, Prices, Refusal, Resource, Snapshot, Status, Unit, ID_ROW,
    NUMBER_ROW, RESOURCES,
};

const CURVES: &[u8] = include_bytes!("../../python/examples/listing.curves");
const LISTING: &[u8] = include_bytes!("../../python/examples/snapshots/1-listing.txt");
const EMPTY_HSL: &[u8] = include_bytes!("../../python/examples/snapshots/4-empty-hsl.txt");
const ACCEPTED: [&[u8]; 5] = [
    LISTING,
    include_bytes!("../../python/examples/snapshots/2-prc-at-eea1.txt"),
    include_bytes!("../../python/examples/snapshots/3-below-lsl.txt"),
    ALL_KINDS.as_bytes(),
    include_bytes!("../../python/examples/snapshots/6-marked.txt"),
];

fn generator(id: &str, kind: GeneratorKind) -> Resource {
    Resource {
        id: id.to_string(),
        unit: Unit::Generator(Generator {
            kind,
            status: Status::Shutdown,
            net: -2_000_000,
            lsl: 2_000_000,
            hsl: 2_000_000,
            base: 2_000_000,
            nonspin: 2_000_000,
            cold30: true,
            marks: GeneratorMarks::default(),
        }),
    }
}

fn other_load(id: &str) -> Resource {
    Resource {
        id: id.to_string(),
        unit: Unit::OtherLoad(OtherLoad {
            rrsok: false,
            net: 0,
            lpc: 0,
            rrs: 0,
            marks: OtherLoadMarks::default(),
        }),
    }
}

fn all_kinds() -> Snapshot {
    Snapshot::from_text(ALL_KINDS.as_bytes()).unwrap()
}

fn all_kinds_with_id(row: usize, id: &str) -> Snapshot {
    let mut snapshot = all_kinds();
    snapshot.resources[row].id = id.to_string();
    snapshot
}

#[test]
fn a_snapshot_of_all_kinds_has_these_values() {
    let snapshot = all_kinds();
    assert_eq!((snapshot.month, snapshot.hour), (8, 16));
    assert_eq!((snapshot.lambda, snapshot.factor), (4500, 9800));
    assert_eq!((snapshot.prc, snapshot.eea1), (2_900_000, 2_300_000));
    assert_eq!((snapshot.short, snapshot.resources.len()), (5000, 9));
    let ids: Vec<&[u8]> = snapshot.resources.iter().map(|r| r.id.as_bytes()).collect();
    assert_eq!(ids, IDS);
    let units: Vec<Unit> = snapshot.resources.iter().map(|r| r.unit).collect();
    let generator = |kind, status, net, lsl, hsl, base, nonspin, cold30| {
        Unit::Generator(Generator {
            kind,
            status,
            net,
            lsl,
            hsl,
            base,
            nonspin,
            cold30,
            marks: GeneratorMarks::default(),
        })
    };
    use GeneratorKind::*;
    use Status::*;
    assert_eq!(
        units,
        [
            generator(Gen, On, 1_190_000, 600_000, 2_000_000, 1_200_000, 50_000, false),
            generator(Gen, OffNs, 0, 150_000, 400_000, 0, 400_000, false),
            generator(Gen, Off, 0, 40_000, 100_000, 0, 0, true),
            generator(Wind, On, 900_000, 0, 1_900_000, 900_000, 0, false),
            generator(Irr, On, 500_000, 0, 800_000, 500_000, 0, false),
            generator(Nuke, On, 1_250_000, 1_000_000, 1_300_000, 1_250_000, 0, false),
            Unit::ControllableLoad(ControllableLoad {
                base: 300_000,
                lpc: 50_000,
                nonspin: 30_000,
                regup: 40_000,
                marks: ControllableLoadMarks::default(),
            }),
            Unit::OtherLoad(OtherLoad {
                rrsok: true,
                net: 900_000,
                lpc: 20_000,
                rrs: 300_001,
                marks: OtherLoadMarks::default(),
            }),
            Unit::OtherLoad(OtherLoad {
                rrsok: false,
                net: 200_000,
                lpc: 0,
                rrs: 150_000,
                marks: OtherLoadMarks::default(),
            }),
        ]
    );
}

/// An accepted text, read and written, gives its own bytes.
#[test]
fn examples_are_written_back() {
    for text in ACCEPTED {
        let snapshot = Snapshot::from_text(text).unwrap();
        assert_eq!(snapshot.to_text().unwrap(), text);
        assert_eq!(snapshot.text_length(), Ok(text.len()));
    }
    refused(EMPTY_HSL, 5, 14);
}

/// The text of values, read, gives the values: each status in each kind of generator, both flags, numbers below zero,
/// ids of 1 and of 16 bytes, and no resource.
#[test]
fn values_are_read_back() {
    let mut snapshot = all_kinds();
    snapshot.lambda = -2_000_000;
    snapshot.resources.clear();
    assert_eq!(
        Snapshot::from_text(&snapshot.to_text().unwrap()),
        Ok(snapshot.clone())
    );
    use GeneratorKind::*;
    use Status::*;
    for kind in [Gen, Wind, Irr, Nuke] {
        for status in [On, Off, OffNs, OnTest, Startup, Shutdown, Out] {
            let index = snapshot.resources.len();
            let mut resource = generator(&format!("UNIT_{index:011}"), kind);
            if let Unit::Generator(unit) = &mut resource.unit {
                unit.status = status;
                unit.cold30 = index % 2 == 1;
            }
            snapshot.resources.push(resource);
        }
    }
    snapshot.resources.push(other_load("_"));
    let text = snapshot.to_text().unwrap();
    let words = |key: &str| -> Vec<String> {
        let lines = String::from_utf8(text.clone()).unwrap();
        let values = lines.lines().filter_map(|line| line.strip_prefix(key));
        values.map(String::from).collect()
    };
    let statuses = ["ON", "OFF", "OFFNS", "ONTEST", "STARTUP", "SHUTDOWN", "OUT"];
    assert_eq!(words("status="), [statuses; 4].concat());
    let kinds = [["gen"; 7], ["wind"; 7], ["irr"; 7], ["nuke"; 7]].concat();
    assert_eq!(words("kind="), [kinds, vec!["nclr"]].concat());
    assert_eq!(words("count="), ["29"]);
    assert_eq!(Snapshot::from_text(&text), Ok(snapshot));
}

/// C of the listing goes from OFFNS to OUT, so its 293000 kW no longer count: RSNS is RS, 707000 kW above X, and
/// p = 70.7. N = 758036348 + floor(0.7 * 3111584) = 760214456, so piNS = 239785544. On-line 897500 * (158655254 +
/// 239785544) / 2000000000 = 178800.3…, off-line 897500 * 239785544 / 2000000000 = 107603.7…
#[test]
fn an_edited_snapshot_is_priced() {
    let mut snapshot = Snapshot::from_text(LISTING).unwrap();
    let Unit::Generator(unit) = &mut snapshot.resources[2].unit else {
        panic!("C is a generator");
    };
    assert_eq!(unit.status, Status::OffNs);
    unit.status = Status::Out;
    let text = snapshot.to_text().unwrap();
    let edited = String::from_utf8(LISTING.to_vec())
        .unwrap()
        .replace("OFFNS", "OUT");
    assert_eq!(text, edited.as_bytes());
    let prices = Prices {
        rs: 2_707_000,
        rsns: 2_707_000,
        pis: 158_655_254,
        pins: 239_785_544,
        online: 178_800,
        offline: 107_604,
    };
    assert_eq!(
        CurveSet::from_text(CURVES).unwrap().price(&text),
        Ok(prices)
    );
}

/// Rows after the last resource stay, and so does what is left over of a row; what a resource does not use is 0.
#[test]
fn rows_are_laid_as_documented() {
    for (resources, more_bytes, more_numbers) in
        [(9, 0, 0), (9, 31, 8), (9, 100, 8), (9, 31, 50), (12, 5, 3)]
    {
        let mut held = Held::lent(
            resources * ID_ROW + more_bytes,
            resources * NUMBER_ROW + more_numbers,
        );
        let mut expected = held.clone();
        let laid = Held::all_kinds();
        expected.header = laid.header;
        expected.ids[..9 * ID_ROW].copy_from_slice(&laid.ids);
        expected.numbers[..9 * NUMBER_ROW].copy_from_slice(&laid.numbers);
        assert_eq!(held.read(ALL_KINDS.as_bytes()), Ok(()));
        assert_eq!(held, expected);
    }
    assert_eq!(Held::all_kinds().text(), ALL_KINDS.as_bytes());
}

/// The eighth number of the header, the bytes after an id, the last 16 of its row, the status of a load and the places
/// between the numbers of a kind and the marks: none of them changes the text or is refused.
#[test]
fn writing_does_not_look_at_what_is_not_used() {
    for any in [-1, 1, i64::MIN, i64::MAX] {
        let mut held = Held::all_kinds();
        held.header[7] = any;
        for (row, id) in IDS.iter().enumerate() {
            let after_id = row * ID_ROW + id.len() + 1;
            held.ids[after_id..(row + 1) * ID_ROW].fill(b'z');
            if row >= 6 {
                for place in [1, 6, 7] {
                    *held.number(row, place) = any;
                }
            }
        }
        assert_eq!(held.text(), ALL_KINDS.as_bytes());
    }
    // An id of 16 bytes has no byte 0 after it.
    let mut held = Held::all_kinds();
    held.set_id(8, b"ABCDEFGHIJKLMNOPz");
    assert_eq!(
        held.text(),
        with_line(ALL_KINDS, 75, "ABCDEFGHIJKLMNOP").as_bytes()
    );
}

/// As many resources as whole rows of both sorts.
#[test]
fn the_lesser_number_of_rows_counts() {
    let whole = Held::all_kinds();
    for (id_bytes, numbers, resources) in [
        (9 * ID_ROW, 8 * NUMBER_ROW, 8),
        (8 * ID_ROW, 9 * NUMBER_ROW, 8),
        (9 * ID_ROW - 1, 9 * NUMBER_ROW, 8),
        (9 * ID_ROW, 9 * NUMBER_ROW - 1, 8),
        (ID_ROW, 9 * NUMBER_ROW, 1),
        (ID_ROW - 1, 9 * NUMBER_ROW, 0),
        (9 * ID_ROW, NUMBER_ROW - 1, 0),
        (0, 9 * NUMBER_ROW, 0),
        (9 * ID_ROW, 0, 0),
        (0, 0, 0),
    ] {
        let held = Held {
            ids: whole.ids[..id_bytes].to_vec(),
            numbers: whole.numbers[..numbers].to_vec(),
            ..whole
        };
        let mut fewer = all_kinds();
        fewer.resources.truncate(resources);
        assert_eq!(held.text(), fewer.to_text().unwrap());
        // Space for fewer than the nine resources of the text.
        let mut lent = Held::lent(id_bytes, numbers);
        let short = Refusal {
            number: 14,
            line: 0,
        };
        assert_eq!(lent.read(ALL_KINDS.as_bytes()), Err(short));
        assert_eq!(lent, Held::lent(id_bytes, numbers));
        assert_eq!(lent.read(&held.text()), Ok(()));
        assert_eq!(lent.header[7], resources as i64);
    }
}

/// In a buffer as long as the text or longer the text stands at the front. A shorter one is refused by 14. The bytes
/// before and after, and a buffer that is refused, are as before.
#[test]
fn a_text_takes_just_its_length() {
    let length = ALL_KINDS.len();
    for size in [0, 1, 8, length - 1, length, length + 1, 2000] {
        let mut expected = vec![7; 3000];
        if size >= length {
            expected[500..500 + length].copy_from_slice(ALL_KINDS.as_bytes());
        }
        let answer = if size < length {
            Err(Refusal {
                number: 14,
                line: 0,
            })
        } else {
            Ok(length)
        };
        let mut space = vec![7; 3000];
        assert_eq!(Held::all_kinds().write(&mut space[500..500 + size]), answer);
        assert_eq!(space, expected, "{size} bytes");
        let mut space = vec![7; 3000];
        assert_eq!(all_kinds().write_text(&mut space[500..500 + size]), answer);
        assert_eq!(space, expected, "{size} bytes");
    }
}

/// Each number of a text at the first, a middle and the last line that can have it.
#[test]
fn every_refusal_of_reading() {
    refused(&vec![b'x'; 1_048_577], 2, 0);
    refused(&vec![b'x'; 1_048_576], 3, 1);
    refused(b"", 3, 1);
    let lines: Vec<&str> = ALL_KINDS.split_inclusive('\n').collect();
    for line in [1, 40, 80] {
        let cut = lines[..line].concat();
        refused(&cut.as_bytes()[..cut.len() - 1], 3, line as u64);
        let mut keys = lines.clone();
        keys[line - 1] = "KEY=1\n";
        refused(keys.concat().as_bytes(), 4, line as u64);
        refused(with_line(ALL_KINDS, line, "").as_bytes(), 5, line as u64);
        refused(with_line(ALL_KINDS, line, "01").as_bytes(), 6, line as u64);
        refused(
            with_line(ALL_KINDS, line, "200000001").as_bytes(),
            7,
            line as u64,
        );
    }
    for (line, id) in [(18, "GAS_1"), (45, "GAS_2"), (75, "NCLR_1")] {
        refused(with_line(ALL_KINDS, line, id).as_bytes(), 8, line as u64);
    }
    refused(format!("{ALL_KINDS}x").as_bytes(), 9, 81);
    let fewer = with_line(ALL_KINDS, 8, "4");
    refused(fewer.as_bytes(), 9, 45);
    refused(with_line(ALL_KINDS, 8, "0").as_bytes(), 9, 9);
}

/// A place of a row, with the line that it is written in and its range.
struct Place {
    row: Option<usize>,
    place: usize,
    line: u64,
    range: (i64, i64),
}

fn places() -> Vec<Place> {
    let mut places = vec![];
    let system = (0, 200_000_000);
    let power = (0, 2_000_000);
    let signed = (-2_000_000, 2_000_000);
    let header = [
        (1, 12),
        (0, 23),
        signed,
        (0, 10_000),
        system,
        system,
        system,
    ];
    for (place, range) in header.into_iter().enumerate() {
        let line = place as u64 + 1;
        places.push(Place {
            row: None,
            place,
            line,
            range,
        });
    }
    for (row, first) in FIRST_LINES.into_iter().enumerate() {
        let (ranges, words) = match row {
            0..=5 => (vec![signed, power, power, power, power, (0, 1)], 3),
            6 => (vec![power; 4], 2),
            _ => (vec![(0, 1), power, power, power], 2),
        };
        for (index, range) in ranges.into_iter().enumerate() {
            let line = first + words + index as u64;
            places.push(Place {
                row: Some(row),
                place: 2 + index,
                line,
                range,
            });
        }
    }
    places
}

/// Every number at both ends of its range, and outside them.
#[test]
fn numbers_in_range_are_written_and_others_refused() {
    for Place {
        row,
        place,
        line,
        range: (low, high),
    } in places()
    {
        let with = |value| {
            let mut held = Held::all_kinds();
            match row {
                None => held.header[place] = value,
                Some(row) => *held.number(row, place) = value,
            }
            held
        };
        for value in [low, high] {
            let text = with_line(ALL_KINDS, line as usize, &value.to_string());
            assert_eq!(with(value).text(), text.as_bytes());
            let mut again = Held::rows(9);
            assert_eq!(again.read(text.as_bytes()), Ok(()));
            assert_eq!(again, with(value));
        }
        for value in [low - 1, high + 1, i64::MIN, i64::MAX] {
            with(value).refused(7, line);
        }
    }
}

/// A number of no kind or status, and an id that is empty or badly written, in every resource.
#[test]
fn words_and_ids_are_refused_at_their_lines() {
    for (row, first) in FIRST_LINES.into_iter().enumerate() {
        for kind in [-1, 6, i64::MIN, i64::MAX] {
            let mut held = Held::all_kinds();
            *held.number(row, 0) = kind;
            held.refused(6, first + 1);
        }
        for status in [-1, 7, i64::MIN, i64::MAX] {
            let mut held = Held::all_kinds();
            *held.number(row, 1) = status;
            if row < 6 {
                held.refused(6, first + 2);
            }
        }
        for id in [
            &b""[..],
            b"\0A",
            b"a",
            b"A-1",
            b"A B",
            b"A\n",
            b"ABCDEFGHIJKLMNO?",
            b"\xff",
        ] {
            let mut held = Held::all_kinds();
            held.set_id(row, id);
            held.refused(6, first);
        }
        // The later of two is refused.
        if row > 0 {
            for above in [0, row / 2, row - 1] {
                let mut held = Held::all_kinds();
                held.set_id(row, IDS[above]);
                held.refused(8, first);
            }
        }
    }
}

/// Faults are put in from the last line to the first: each one is then the first.
#[test]
fn the_earliest_line_is_refused() {
    let mut held = Held::all_kinds();
    *held.number(8, 5) = -1;
    held.refused(7, 80);
    held.set_id(8, b"GAS_1");
    held.refused(8, 75);
    held.set_id(8, b"gas");
    held.refused(6, 75);
    *held.number(6, 0) = 9;
    held.refused(6, 64);
    *held.number(3, 7) = 2;
    held.refused(7, 44);
    *held.number(3, 1) = 7;
    held.refused(6, 38);
    *held.number(3, 0) = -1;
    held.refused(6, 37);
    held.set_id(3, b"GAS_2");
    held.refused(8, 36);
    held.header[6] = -1;
    held.refused(7, 7);
    held.header[0] = 0;
    held.refused(7, 1);
}

/// An id that no row can hold is refused by 6 at its line, where no line above is refused.
#[test]
fn ids_that_do_not_fit_a_row() {
    let long = "ABCDEFGHIJKLMNOPQ";
    for id in [
        "",
        "gas",
        "GAS 1",
        "A\0",
        "\0",
        "A\0B",
        "Ü",
        long,
        &long.repeat(100),
        "ABCDEFGHIJKLMNO\0",
        "ABCDEFGHIJKLMNOP\0",
    ] {
        for (row, first) in FIRST_LINES.into_iter().enumerate() {
            let mut snapshot = all_kinds_with_id(row, id);
            let refusal = Err(Refusal {
                number: 6,
                line: first,
            });
            assert_eq!(snapshot.to_text(), refusal);
            assert_eq!(
                snapshot.text_length(),
                refusal.clone().map(|text| text.len())
            );
            let mut buffer = [7; 2000];
            assert_eq!(
                snapshot.write_text(&mut buffer),
                refusal.map(|text| text.len())
            );
            assert_eq!(buffer, [7; 2000]);
            snapshot.short = -1;
            assert_eq!(snapshot.to_text(), Err(Refusal { number: 7, line: 7 }));
        }
    }
    // The first 16 bytes alone would be an id, and here one that stands above.
    let mut snapshot = all_kinds_with_id(0, &long[..16]);
    assert!(snapshot.to_text().is_ok());
    snapshot.resources[8].id = long.to_string();
    assert_eq!(
        snapshot.to_text(),
        Err(Refusal {
            number: 6,
            line: 75
        })
    );
    snapshot.resources[8].id = long[..16].to_string();
    assert_eq!(
        snapshot.to_text(),
        Err(Refusal {
            number: 8,
            line: 75
        })
    );
}

/// As many resources as a snapshot can have, each of as many bytes as it can have, in a thread with the stack that is
/// promised to be enough; and one more, which is refused. The header has 9 + 8 + 16 + 13 + 14 + 15 + 16 + 11 = 102 bytes.
/// A unit in SHUTDOWN has 20 + 10 + 16 + 13 + 12 + 12 + 13 + 16 + 9 = 121, and five more where all its readings are marked.
#[test]
fn the_longest_snapshot_is_read_and_written() {
    let mut snapshot = Snapshot {
        month: 12,
        hour: 23,
        lambda: -2_000_000,
        factor: 10_000,
        prc: 200_000_000,
        eea1: 200_000_000,
        short: 200_000_000,
        resources: (0..RESOURCES)
            .map(|index| generator(&format!("UNIT_{index:011}"), GeneratorKind::Wind))
            .collect(),
    };
    let thread = std::thread::Builder::new().stack_size(ordc::STACK);
    let checked = thread.spawn(move || {
        for (marked, bytes) in [(false, 121), (true, 126)] {
            for resource in &mut snapshot.resources {
                if let Unit::Generator(unit) = &mut resource.unit {
                    unit.marks = GeneratorMarks {
                        net: marked,
                        lsl: marked,
                        hsl: marked,
                        base: marked,
                        nonspin: marked,
                    };
                }
            }
            let text = snapshot.to_text().unwrap();
            assert_eq!(text.len(), 102 + bytes * RESOURCES);
            assert_eq!(snapshot.text_length(), Ok(text.len()));
            assert_eq!(Snapshot::from_text(&text).as_ref(), Ok(&snapshot));
        }
        assert_eq!(snapshot.text_length(), Ok(516_198));
        let last = snapshot.resources[RESOURCES - 1].id.clone();
        snapshot.resources[RESOURCES - 1].id = snapshot.resources[0].id.clone();
        let line = 8 + 9 * 4095 + 1;
        assert_eq!(snapshot.to_text(), Err(Refusal { number: 8, line }));
        snapshot.resources[RESOURCES - 1].id = last;
        snapshot.resources.push(other_load("ONE_MORE"));
        assert_eq!(snapshot.to_text(), Err(Refusal { number: 7, line: 8 }));
        snapshot.short = -1;
        assert_eq!(snapshot.to_text(), Err(Refusal { number: 7, line: 7 }));
    });
    checked.unwrap().join().unwrap();
}

/// The shortest resources, of 41 bytes each: there is space for them all.
#[test]
fn a_text_of_short_resources_has_space() {
    let letters = "ABCDEFGHIJKLMNOPQRSTUVWXYZ0123456789_";
    let mut snapshot = Snapshot {
        month: 1,
        hour: 0,
        lambda: 0,
        factor: 0,
        prc: 0,
        eea1: 0,
        short: 0,
        resources: letters
            .chars()
            .map(|letter| other_load(&letter.to_string()))
            .collect(),
    };
    let text = snapshot.to_text().unwrap();
    let header = "month=1\nhour=0\nlambda=0\nfactor=0\nprc=0\neea1=0\nshort=0\ncount=37\n";
    assert_eq!(text.len(), header.len() + 37 * 41);
    assert_eq!(Snapshot::from_text(&text), Ok(snapshot.clone()));
    snapshot.resources = (0..RESOURCES)
        .map(|index| other_load(&format!("{index:X}")))
        .collect();
    assert_eq!(
        Snapshot::from_text(&snapshot.to_text().unwrap()),
        Ok(snapshot)
    );
}
