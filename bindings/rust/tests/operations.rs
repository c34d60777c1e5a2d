use ordc::{CurveSet, Group, Pair, Prices, Record, Refusal, CURVE_TEXT, GROUPS, PAGE};

const LISTING: &str = include_str!("../../python/examples/snapshots/1-listing.txt");
const ALL_KINDS: &[u8] = include_bytes!("../../python/examples/snapshots/5-all-kinds.txt");
const THREE_RUNS: &[u8] = include_bytes!("../../python/examples/hour.txt");
const CURVES: &[u8] = include_bytes!("../../python/examples/listing.curves");
const PRICES: Prices = Prices {
    rs: 2_707_000,
    rsns: 3_000_000,
    pis: 158_655_254,
    pins: 158_655_254,
    online: 142_393,
    offline: 71_197,
};

/// Mean, spread and row of each group, worked out by hand. On a reserve of X + d the probability is 1000000000 - N(p) with
/// p = 100 * (d - mean) / spread, for d = 1000000, 2000000, 3000000 and 4000000. N is 1000000000 from p = 500 on; below 0
/// it is 1000000000 - N(-p), so that the probability is N(-p). At a whole p it is a knot of the normal table. The knots
/// that are used here come from the table's rule, by fractions of whole numbers: T(0) 500000000, T(1) 503989356,
/// T(25) 598706326, T(26) 602568113, T(70) 758036348, T(71) 761147932, T(100) 841344746, T(105) 853140944,
/// T(110) 864333939, T(114) 872856849, T(115) 874928064, T(120) 884930330, T(200) 977249868, T(203) 978821730,
/// T(204) 979324837, T(292) 998249843, T(293) 998305190, T(300) 998650102, T(400) 999968329, T(499) 999999698,
/// T(500) 999999713.
#[rustfmt::skip]
const ROWS: [(i64, i64, &str); GROUPS] = [
    // p = 100, 200, 300, 400.
    (0, 1_000_000,
     "winter 0         0  1000000  158655254   22750132    1349898      31671\n"),
    // p = -100, 0, 100, 200.
    (2_000_000, 1_000_000,
     "winter 1   2000000  1000000  841344746  500000000  158655254   22750132\n"),
    // The longest mean and the longest spread: p = 2100000000 / 20000000 = 105, then 110, 115, 120.
    (-20_000_000, 20_000_000,
     "winter 2 -20000000 20000000  146859056  135666061  125071936  115069670\n"),
    // The longest probability: p is -1900000000 to -1600000000.
    (20_000_000, 1,
     "winter 3  20000000        1 1000000000 1000000000 1000000000 1000000000\n"),
    // p is 2100000000 to 2400000000.
    (-20_000_000, 1,
     "winter 4 -20000000        1          0          0          0          0\n"),
    // p = 70.7: N = 758036348 + floor(0.7 * 3111584) = 760214456. Then p = 10070.7 and more.
    (992_930, 10_000,
     "winter 5    992930    10000  239785544          0          0          0\n"),
    // p = -70.7: N(70.7) itself. Then p = 9929.3 and more.
    (1_007_070, 10_000,
     "spring 0   1007070    10000  760214456          0          0          0\n"),
    // p = 499.5: N = 999999698 + floor(0.5 * 15) = 999999705. Then p = 999.5 and more.
    (1_000, 200_000,
     "spring 1      1000   200000        295          0          0          0\n"),
    // p = 500: N is no longer a knot. Then p = 1000 and more.
    (0, 200_000,
     "spring 2         0   200000          0          0          0          0\n"),
    // p = 1/3: N = 500000000 + floor(3989356 / 3) = 501329785. Then p = 3333 2/3 and more.
    (999_900, 30_000,
     "spring 3    999900    30000  498670215          0          0          0\n"),
    // p = -1/3. Then p = 3333 and more.
    (1_000_100, 30_000,
     "spring 4   1000100    30000  501329785          0          0          0\n"),
    // p is -300000000, -200000000, -100000000 and 0.
    (4_000_000, 1,
     "spring 5   4000000        1 1000000000 1000000000 1000000000  500000000\n"),
    // From here on, except in summer 4, p is 99997900 or more.
    (12, 1,
     "summer 0        12        1          0          0          0          0\n"),
    (13, 1,
     "summer 1        13        1          0          0          0          0\n"),
    (14, 1,
     "summer 2        14        1          0          0          0          0\n"),
    (15, 1,
     "summer 3        15        1          0          0          0          0\n"),
    // The row of docs/FORMAT.md: N = 598706326 + floor(3861787 * 616725 / 1124667) = 600823984,
    // 872856849 + floor(2071215 * 521362 / 1124667) = 873817002, 978821730 + floor(503107 * 425999 / 1124667) = 979012295,
    // 998249843 + floor(55347 * 330636 / 1124667) = 998266114.
    (712_666, 1_124_667,
     "summer 4    712666  1124667  399176016  126182998   20987705    1733886\n"),
    (17, 1,
     "summer 5        17        1          0          0          0          0\n"),
    (18, 1,
     "fall   0        18        1          0          0          0          0\n"),
    (19, 1,
     "fall   1        19        1          0          0          0          0\n"),
    (20, 1,
     "fall   2        20        1          0          0          0          0\n"),
    (21, 1,
     "fall   3        21        1          0          0          0          0\n"),
    (-22, 1,
     "fall   4       -22        1          0          0          0          0\n"),
    (-23, 1,
     "fall   5       -23        1          0          0          0          0\n"),
];

fn curves() -> CurveSet {
    CurveSet::from_text(CURVES).unwrap()
}

/// The hour endings of each block, as they are posted; hour h is hour ending h + 1.
const POSTED: [[u64; 4]; 6] = [
    [23, 24, 1, 2],
    [3, 4, 5, 6],
    [7, 8, 9, 10],
    [11, 12, 13, 14],
    [15, 16, 17, 18],
    [19, 20, 21, 22],
];

fn hour_of(month: usize, hour: u64, error: i64) -> String {
    let fields = "hsl=1000\nbase=0\nrrs=0\nnclr=0\nreg=0\nns=0\noffns=0\ncold30=0\nshort=0\n";
    format!(
        "month={}\nhour={}\nongen={}\nload=0\ntie=0\nns=0\nreg=0\nrrs=0\nnclr=0\noffns=0\ncold30=0\nshed=0\nruns=1\n{fields}",
        month,
        hour,
        error + 1000
    )
}

/// An hour of this group: of January, April, July or October, and the first one of its block.
fn hour(group: usize, error: i64) -> String {
    hour_of(3 * (group / 6) + 1, POSTED[group % 6][0] - 1, error)
}

fn booked(errors: &[i64]) -> Record {
    let mut record = Record::default();
    for group in 0..GROUPS {
        for &error in errors {
            record.book(hour(group, error).as_bytes()).unwrap();
        }
    }
    record
}

fn refused<T: std::fmt::Debug>(answer: Result<T, Refusal>, number: u64, line: u64) {
    assert_eq!(answer.unwrap_err(), Refusal { number, line });
}

#[test]
fn the_listing() {
    assert_eq!(curves().price(LISTING.as_bytes()), Ok(PRICES));
}

/// The snapshot of docs/FORMAT.md.
#[test]
fn all_kinds_of_resource() {
    let prices = Prices {
        rs: 2_626_301,
        rsns: 3_194_701,
        pis: 187_850_153,
        pins: 116_104_844,
        online: 136_096,
        offline: 51_986,
    };
    assert_eq!(curves().price(ALL_KINDS), Ok(prices));
}

/// The hour of docs/FORMAT.md: its error is booked in the group of July, hour 14, and in no other.
#[test]
fn an_hour_of_three_runs() {
    let error = 1_837_334;
    let mut expected = Record::default();
    expected.groups[16] = Group {
        count: 1,
        sum: error,
        squares: error * error,
    };
    let mut record = Record::default();
    record.book(THREE_RUNS).unwrap();
    assert_eq!(record, expected);
}

/// History and snapshot have the groups of the posted table, in every month and hour. December to February are winter,
/// whose groups are 0 to 5. With mean -20000000 the probability is 0 on every reserve above X, and 1 with mean 20000000.
#[test]
fn the_blocks_are_the_posted_ones() {
    let mut never = curves();
    never.pairs = [Pair {
        mean: -20_000_000,
        spread: 1,
    }; GROUPS];
    let seasons = [[12, 1, 2], [3, 4, 5], [6, 7, 8], [9, 10, 11]];
    for (season, months) in seasons.iter().enumerate() {
        for (block, endings) in POSTED.iter().enumerate() {
            let group = 6 * season + block;
            let mut expected = Record::default();
            expected.groups[group] = Group {
                count: 1,
                sum: 3,
                squares: 9,
            };
            let mut only = never;
            only.pairs[group].mean = 20_000_000;
            for (month, ending) in months.iter().flat_map(|m| endings.map(|e| (*m, e))) {
                let hour = ending - 1;
                let mut record = Record::default();
                record.book(hour_of(month, hour, 3).as_bytes()).unwrap();
                assert_eq!(record, expected, "month {month}, hour {hour}");
                let clock = format!("month={month}\nhour={hour}\n");
                let snapshot = LISTING.replace("month=7\nhour=14\n", &clock);
                let prices = only.price(snapshot.as_bytes()).unwrap();
                assert_eq!((prices.pis, prices.pins), (1_000_000_000, 1_000_000_000));
                let prices = never.price(snapshot.as_bytes()).unwrap();
                assert_eq!((prices.pis, prices.pins), (0, 0));
            }
        }
    }
}

#[test]
fn errors_settle_into_curves_and_their_text() {
    let settled = booked(&[-1, 2]).settle(900_000, 2_000_000).unwrap();
    assert_eq!(settled.pairs, [Pair { mean: 0, spread: 1 }; GROUPS]);
    assert_eq!(
        CurveSet::from_text(&settled.to_text().unwrap()),
        Ok(settled)
    );
    assert_eq!(curves().to_text().unwrap(), CURVES);
}

/// Means and spreads on both sides of each power of ten, in rows of four. Above a row stand the bytes of its means and
/// spreads, the sign counted, and their sum.
#[rustfmt::skip]
const POWERS: [(i64, i64); GROUPS] = [
    // 2 + 1, 3 + 1, 3 + 2, 4 + 2: 18
    (-9, 1), (-10, 9), (-99, 10), (-100, 99),
    // 4 + 3, 5 + 3, 5 + 4, 6 + 4: 34
    (-999, 100), (-1_000, 999), (-9_999, 1_000), (-10_000, 9_999),
    // 6 + 5, 7 + 5, 7 + 6, 8 + 6: 50
    (-99_999, 10_000), (-100_000, 99_999), (-999_999, 100_000), (-1_000_000, 999_999),
    // 8 + 7, 9 + 7, 1 + 8, 2 + 8: 50
    (-9_999_999, 1_000_000), (-10_000_000, 9_999_999), (9, 10_000_000), (10, 19_999_999),
    // 2 + 1, 3 + 2, 3 + 2, 4 + 3: 20
    (99, 9), (100, 10), (999, 99), (1_000, 100),
    // 4 + 3, 5 + 4, 1 + 1, 2 + 1: 21
    (9_999, 999), (10_000, 1_000), (0, 1), (-1, 1),
];

/// Curve sets and the lengths of their texts, worked out by hand. Keys, `=` and byte 10 have 277 bytes: `voll=` 6 and
/// `floor=` 7 with byte 10, and in each of the 24 groups `mu=` 4 and `sigma=` 7. The rest are the bytes of the 50
/// numbers, the sign counted.
fn sets_and_lengths() -> [(CurveSet, usize); 4] {
    let set = |voll, floor, pairs: [(i64, i64); GROUPS]| CurveSet {
        voll,
        floor,
        pairs: pairs.map(|(mean, spread)| Pair { mean, spread }),
    };
    [
        // One byte each: 277 + 50.
        (set(0, 0, [(0, 1); GROUPS]), 327),
        // 277 + 7 + 8 + 24 * (9 + 8).
        (
            set(2_000_000, 20_000_000, [(-20_000_000, 20_000_000); GROUPS]),
            700,
        ),
        // 900000 and 2000000, then 0 and 1000000 in each group: 277 + 6 + 7 + 24 * (1 + 7).
        (curves(), 482),
        // 277 + 1 + 8 + 18 + 34 + 50 + 50 + 20 + 21.
        (set(9, 10_000_000, POWERS), 479),
    ]
}

/// The text as docs/FORMAT.md lays it out.
fn text_of(set: &CurveSet) -> String {
    let mut text = format!("voll={}\nfloor={}\n", set.voll, set.floor);
    for Pair { mean, spread } in set.pairs {
        text.push_str(&format!("mu={mean}\nsigma={spread}\n"));
    }
    text
}

/// The length is told before the text is written, and nothing more than that is set aside for the text.
#[test]
fn the_length_of_a_curve_text() {
    for (set, length) in sets_and_lengths() {
        assert_eq!(set.text_length(), Ok(length));
        let text = set.to_text().unwrap();
        assert_eq!(std::str::from_utf8(&text), Ok(text_of(&set).as_str()));
        assert_eq!((text.len(), text.capacity()), (length, length));
    }
    assert_eq!(CURVE_TEXT, 700);
}

/// A number adds its own bytes to the length, the sign among them, at each place where it is possible. Here it stands in
/// the shortest text, of 327 bytes, instead of a number of one byte.
#[test]
fn each_number_adds_its_bytes() {
    let above = [
        (1, [1, 9]),
        (2, [10, 99]),
        (3, [100, 999]),
        (4, [1_000, 9_999]),
        (5, [10_000, 99_999]),
        (6, [100_000, 999_999]),
        (7, [1_000_000, 2_000_000]),
        (7, [2_000_001, 9_999_999]),
        (8, [10_000_000, 20_000_000]),
    ];
    let shortest = sets_and_lengths()[0].0;
    for (bytes, number) in above.iter().flat_map(|(b, ns)| ns.map(|n| (*b, n))) {
        let length = Ok(326 + bytes);
        if number <= 2_000_000 {
            let mut set = shortest;
            set.voll = number;
            assert_eq!(set.text_length(), length, "voll={number}");
        }
        let mut set = shortest;
        set.floor = number;
        assert_eq!(set.text_length(), length, "floor={number}");
        for group in 0..GROUPS {
            let mut set = shortest;
            set.pairs[group].spread = number;
            assert_eq!(set.text_length(), length, "sigma={number} of {group}");
            let mut set = shortest;
            set.pairs[group].mean = number;
            assert_eq!(set.text_length(), length, "mu={number} of {group}");
            set.pairs[group].mean = -number;
            let signed = Ok(326 + 1 + bytes);
            assert_eq!(set.text_length(), signed, "mu=-{number} of {group}");
        }
    }
}

/// A buffer of just the text's length holds it, and one of one byte less is refused by 14. The bytes before and after,
/// and a buffer that is refused, are as before.
#[test]
fn a_curve_text_takes_just_its_length() {
    for (set, length) in sets_and_lengths() {
        for size in [0, 1, length - 1, length, length + 1, CURVE_TEXT] {
            let mut space = [7; 1000];
            let answer = set.write_text(&mut space[100..100 + size]);
            let mut expected = [7; 1000];
            if size < length {
                refused(answer, 14, 0);
            } else {
                assert_eq!(answer, Ok(length));
                expected[100..100 + length].copy_from_slice(text_of(&set).as_bytes());
            }
            assert_eq!(space, expected, "{size} bytes");
        }
    }
}

fn curves_of_rows(voll: i64, floor: i64) -> CurveSet {
    CurveSet {
        voll,
        floor,
        pairs: ROWS.map(|(mean, spread, _)| Pair { mean, spread }),
    }
}

fn page_of_rows() -> String {
    ROWS.map(|(_, _, row)| row).concat()
}

/// Every row has 72 bytes and the page 1728. It is the same whatever VOLL and X are, up to both ends of their ranges.
#[test]
fn a_page_worked_out_by_hand() {
    assert!(ROWS.iter().all(|(_, _, row)| row.len() == 72));
    assert_eq!(PAGE, 1728);
    for (voll, floor) in [(900_000, 2_000_000), (0, 0), (2_000_000, 20_000_000)] {
        let page = curves_of_rows(voll, floor).to_page().unwrap();
        assert_eq!(std::str::from_utf8(&page), Ok(page_of_rows().as_str()));
    }
}

/// In a buffer of 1728 bytes or more the first 1728 are the page. A shorter one is refused by 14. The bytes before and
/// after, and a buffer that is refused, are as before.
#[test]
fn a_page_takes_1728_bytes() {
    for size in [0, 1, 72, 1727, 1728, 1729, 2500] {
        let mut space = [7; 4000];
        let answer = curves_of_rows(900_000, 2_000_000).write_page(&mut space[500..500 + size]);
        let mut expected = [7; 4000];
        if size < 1728 {
            refused(answer, 14, 0);
        } else {
            assert_eq!(answer, Ok(()));
            expected[500..2228].copy_from_slice(page_of_rows().as_bytes());
        }
        assert_eq!(space, expected, "{size} bytes");
    }
}

/// Sets in each of which one number is outside its range.
fn impossible_sets() -> Vec<CurveSet> {
    let mut impossible = vec![];
    for voll in [-1, 2_000_001, i64::MIN, i64::MAX] {
        impossible.push(CurveSet { voll, ..curves() });
    }
    for floor in [-1, 20_000_001, i64::MIN, i64::MAX] {
        impossible.push(CurveSet { floor, ..curves() });
    }
    for group in 0..GROUPS {
        let mut push = |mean, spread| {
            let mut set = curves();
            set.pairs[group] = Pair { mean, spread };
            impossible.push(set);
        };
        for mean in [-20_000_001, 20_000_001, i64::MIN, i64::MAX] {
            push(mean, 1_000_000);
        }
        for spread in [0, -1, 20_000_001, i64::MIN, i64::MAX] {
            push(0, spread);
        }
    }
    impossible
}

/// A number outside its range is refused by 1: the text has no length and is not written, whatever the buffer.
#[test]
fn an_impossible_set_has_no_text() {
    for set in impossible_sets() {
        refused(set.text_length(), 1, 0);
        refused(set.to_text(), 1, 0);
        for size in [0, 1, 326, 327, 700, 701] {
            let mut space = [7; 1000];
            refused(set.write_text(&mut space[100..100 + size]), 1, 0);
            assert_eq!(space, [7; 1000]);
        }
    }
}

/// A number outside its range is refused by 1 before the buffer is looked at, also VOLL and X, which no page shows.
#[test]
fn an_impossible_set_has_no_page() {
    for set in impossible_sets() {
        refused(set.to_page(), 1, 0);
        for size in [0, 1, 1727, 1728, 1729] {
            let mut space = [7; 2000];
            refused(set.write_page(&mut space[100..100 + size]), 1, 0);
            assert_eq!(space, [7; 2000]);
        }
    }
}

#[test]
fn every_refusal() {
    let mut record = Record::default();
    record.groups[0].count = -1;
    refused(record.clone().book(hour(0, 0).as_bytes()), 1, 0);
    refused(record.settle(0, 0), 1, 0);
    refused(
        CurveSet {
            voll: -1,
            ..curves()
        }
        .to_text(),
        1,
        0,
    );
    refused(
        CurveSet {
            voll: -1,
            ..curves()
        }
        .text_length(),
        1,
        0,
    );
    refused(
        CurveSet {
            voll: -1,
            ..curves()
        }
        .price(LISTING.as_bytes()),
        1,
        0,
    );
    refused(
        CurveSet {
            voll: -1,
            ..curves()
        }
        .to_page(),
        1,
        0,
    );
    refused(CurveSet::from_text(&[b'x'; 4097]), 2, 0);
    refused(Record::default().book(&[b'x'; 65537]), 2, 0);
    refused(curves().price(&vec![b'x'; 1_048_577]), 2, 0);
    refused(curves().price(&vec![b'x'; 1_048_576]), 3, 1);
    refused(CurveSet::from_text(b""), 3, 1);
    refused(CurveSet::from_text(b"voll=1\nmu=1\n"), 4, 2);
    let damaged = |from, to| LISTING.replacen(from, to, 1);
    refused(
        curves().price(damaged("hsl=2000000", "hsl=").as_bytes()),
        5,
        14,
    );
    refused(CurveSet::from_text(b"voll=01\n"), 6, 1);
    refused(CurveSet::from_text(b"voll=2000001\n"), 7, 1);
    refused(booked(&[-1, 2]).settle(0, -1), 7, 0);
    refused(curves().price(damaged("id=B", "id=A").as_bytes()), 8, 18);
    refused(CurveSet::from_text(&[CURVES, b"x"].concat()), 9, 51);
    let mut full = Record::default();
    full.groups[0] = Group {
        count: 1000,
        sum: 0,
        squares: 0,
    };
    refused(full.book(hour(0, 0).as_bytes()), 10, 0);
    refused(
        Record::default().book(hour(0, 20_000_001).as_bytes()),
        11,
        0,
    );
    refused(Record::default().settle(0, 0), 12, 0);
    refused(booked(&[5, 5]).settle(0, 0), 13, 0);
    refused(curves().write_text(&mut [0; 10]), 14, 0);
    refused(curves().write_page(&mut [0; PAGE - 1]), 14, 0);
}

#[test]
fn a_refusal_changes_nothing() {
    let before = booked(&[-1, 2]);
    let mut record = before;
    refused(record.book(hour(0, 20_000_001).as_bytes()), 11, 0);
    assert_eq!(record, before);
    let mut buffer = [7; 100];
    refused(curves().write_text(&mut buffer), 14, 0);
    assert_eq!(buffer, [7; 100]);
}

#[test]
fn threads_get_the_same_answers() {
    let threads: Vec<_> = (0..8)
        .map(|_| std::thread::spawn(|| curves().price(LISTING.as_bytes())))
        .collect();
    for thread in threads {
        assert_eq!(thread.join().unwrap(), Ok(PRICES));
    }
}

/// As many resources as a snapshot can have, each of as many bytes as it can have; only the last one is counted. The
/// thread has the stack that is promised to be enough.
#[test]
fn the_longest_snapshot_is_priced() {
    let mut text = String::from(
        "month=12\nhour=23\nlambda=-2000000\nfactor=10000\nprc=200000000\neea1=200000000\nshort=200000000\ncount=4096\n",
    );
    for index in 0..4096 {
        let status = if index == 4095 { "ON" } else { "SHUTDOWN" };
        text.push_str(&format!(
            "id=RESOURCE_{index:07}\nkind=wind\nstatus={status}\nnet=2000000\nlsl=2000000\nhsl=2000000\nbase=1000000\nnonspin=2000000\ncold30=1\n"
        ));
    }
    assert!(text.len() < 1_048_576);
    let thread = std::thread::Builder::new().stack_size(ordc::STACK);
    let pricing = thread.spawn(move || curves().price(text.as_bytes()));
    let prices = pricing.unwrap().join().unwrap().expect("it is accepted");
    // hsl - base - nonspin of the one unit, less the under-generation
    assert_eq!(prices.rs, 2_000_000 - 1_000_000 - 2_000_000 - 200_000_000);
}
