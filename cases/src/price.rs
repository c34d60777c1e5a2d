//! Cases of pricing a snapshot.

use crate::book::bounds_of_the_first_block;
use crate::curve_text::random_set;
use crate::texts::*;
use crate::{Case, Input, Random, Text};
use reference::{pi_ns, pi_s, CurveSet, BILLION, GROUPS};

pub const POWER: i64 = 2_000_000;
pub const SNAPSHOT_LIMIT: usize = 1_048_576;

pub fn add(cases: &mut Vec<Case>, random: &mut Random) {
    worked_example(cases);
    damaged_lines(cases);
    ids(cases);
    counts(cases);
    lengths(cases);
    bounds(cases);
    units(cases);
    sums(cases);
    loads(cases);
    emergency(cases);
    discounts(cases);
    about_the_floor(cases);
    knots(cases);
    flat_ends(cases);
    groups(cases);
    lambdas(cases);
    half_cents(cases);
    random_snapshots(cases, random);
}

/// A header; the fields that a case is not about are out of its way.
#[derive(Clone, Copy)]
pub struct Header {
    pub month: i64,
    pub hour: i64,
    pub lambda: i64,
    pub factor: i64,
    pub prc: i64,
    pub eea1: i64,
    pub short: i64,
}

pub const HEADER: Header = Header {
    month: 7,
    hour: 14,
    lambda: 0,
    factor: 10_000,
    prc: 1,
    eea1: 0,
    short: 0,
};

/// The header with the longest text.
pub const LONGEST_HEADER: Header = Header {
    month: 12,
    hour: 23,
    lambda: -POWER,
    factor: 10_000,
    prc: 200_000_000,
    eea1: 200_000_000,
    short: 200_000_000,
};

pub fn snapshot(header: &Header, resources: &[String]) -> Lines {
    let Header {
        month,
        hour,
        lambda,
        factor,
        prc,
        eea1,
        short,
    } = header;
    let count = resources.len();
    let mut lines = listing(&format!(
        "month={month} hour={hour} lambda={lambda} factor={factor} prc={prc} eea1={eea1} \
         short={short} count={count}"
    ));
    for resource in resources {
        lines.extend(listing(resource));
    }
    lines
}

pub fn generator(id: &str, kind: &str, status: &str, numbers: [i64; 6]) -> String {
    let [net, lsl, hsl, base, nonspin, cold30] = numbers;
    format!(
        "id={id} kind={kind} status={status} net={net} lsl={lsl} hsl={hsl} base={base} \
         nonspin={nonspin} cold30={cold30}"
    )
}

pub fn clr(id: &str, base: i64, lpc: i64, nonspin: i64, regup: i64) -> String {
    format!("id={id} kind=clr base={base} lpc={lpc} nonspin={nonspin} regup={regup}")
}

pub fn nclr(id: &str, rrsok: i64, net: i64, lpc: i64, rrs: i64) -> String {
    format!("id={id} kind=nclr rrsok={rrsok} net={net} lpc={lpc} rrs={rrs}")
}

/// Controllable loads that give this much on-line reserve, above 0.
fn on_line(mut amount: i64) -> Vec<String> {
    let mut all = Vec::new();
    while amount > 0 || all.is_empty() {
        let part = amount.min(POWER);
        all.push(clr(&format!("C{}", all.len()), part, 0, 0, 0));
        amount -= part;
    }
    all
}

/// A unit that gives this much off-line reserve.
fn off_line(amount: i64) -> String {
    generator("OFF", "gen", "OFFNS", [0, 0, amount, 0, 0, 0])
}

pub fn curves() -> CurveSet {
    curves_of(900_000, 2_000_000, 0, 1_000_000)
}

pub fn priced(curves: CurveSet, text: impl Into<Text>) -> Input {
    Input::Price {
        curves,
        text: text.into(),
    }
}

/// The case of a snapshot with these resources on these curves.
fn of(curves: CurveSet, header: &Header, resources: &[String]) -> Input {
    priced(curves, bytes(&snapshot(header, resources)))
}

/// The snapshot of the worked example.
pub fn example() -> Lines {
    let header = Header {
        lambda: 2500,
        prc: 3_000_000,
        eea1: 2_300_000,
        ..HEADER
    };
    let units = [
        generator(
            "A",
            "gen",
            "ON",
            [200_000, 100_000, 2_000_000, 200_000, 0, 0],
        ),
        generator("B", "gen", "ON", [95_000, 100_000, 1_000_000, 93_000, 0, 0]),
        generator("C", "gen", "OFFNS", [0, 0, 293_000, 0, 0, 0]),
    ];
    snapshot(&header, &units)
}

fn worked_example(cases: &mut Vec<Case>) {
    let lines = example();
    cases.case("the worked example", priced(curves(), bytes(&lines)));
    for (at, value) in [
        (5, "2300000"),
        (5, "2300001"),
        (21, "94999"),
        (14, ""),
        (3, "900000"),
    ] {
        let text = bytes(&with_value(&lines, at, value));
        cases.case(
            format!("the worked example, line {at} made {value:?}"),
            priced(curves(), text),
        );
    }
}

/// One resource of each form, with what each line may hold.
pub fn one_of_each() -> (Lines, Vec<Due>) {
    let lines = snapshot(
        &HEADER,
        &[
            generator("A", "gen", "ON", [9, 5, 80, 7, 1, 0]),
            clr("B", 9, 2, 1, 3),
            nclr("C", 1, 20, 4, 9),
        ],
    );
    let system = Due::Number(0, 200_000_000);
    let power = Due::Number(0, POWER);
    let flag = Due::Number(0, 1);
    let mut dues = vec![
        Due::Number(1, 12),
        Due::Number(0, 23),
        Due::Number(-POWER, POWER),
        Due::Number(0, 10_000),
        system,
        system,
        system,
        Due::Number(0, 4096),
    ];
    dues.extend([Due::Id, Due::Kind, Due::Status, Due::Number(-POWER, POWER)]);
    dues.extend([power, power, power, power, flag]);
    dues.extend([Due::Id, Due::Kind, power, power, power, power]);
    dues.extend([Due::Id, Due::Kind, flag, power, power, power]);
    (lines, dues)
}

fn damaged_lines(cases: &mut Vec<Case>) {
    let (lines, dues) = one_of_each();
    for (at, &due) in (1..).zip(&dues) {
        for (label, text) in damages(&lines, at, due) {
            cases.case(label, priced(curves(), text));
        }
    }
    for (key, due) in [
        ("id", Due::Id),
        ("kind", Due::Kind),
        ("status", Due::Status),
    ] {
        let at = line_of(&lines, 9, key);
        for turn in 0..10 {
            let bad = bad_value(due, turn);
            let text = bytes(&with_value(&lines, at, bad));
            cases.case(format!("{key} {bad:?}"), priced(curves(), text));
        }
    }
    for turn in 0..16 {
        let bad = bad_value(Due::Number(0, 0), turn);
        let text = bytes(&with_value(&lines, 14, bad));
        cases.case(format!("hsl {bad:?}"), priced(curves(), text));
    }
    cases.case("no byte at all", priced(curves(), ""));
    // A resource of one kind with the lines of another.
    for kind in ["gen", "clr", "nclr", "wind"] {
        for at in [10, 19, 25] {
            let text = bytes(&with_value(&lines, at, kind));
            cases.case(format!("line {at} kind {kind}"), priced(curves(), text));
        }
    }
    for more in ["\n", "x", "id=D\n", "month=7\n", "\0"] {
        let text = Text::from(bytes(&lines)).then(1, more);
        let label = format!("bytes {more:?} follow the resources");
        cases.case(label, priced(curves(), text));
        let text = Text::from(bytes(&snapshot(&HEADER, &[]))).then(1, more);
        let label = format!("bytes {more:?} follow the header");
        cases.case(label, priced(curves(), text));
    }
}

fn ids(cases: &mut Vec<Case>) {
    let loads = |ids: &[&str]| {
        let all: Vec<String> = ids.iter().map(|id| nclr(id, 1, 5, 1, 2)).collect();
        of(curves(), &HEADER, &all)
    };
    let sixteen = "ABCDEFGHIJKLMNOP";
    for id in [
        "A",
        "Z",
        "0",
        "9",
        "_",
        sixteen,
        "0123456789_ABCDE",
        "________________",
    ] {
        cases.case(format!("id {id}"), loads(&[id]));
    }
    for id in [
        "ABCDEFGHIJKLMNOPQ",
        "0123456789012345678901234567890123456789",
    ] {
        cases.case(format!("id {id}, too long"), loads(&[id]));
    }
    for byte in [
        "@", "[", "/", ":", "^", "`", "a", "z", "-", "\u{7f}", "\u{80}", "\0",
    ] {
        cases.case(format!("id with {byte:?}"), loads(&[&format!("A{byte}")]));
    }
    for ids in [
        &["A", "A"][..],
        &["A", "B", "A"],
        &["A", "B", "B"],
        &["A", "B", "C", "D", "E", "F", "G", "C"],
        &["AB", "A", "B", "AA", "ABA"],
        &["A", "AA", "AAA", "AAAA"],
        &[sixteen, "ABCDEFGHIJKLMNO"],
        &[sixteen, "ABCDEFGHIJKLMNOQ"],
        &[sixteen, "BBCDEFGHIJKLMNOP"],
        &[sixteen, "A", sixteen],
        &["A_", "_A", "A_"],
        &["0", "00", "000", "0"],
    ] {
        cases.case(format!("ids {}", ids.join(" ")), loads(ids));
    }
    // A repeated id comes before the fault on the next line.
    let text = bytes(&listing(
        "month=7 hour=14 lambda=0 factor=0 prc=0 eea1=0 short=0 count=2
         id=A kind=nclr rrsok=0 net=0 lpc=0 rrs=0 id=A kind=none",
    ));
    cases.case("8 comes before the next line's 6", priced(curves(), text));
}

/// As many resources as a snapshot can have, and so its last line.
fn counts(cases: &mut Vec<Case>) {
    let header = bytes(&with_value(&snapshot(&HEADER, &[]), 8, "4096"));
    let load = bytes(&listing(&nclr("L#", 1, 1, 0, 1)));
    let text = Text::from(header.clone()).then(4096, load);
    cases.case("4096 load resources", priced(curves(), text));
    let unit = |id: &str| listing(&generator(id, "gen", "ON", [9, 5, 80, 7, 1, 0]));
    let start = Text::from(header).then(4095, bytes(&unit("G#")));
    let text = |last: Vec<u8>| start.clone().then(1, last);
    let last = unit("LAST");
    cases.case("4096 units", priced(curves(), text(bytes(&last))));
    for (at, due) in [(1, Due::Id), (9, Due::Number(0, 1))] {
        for (label, last) in damages(&last, at, due) {
            let label = label.replace(&format!("line {at}"), "last unit's line");
            cases.case(format!("4096 units, {label}"), priced(curves(), text(last)));
        }
    }
    for id in ["G0000", "G2047", "G4094"] {
        let text = text(bytes(&unit(id)));
        cases.case(
            format!("4096 units, the last is {id} again"),
            priced(curves(), text),
        );
    }
    let text = text(bytes(&last)).then(1, "\n");
    cases.case("4096 units, a byte follows", priced(curves(), text));
    let (lines, _) = one_of_each();
    for count in [0, 1, 2, 4, 4096, 4097] {
        let text = bytes(&with_value(&lines, 8, &count.to_string()));
        cases.case(
            format!("3 resources, said to be {count}"),
            priced(curves(), text),
        );
    }
}

fn lengths(cases: &mut Vec<Case>) {
    let header = bytes(&snapshot(&HEADER, &[]));
    let room = SNAPSHOT_LIMIT - header.len();
    for (name, length) in [("at", room), ("one over", room + 1)] {
        let text = Text::from(header.clone()).then(length, "x");
        let label = format!("a snapshot {name} its limit of bytes");
        cases.case(label, priced(curves(), text));
    }
    for (name, length) in [("at", SNAPSHOT_LIMIT), ("one over", SNAPSHOT_LIMIT + 1)] {
        for byte in ["m", "\n"] {
            let text = Text::default().then(length, byte);
            let label = format!("bytes {byte:?} {name} the limit");
            cases.case(label, priced(curves(), text));
        }
    }
    let impossible = CurveSet {
        voll: -1,
        ..curves()
    };
    let text = Text::default().then(SNAPSHOT_LIMIT + 1, "x");
    cases.case("1 comes before 2", priced(impossible, text));
    // A number may be long, and is only out of range.
    for (head, tail) in [("month=", ""), ("month=7\nhour=-", "")] {
        let text = Text::from(head)
            .then(100_000, "9")
            .then(1, format!("{tail}\n"));
        cases.case("a number of 100000 digits", priced(curves(), text));
    }
}

/// Every bound of every field, in a snapshot where it is counted.
fn bounds(cases: &mut Vec<Case>) {
    let (lines, dues) = one_of_each();
    let wide = curves_of(900_000, 0, 0, 1_000_000);
    for (at, due) in (1..).zip(&dues) {
        let Due::Number(low, high) = *due else {
            continue;
        };
        if at == 8 {
            continue;
        }
        let key = lines[at - 1].split('=').next().unwrap_or_default();
        for value in [low, low + 1, high - 1, high] {
            let text = bytes(&with_value(&lines, at, &value.to_string()));
            cases.case(format!("line {at} {key} at {value}"), priced(wide, text));
        }
    }
    let header = Header {
        eea1: 199_999_999,
        short: 0,
        ..LONGEST_HEADER
    };
    let most = [
        generator("A", "gen", "ON", [POWER, POWER, POWER, 0, 0, 1]),
        generator("B", "wind", "STARTUP", [POWER, POWER, POWER, 0, POWER, 1]),
        generator("C", "nuke", "OFF", [-POWER, 0, POWER, 0, 0, 1]),
        clr("D", POWER, 0, POWER, POWER),
        nclr("E", 1, POWER, 0, POWER),
    ];
    let highest = curves_of(2_000_000, 20_000_000, 20_000_000, 20_000_000);
    let lowest = curves_of(0, 0, -20_000_000, 1);
    let least = Header {
        lambda: POWER,
        factor: 1,
        prc: 0,
        eea1: 200_000_000,
        short: 200_000_000,
        ..header
    };
    for (name, curves) in [("highest", highest), ("lowest", lowest), ("plain", wide)] {
        cases.case(
            format!("largest values, {name} curves"),
            of(curves, &header, &most),
        );
        cases.case(
            format!("smallest header, {name} curves"),
            of(curves, &least, &most),
        );
        cases.case(
            format!("no resource, {name} curves"),
            of(curves, &header, &[]),
        );
    }
}

/// Every status, kind, Non-Spin, cold30 and side of the 95 percent.
fn units(cases: &mut Vec<Case>) {
    let small = curves_of(900_000, 0, 0, 1000);
    for kind in ["gen", "wind", "irr", "nuke"] {
        for status in ["ON", "OFF", "OFFNS", "ONTEST", "STARTUP", "SHUTDOWN", "OUT"] {
            for nonspin in [0, 70] {
                for cold30 in [0, 1] {
                    for net in [189, 190, 191] {
                        let numbers = [net, 200, 1000, 300, nonspin, cold30];
                        let unit = generator("A", kind, status, numbers);
                        let label = format!(
                            "{kind} {status} nonspin {nonspin} cold30 {cold30} net {net} of 200"
                        );
                        cases.case(label, of(small, &HEADER, &[unit]));
                    }
                }
            }
        }
    }
    for (net, lsl) in [
        (0, 0),
        (1, 0),
        (-1, 0),
        (-1, 1),
        (0, 1),
        (1, 1),
        (-190, 200),
        (19, 20),
        (18, 20),
        (94, 100),
        (95, 100),
        (95, 101),
        (96, 101),
        (1_900_000, POWER),
        (1_899_999, POWER),
        (-POWER, POWER),
        (POWER, POWER),
        (-POWER, 0),
    ] {
        for (kind, status, nonspin) in [("gen", "ON", 0), ("wind", "STARTUP", 1)] {
            let unit = generator("A", kind, status, [net, lsl, 1000, 300, nonspin, 0]);
            let label = format!("{kind} {status} net {net} lsl {lsl}");
            cases.case(label, of(small, &HEADER, &[unit]));
        }
    }
}

/// G, C and D of both signs, alone and together.
fn sums(cases: &mut Vec<Case>) {
    let small = curves_of(900_000, 10, 0, 1000);
    let up = generator("G1", "gen", "ON", [1, 0, 500, 100, 50, 0]);
    let down = generator("G2", "wind", "ON", [1, 0, 100, 500, 50, 0]);
    let load_up = clr("C1", 500, 100, 30, 5);
    let load_down = clr("C2", 100, 500, 30, 5);
    let cold = generator("D1", "gen", "OFF", [0, 0, 77, 0, 9, 1]);
    let quick = off_line(33);
    let all = [up, down, load_up, load_down, cold, quick];
    for chosen in 0..64 {
        let part: Vec<String> = (0..6)
            .filter(|place| chosen >> place & 1 == 1)
            .map(|place| all[place].clone())
            .collect();
        for factor in [10_000, 9_999] {
            let header = Header { factor, ..HEADER };
            let label = format!("sums {chosen}, factor {factor}");
            cases.case(label, of(small, &header, &part));
        }
    }
}

/// The cap below, at and above net less lpc.
fn loads(cases: &mut Vec<Case>) {
    let small = curves_of(900_000, 0, 0, 10);
    for rrs in [0, 1, 2, 3, 10] {
        let cap = 3 * rrs / 2;
        for net_less_lpc in [cap - 1, cap, cap + 1, cap + 2, -7, 0] {
            let (net, lpc) = if net_less_lpc < 0 {
                (5, 5 - net_less_lpc)
            } else {
                (net_less_lpc + 5, 5)
            };
            for factor in [10_000, 9_999, 5_000] {
                let header = Header { factor, ..HEADER };
                let load = nclr("L", 1, net, lpc, rrs);
                let label = format!("net less lpc {net_less_lpc}, rrs {rrs}, factor {factor}");
                cases.case(label, of(small, &header, &[load]));
            }
        }
    }
    for short in [0, 4, 5, 6] {
        let header = Header { short, ..HEADER };
        let load = nclr("L", 1, 10, 0, 3);
        let label = format!("half a kW, short {short}");
        cases.case(label, of(small, &header, &[load]));
    }
    let several: [(&str, Vec<String>); 6] = [
        (
            "rrs of a load not validated",
            vec![nclr("A", 1, 10, 0, 1), nclr("B", 0, 50, 0, 9)],
        ),
        (
            "no load is validated",
            vec![nclr("A", 0, 10, 0, 1), nclr("B", 0, 50, 0, 9)],
        ),
        (
            "one cap for all",
            vec![nclr("A", 1, 10, 0, 0), nclr("B", 1, 0, 0, 10)],
        ),
        (
            "one load below its lpc",
            vec![nclr("A", 1, 10, 4, 9), nclr("B", 1, 1, 5, 9)],
        ),
        (
            "loads below zero together",
            vec![nclr("A", 1, 10, 4, 9), nclr("B", 1, 1, 9, 9)],
        ),
        (
            "odd halves",
            vec![
                nclr("A", 1, 50, 0, 1),
                nclr("B", 1, 50, 0, 1),
                nclr("C", 1, 9, 0, 1),
            ],
        ),
    ];
    for (label, loads) in several {
        cases.case(label, of(small, &HEADER, &loads));
    }
}

/// PRC below, at and above EEA Level 1.
fn emergency(cases: &mut Vec<Case>) {
    let small = curves_of(900_000, 100, 0, 1000);
    let mut with_all = on_line(500);
    with_all.push(off_line(300));
    with_all.push(generator("N", "gen", "ON", [1, 0, 400, 100, 60, 0]));
    with_all.push(clr("CN", 200, 0, 40, 0));
    for (prc, eea1) in [
        (0, 0),
        (0, 1),
        (1, 0),
        (2_299_999, 2_300_000),
        (2_300_000, 2_300_000),
        (2_300_001, 2_300_000),
        (200_000_000, 200_000_000),
        (199_999_999, 200_000_000),
        (200_000_000, 199_999_999),
    ] {
        for (name, resources) in [
            ("off-line reserve", with_all.clone()),
            ("none", on_line(500)),
        ] {
            let header = Header {
                prc,
                eea1,
                ..HEADER
            };
            let label = format!("PRC {prc}, EEA1 {eea1}, {name}");
            cases.case(label, of(small, &header, &resources));
        }
    }
}

/// Reserves rounded down, above and below zero.
fn discounts(cases: &mut Vec<Case>) {
    let small = curves_of(900_000, 0, -20_000_000, 20_000_000);
    for factor in [0, 1, 3_333, 5_000, 9_999, 10_000] {
        for amount in [-7, -1, 1, 2, 7, 9_999, 10_000, 10_001] {
            for short in [0, 3] {
                let load = if amount < 0 {
                    clr("C", 0, -amount, 0, 0)
                } else {
                    clr("C", amount, 0, 0, 0)
                };
                let header = Header {
                    factor,
                    short,
                    ..HEADER
                };
                let label = format!("{amount} kW, factor {factor}, short {short}");
                cases.case(label, of(small, &header, &[load, off_line(5)]));
            }
        }
    }
}

/// Reserves below, at and one above X.
fn about_the_floor(cases: &mut Vec<Case>) {
    for x in [0, 1, 1000, 2_000_000] {
        for (mu, sigma) in [
            (0, 1000),
            (300, 7),
            (-300, 7),
            (20_000_000, 1),
            (-20_000_000, 1),
        ] {
            let curves = curves_of(900_000, x, mu, sigma);
            for above in [-1, 0, 1, 2] {
                let label = format!("RS and RSNS {above} above X {x}, mu {mu}");
                let amount = x + above;
                let (amount, short) = (amount.max(0), (-amount).max(0));
                let header = Header { short, ..HEADER };
                cases.case(label, of(curves, &header, &on_line(amount)));
                if x >= 1000 {
                    // RS stays below while RSNS crosses.
                    let mut resources = on_line(x - 5);
                    resources.push(off_line(5 + above));
                    let label = format!("RSNS {above} above X {x}, mu {mu}");
                    cases.case(label, of(curves, &HEADER, &resources));
                }
            }
        }
    }
}

/// Every knot of the table, and places between knots.
fn knots(cases: &mut Vec<Case>) {
    let unit = curves_of(1_000_000, 0, 0, 100);
    for k in 1..=501 {
        cases.case(format!("piNS at knot {k}"), of(unit, &HEADER, &on_line(k)));
    }
    let wide = curves_of(1_000_000, 0, 0, 1_000_000);
    for k in (0..=500).step_by(20) {
        for beside in [-1, 0, 1] {
            let amount = 7070 * k + beside;
            if amount > 0 {
                let label = format!("piS at knot {k}, {beside} kW beside");
                cases.case(label, of(wide, &HEADER, &on_line(amount)));
            }
        }
    }
    let between = curves_of(1_000_000, 0, 0, 700);
    for amount in (1..3500).step_by(137) {
        let label = format!("between knots, {amount} kW");
        cases.case(label, of(between, &HEADER, &on_line(amount)));
    }
    let million = curves_of(1_000_000, 2_000_000, 0, 1_000_000);
    for above in [0, 1, 5000] {
        let label = format!("RSNS {above} above X, sigma 1000000");
        cases.case(label, of(million, &HEADER, &on_line(2_000_000 + above)));
    }
    let late = curves_of(1_000_000, 0, 2_000_000, 1_000_000);
    cases.case(
        "mu 2000000, 1000000 above X",
        of(late, &HEADER, &on_line(1_000_000)),
    );
}

/// p of 0, about 500 and about -500, for both shares.
fn flat_ends(cases: &mut Vec<Case>) {
    // With sigma 200, 2 x 707 kW is where piS ends and 1000 kW where piNS does.
    for mu in [0, 200, -200] {
        let curves = curves_of(1_000_000, 0, mu, 200);
        for beside in [-2, -1, 0, 1, 2] {
            for (name, amount) in [("piS", 707 + mu / 2), ("piNS", 1000 + mu)] {
                let label = format!("{name} at its end, mu {mu}, {beside} kW beside");
                cases.case(label, of(curves, &HEADER, &on_line(amount + beside)));
            }
        }
    }
    let curves = curves_of(1_000_000, 0, 4000, 200);
    for beside in [-2, -1, 0, 1, 2] {
        for (name, amount) in [
            ("piS at p of -500", 2000 - 707),
            ("piS at p of 0", 2000),
            ("piNS at p of -500", 3000),
            ("piNS at p of 0", 4000),
        ] {
            let label = format!("{name}, {beside} kW beside");
            cases.case(label, of(curves, &HEADER, &on_line(amount + beside)));
        }
    }
    for sigma in [1, 2, 3, 7, 20_000_000] {
        for mu in [-20_000_000, -1, 1, 20_000_000] {
            let curves = curves_of(2_000_000, 3, mu, sigma);
            for amount in [4, 5, 1_000_000] {
                let label = format!("mu {mu}, sigma {sigma}, {amount} kW");
                cases.case(label, of(curves, &HEADER, &on_line(amount)));
            }
        }
    }
}

/// Each month and hour with its own pair.
fn groups(cases: &mut Vec<Case>) {
    let curves = CurveSet {
        voll: 900_000,
        floor: 0,
        pairs: std::array::from_fn::<_, GROUPS, _>(|place| (10 * place as i64, 100)),
    };
    let mut case = |month, hour| {
        let header = Header {
            month,
            hour,
            ..HEADER
        };
        let label = format!("pair of month {month}, hour {hour}");
        cases.case(label, of(curves, &header, &on_line(100)));
    };
    for month in 1..=12 {
        case(month, 0);
        case(month, 23);
    }
    for hour in 0..24 {
        case(1, hour);
    }
    for (month, hour) in bounds_of_the_first_block() {
        case(month, hour);
    }
}

fn lambdas(cases: &mut Vec<Case>) {
    for voll in [0, 1, 900_000, 2_000_000] {
        let curves = curves_of(voll, 1000, 0, 1000);
        for lambda in [voll - 2, voll - 1, voll, voll + 1, -POWER, POWER, 0] {
            if !(-POWER..=POWER).contains(&lambda) {
                continue;
            }
            for amount in [1000, 1500] {
                let header = Header { lambda, ..HEADER };
                let label = format!("VOLL {voll}, lambda {lambda}, RS {amount}");
                cases.case(label, of(curves, &header, &on_line(amount)));
            }
        }
    }
}

/// v with v x share = rest (mod 2 x 10^9), if there is one.
fn value_for(share: i64, rest: i64) -> Option<i64> {
    let modulus = i128::from(2 * BILLION);
    // Extended Euclid: share x factor = divisor (mod modulus).
    let (mut divisor, mut next) = (i128::from(share), modulus);
    let (mut factor, mut next_factor) = (1_i128, 0_i128);
    while next != 0 {
        let quotient = divisor / next;
        (divisor, next) = (next, divisor - quotient * next);
        (factor, next_factor) = (next_factor, factor - quotient * next_factor);
    }
    if i128::from(rest) % divisor != 0 {
        return None;
    }
    let period = modulus / divisor;
    let value = (factor * (i128::from(rest) / divisor)).rem_euclid(period);
    Some(value as i64)
}

/// Prices at half a cent, and one billionth of two cents below it.
fn half_cents(cases: &mut Vec<Case>) {
    let sigma = 1000;
    let mut found = [0; 4];
    for amount in 1..6000 {
        let pis = pi_s(amount, 0, 0, sigma);
        let pins = pi_ns(amount, 0, 0, sigma);
        let shares = [("on-line", pis + pins), ("off-line", pins)];
        for (which, (name, share)) in shares.into_iter().enumerate() {
            for (place, rest) in [BILLION, BILLION - 1].into_iter().enumerate() {
                let enough = found[2 * which + place] >= 12;
                let value = value_for(share, rest).filter(|value| (1..=4_000_000).contains(value));
                let (Some(value), false) = (value, enough) else {
                    continue;
                };
                found[2 * which + place] += 1;
                let voll = value.min(2_000_000);
                let header = Header {
                    lambda: voll - value,
                    ..HEADER
                };
                let at = if place == 0 { "at" } else { "just below" };
                let curves = curves_of(voll, 0, 0, sigma);
                let label = format!("{name} {at} half a cent, {amount} kW");
                cases.case(label, of(curves, &header, &on_line(amount)));
            }
        }
    }
    for voll in [1, 2, 3, 899_999, 1_999_999] {
        let curves = curves_of(voll, 1000, 0, 1000);
        let label = format!("half a cent below X, VOLL {voll}");
        cases.case(label, of(curves, &HEADER, &on_line(10)));
    }
}

/// Power in all sizes.
fn power(random: &mut Random) -> i64 {
    let most = *random.pick(&[0, 1, 10, 1000, 100_000, POWER]);
    random.within(0, most)
}

pub fn random_resource(random: &mut Random, id: &str) -> String {
    let flag = random.within(0, 1);
    match random.within(0, 9) {
        0 | 1 => clr(
            id,
            power(random),
            power(random),
            power(random),
            power(random),
        ),
        2..=4 => nclr(id, flag, power(random), power(random), power(random)),
        _ => {
            let kind = *random.pick(&["gen", "gen", "wind", "irr", "nuke"]);
            let status = *random.pick(&[
                "ON", "ON", "ON", "OFF", "OFFNS", "ONTEST", "STARTUP", "SHUTDOWN", "OUT",
            ]);
            let lsl = power(random);
            let net = match random.within(0, 3) {
                0 => 95 * lsl / 100,
                1 => lsl,
                2 => power(random),
                _ => -power(random),
            };
            let (hsl, base, nonspin) = (power(random), power(random), power(random));
            generator(id, kind, status, [net, lsl, hsl, base, nonspin, flag])
        }
    }
}

fn random_snapshots(cases: &mut Vec<Case>, random: &mut Random) {
    for number in 0..300 {
        let resources: Vec<String> = (0..random.within(0, 6))
            .map(|place| random_resource(random, &format!("R{place}")))
            .collect();
        let header = Header {
            month: random.within(1, 12),
            hour: random.within(0, 23),
            lambda: random.within(-10_000, 10_000),
            factor: random.within(0, 10_000),
            prc: random.within(0, 3),
            eea1: random.within(0, 2),
            short: if random.one_in(2) { 0 } else { power(random) },
        };
        let lines = snapshot(&header, &resources);
        let mut text = bytes(&lines);
        if random.one_in(8) {
            let at = random.within(1, lines.len() as i64) as usize;
            let mut all = damages(&lines, at, Due::Number(-POWER, 200_000_000));
            let one = random.within(0, all.len() as i64 - 1) as usize;
            text = all.swap_remove(one).1;
        }
        let curves = if random.one_in(4) {
            random_set(random)
        } else {
            let sigma = random.within(1, POWER);
            let mu = random.within(-sigma, sigma);
            curves_of(random.within(0, POWER), power(random), mu, sigma)
        };
        cases.case(format!("random snapshot {number}"), priced(curves, text));
    }
}
