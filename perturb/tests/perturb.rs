//! The example, the reasons and the tight variants.

use perturb::{csv, plain, study, tighten, ChangeKind, Outcome, Reason, Study, Verdict};
use reference::{
    price_values, read_curves, read_snapshot, reserves, sums, CurveSet, Refusal, GROUPS,
};
use std::process::{Command, Output};

const CURVES: &[u8] = include_bytes!("../examples/curves.txt");
const SNAPSHOT: &[u8] = include_bytes!("../examples/snapshot.txt");

fn curves() -> CurveSet {
    read_curves(CURVES).unwrap()
}

fn curves_with(floor: i64, mu: i64, sigma: i64) -> CurveSet {
    CurveSet {
        voll: 900_000,
        floor,
        pairs: [(mu, sigma); GROUPS],
    }
}

/// A listing's text: its spaces and line breaks stand for byte 10.
fn text(listing: &str) -> Vec<u8> {
    let lines = listing.split_whitespace();
    lines
        .flat_map(|line| format!("{line}\n").into_bytes())
        .collect()
}

fn snapshot_of(resources: &[&str]) -> String {
    let header = "month=7 hour=14 lambda=2500 factor=10000 prc=3000000 eea1=2300000 short=0";
    format!("{header} count={} {}", resources.len(), resources.join(" "))
}

const BIG: &str =
    "id=BIG kind=gen status=ON net=200000 lsl=100000 hsl=2000000 base=200000 nonspin=0 cold30=0";

/// The verdict on a reading, named by its resource's id and its key.
fn verdict<'a>(study: &'a Study, id: &str, key: &str) -> &'a Verdict {
    let wanted = |reading: &perturb::Reading| reading.id == id && reading.key == key;
    let place = study.readings.iter().position(wanted).unwrap();
    &study.verdicts[place]
}

/// The reasons why a reading moved nothing.
fn names(study: &Study, id: &str, key: &str) -> Vec<&'static str> {
    match verdict(study, id, key) {
        Verdict::Unmoved(reasons) => reasons.iter().map(Reason::name).collect(),
        other => panic!("{id} {key}: {other:?}"),
    }
}

fn outcome(study: &Study, line: usize, kind: ChangeKind) -> &Outcome {
    let mut rows = study.rows.iter();
    let wanted = rows.find(|row| row.reading == line - 1 && row.kind == kind);
    &wanted.unwrap().outcome
}

#[test]
fn a_low_limit_is_hidden_by_the_cap_and_shows_when_tight() {
    let given = study(&curves(), SNAPSHOT).unwrap();
    let hidden = Reason::HiddenByCap {
        net_less_lpc: 480_000,
        rrs: 100_000,
    };
    let expected = Verdict::Unmoved(vec![hidden]);
    assert_eq!(*verdict(&given, "LOAD", "lpc"), expected);
    let report = plain(&given, None);
    assert!(report.contains(
        "line 40 LOAD lpc=20000: hidden by the cap on load resources \
         (net less lpc 480000, cap 150000)"
    ));

    let variant = tighten(&curves(), SNAPSHOT).unwrap();
    let tight = study(&curves(), &variant.text).unwrap();
    assert_eq!(*verdict(&tight, "LOAD", "lpc"), Verdict::Moves);
    for kind in [ChangeKind::Zero, ChangeKind::OneUp, ChangeKind::Doubled] {
        let outcome = outcome(&tight, 40, kind);
        assert!(matches!(outcome, Outcome::Priced { moved: true, .. }));
    }
    let report = plain(&tight, Some((&variant, &given)));
    assert!(report.contains("line 39 LOAD net: 500000 -> 95000"));
    assert!(report.contains("line 7 short: 0 -> "));
    let (_, shown) = report.split_once("move a price here:\n").unwrap();
    assert!(shown.contains("line 40 LOAD lpc: as given hidden by the cap"));
}

#[test]
fn every_damage_is_refused_where_it_stands() {
    let study = study(&curves(), SNAPSHOT).unwrap();
    let last = study.readings.len();
    assert_eq!(last, 41);
    for reading in &study.readings {
        let line = reading.line;
        let refused = |kind| match outcome(&study, line, kind) {
            Outcome::Refused(Refusal { number, line }) => (*number, *line as usize),
            other => panic!("line {line}: {other:?}"),
        };
        let is_last = line == last;
        assert_eq!(refused(ChangeKind::Blank), (5, line));
        assert_eq!(
            refused(ChangeKind::Cut),
            (if is_last { 3 } else { 4 }, line)
        );
        assert_eq!(refused(ChangeKind::Moved), (4, line.min(last - 1)));
        assert_eq!(refused(ChangeKind::MisspeltKey), (4, line));
        assert_eq!(refused(ChangeKind::MisspeltValue), (6, line));
        match reading.key {
            "id" => {
                assert_eq!(refused(ChangeKind::AboveRange), (6, line));
                assert_eq!(refused(ChangeKind::OtherCase), (6, line));
                // The first resource takes the id of the second.
                let at = if line == 9 { 18 } else { line };
                assert_eq!(refused(ChangeKind::Repeated), (8, at));
            }
            "kind" | "status" => assert_eq!(refused(ChangeKind::OtherCase), (6, line)),
            _ => {
                assert_eq!(refused(ChangeKind::AboveRange), (7, line));
                assert_eq!(refused(ChangeKind::BelowRange), (7, line));
            }
        }
    }
    assert_eq!(*verdict(&study, "", "count"), Verdict::AlwaysRefused);
}

#[test]
fn prices_before_and_after() {
    let study = study(&curves(), SNAPSHOT).unwrap();
    assert_eq!(
        (study.before.online, study.before.offline),
        (106_712, 56_126)
    );
    // Without B's lsl nothing changes; without its net it is not counted.
    let Outcome::Priced { after, moved, .. } = outcome(&study, 21, ChangeKind::Zero) else {
        panic!("B's net of 0 is accepted");
    };
    assert!(moved);
    assert_eq!((after.rs, after.rsns), (1_950_000, 2_243_000));
    assert_eq!(*outcome(&study, 7, ChangeKind::Zero), Outcome::Same);
}

#[test]
fn resources_that_are_not_counted() {
    let unit = |id: &str, kind: &str, rest: &str| {
        format!("id={id} kind={kind} {rest} lsl=100 hsl=900 base=50")
    };
    let units = [
        unit("OUT", "gen", "status=OUT net=100") + " nonspin=0 cold30=1",
        unit("LOW", "gen", "status=ON net=10") + " nonspin=0 cold30=0",
        unit("START", "wind", "status=STARTUP net=100") + " nonspin=0 cold30=0",
        unit("NUKE", "nuke", "status=ON net=100") + " nonspin=0 cold30=0",
        unit("COLD", "wind", "status=OFF net=0") + " nonspin=0 cold30=1",
    ];
    let loads = "id=LOAD kind=nclr rrsok=0 net=500 lpc=300 rrs=0";
    let mut all: Vec<&str> = units.iter().map(String::as_str).collect();
    all.extend([loads, BIG]);
    let listing = text(&snapshot_of(&all));
    // A sigma this small makes every kW of reserve count.
    let study = study(&curves_with(1_799_999, 0, 100), &listing).unwrap();
    for id in ["OUT", "LOW", "START", "NUKE", "COLD"] {
        assert_eq!(names(&study, id, "hsl"), ["not counted"], "{id}");
        assert_eq!(names(&study, id, "base"), ["not counted"], "{id}");
    }
    assert_eq!(*verdict(&study, "LOW", "lsl"), Verdict::Moves);
    assert_eq!(names(&study, "LOAD", "net"), ["not counted"]);
    assert_eq!(names(&study, "LOAD", "lpc"), ["not counted"]);
    assert_eq!(names(&study, "BIG", "cold30"), ["not used in the prices"]);
    assert_eq!(names(&study, "BIG", "id"), ["a name only"]);
    let report = plain(&study, None);
    for why in [
        "OUT hsl=900: not counted (status OUT)",
        "LOW hsl=900: not counted (net is below 95 percent of lsl)",
        "START hsl=900: not counted (STARTUP with nonspin 0)",
        "NUKE hsl=900: not counted (a unit of kind nuke is never counted on line)",
        "COLD hsl=900: not counted (a unit of kind wind that is OFF is never counted)",
        "LOAD lpc=300: not counted (rrsok is 0: only rrs enters)",
    ] {
        assert!(report.contains(why), "{why}");
    }
}

#[test]
fn reserves_that_are_lost_on_the_curve() {
    let listing = text(&snapshot_of(&[BIG]));
    let below = study(&curves_with(20_000_000, 0, 1000), &listing).unwrap();
    assert_eq!(names(&below, "BIG", "hsl"), ["reserve below X"; 2]);
    let beyond = study(&curves_with(0, 0, 100), &listing).unwrap();
    assert_eq!(names(&beyond, "", "short"), ["flat end of the curve"; 2]);
    assert_eq!(names(&beyond, "", "lambda"), ["flat end of the curve"; 2]);
    let before_the_curve = study(&curves_with(0, 20_000_000, 100), &listing).unwrap();
    assert_eq!(
        names(&before_the_curve, "", "short"),
        ["flat end of the curve"; 2]
    );
    // A thousandth of a share is under a cent.
    let flat = study(&curves_with(0, 0, 20_000_000), &listing).unwrap();
    assert_eq!(names(&flat, "", "short"), ["price rounds the same"]);
    assert_eq!(*verdict(&flat, "BIG", "hsl"), Verdict::Moves);
}

#[test]
fn header_lines_that_change_nothing() {
    let listing = snapshot_of(&[BIG]);
    let small = curves_with(1_799_999, 0, 100);
    let given = study(&small, &text(&listing)).unwrap();
    assert_eq!(
        names(&given, "", "prc"),
        ["no off-line reserve", "PRC stays above EEA1"]
    );
    // July is in summer, and hour 14 in block 4.
    let same_group = Verdict::Unmoved(vec![Reason::SameGroup(16)]);
    assert_eq!(*verdict(&given, "", "month"), same_group);
    assert_eq!(
        names(&given, "", "hour"),
        ["same mu and sigma", "same group"]
    );
    let at_voll = text(&listing.replace("lambda=2500", "lambda=900001"));
    let at_voll = study(&small, &at_voll).unwrap();
    assert_eq!(names(&at_voll, "", "short"), ["lambda at or above VOLL"]);
    let no_factor = text(&listing.replace("factor=10000", "factor=0"));
    let no_factor = study(&small, &no_factor).unwrap();
    assert_eq!(names(&no_factor, "BIG", "hsl"), ["factor is 0"]);
    let off = "id=OFF kind=gen status=OFFNS net=0 lsl=0 hsl=50 base=0 nonspin=0 cold30=0";
    let emergency = snapshot_of(&[BIG, off]).replace("prc=3000000", "prc=1000000");
    let emergency = study(&small, &text(&emergency)).unwrap();
    assert_eq!(names(&emergency, "OFF", "hsl"), ["PRC at or below EEA1"]);
    assert_eq!(names(&emergency, "", "prc"), ["PRC at or below EEA1"]);
    let nothing = text(&snapshot_of(&[]));
    let nothing = study(&curves_with(0, 0, 100), &nothing).unwrap();
    assert_eq!(names(&nothing, "", "factor"), ["no reserve for the factor"]);
}

/// Hour 14 is the first one of its block: hour 13 is in group 15, hour 15 in group 16 as hour 14 is.
#[test]
fn the_hour_before_is_of_another_block() {
    let listing = text(&snapshot_of(&[BIG]));
    let with_mean = |group: usize| {
        let mut curves = curves_with(1_799_999, 0, 100);
        curves.pairs[group].0 = 20;
        study(&curves, &listing).unwrap()
    };
    let before = with_mean(15);
    let moves = |kind| match outcome(&before, 2, kind) {
        Outcome::Priced { moved, .. } => *moved,
        other => panic!("{other:?}"),
    };
    assert!(moves(ChangeKind::OneDown));
    assert!(!moves(ChangeKind::OneUp));
    assert_eq!(*verdict(&before, "", "hour"), Verdict::Moves);
    assert_eq!(
        names(&with_mean(17), "", "hour"),
        ["same mu and sigma", "same group"]
    );
}

#[test]
fn load_sums_that_hide_a_reading() {
    let small = curves_with(1_799_999, 0, 100);
    let with = |load: &str| study(&small, &text(&snapshot_of(&[BIG, load]))).unwrap();
    let slack = with("id=LOAD kind=nclr rrsok=1 net=5 lpc=3 rrs=100");
    assert_eq!(*verdict(&slack, "LOAD", "net"), Verdict::Moves);
    assert_eq!(*verdict(&slack, "LOAD", "rrs"), Verdict::Moves);
    let slack = with("id=LOAD kind=nclr rrsok=1 net=5 lpc=5 rrs=100");
    assert_eq!(
        names(&slack, "LOAD", "rrs"),
        ["load resources not above zero"]
    );
    let below = with("id=LOAD kind=nclr rrsok=1 net=3 lpc=1000 rrs=100");
    assert_eq!(
        names(&below, "LOAD", "net"),
        ["load resources not above zero"]
    );
    let spare = "id=MORE kind=nclr rrsok=0 net=0 lpc=0 rrs=100";
    let load = "id=LOAD kind=nclr rrsok=1 net=5 lpc=3 rrs=100";
    let listing = text(&snapshot_of(&[BIG, load, spare]));
    let spared = study(&small, &listing).unwrap();
    let slack = ["cap on load resources is slack"];
    assert_eq!(names(&spared, "LOAD", "rrs"), slack);
    assert_eq!(names(&spared, "MORE", "rrs"), slack);
}

/// The tight variant's RS, and whether its cap is slack.
fn tightened(curves: &CurveSet, listing: &str) -> (i64, bool, Vec<String>) {
    let variant = tighten(curves, &text(listing)).unwrap();
    let snapshot = read_snapshot(&variant.text).unwrap();
    let sums = sums(&snapshot);
    let slack = 2 * sums.net_less_lpc < 3 * sums.rrs;
    (reserves(&snapshot, &sums).rs, slack, variant.notes)
}

#[test]
fn tight_variants() {
    let off = "id=OFF kind=gen status=OFFNS net=0 lsl=0 hsl=2000000 base=0 nonspin=0 cold30=0";
    let loads = "id=L1 kind=nclr rrsok=1 net=500000 lpc=20000 rrs=7
                 id=L2 kind=nclr rrsok=1 net=10 lpc=500 rrs=0
                 id=L3 kind=nclr rrsok=0 net=900000 lpc=0 rrs=100000
                 id=L4 kind=nclr rrsok=1 net=300001 lpc=1 rrs=0";
    let listing = snapshot_of(&[BIG, off, loads]).replace("count=3", "count=6");
    let none = Vec::<String>::new();
    for (factor, floor, mu, sigma) in [
        (10_000, 2_000_000, 0, 1_000_000),
        (9_973, 100_000, -500_000, 300_000),
        (7_777, 0, 100_000, 300_000),
        // More than all units can give.
        (10_000, 1_900_000, 0, 1000),
    ] {
        let curves = curves_with(floor, mu, sigma);
        let listing = listing.replace("factor=10000", &format!("factor={factor}"));
        let (rs, slack, notes) = tightened(&curves, &listing);
        let reachable = floor < 1_900_000;
        assert_eq!(rs == floor + 1, reachable, "{factor} {floor}: {rs}");
        assert!(slack);
        assert_eq!(notes.is_empty(), reachable);
    }
    // Below X, the units' hsl is raised.
    let half = BIG.replace("hsl=2000000", "hsl=1000000");
    let (rs, _, notes) = tightened(&curves_with(1_500_000, 0, 1000), &snapshot_of(&[&half]));
    assert_eq!((rs, &notes), (1_500_001, &none));
    // A cap of 0 is never slack, and the units cannot reach X.
    let no_rrs = snapshot_of(&[BIG, "id=L kind=nclr rrsok=1 net=9 lpc=1 rrs=0"]);
    let (_, slack, notes) = tightened(&curves(), &no_rrs);
    assert!(!slack);
    assert_eq!(notes.len(), 2);
    // Just above X the share is 1, so the curve's middle is taken.
    let (rs, _, notes) = tightened(&curves_with(0, 1_000_000, 1000), &snapshot_of(&[BIG]));
    assert_eq!((rs, notes), (500_000, none));
}

#[test]
fn off_line_reserve_is_brought_within_sigma() {
    let off = "id=OFF kind=gen status=OFFNS net=0 lsl=0 hsl=2000000 base=0 nonspin=0 cold30=0";
    let curves = curves_with(0, 0, 5000);
    let listing = text(&snapshot_of(&[BIG, off]));
    let given = study(&curves, &listing).unwrap();
    assert_eq!(names(&given, "OFF", "hsl"), ["flat end of the curve"]);
    let variant = tighten(&curves, &listing).unwrap();
    let snapshot = read_snapshot(&variant.text).unwrap();
    let prices = price_values(&curves, &snapshot);
    assert_eq!((prices.rs, prices.rsns), (1, 5001));
    let tight = study(&curves, &variant.text).unwrap();
    for (id, key) in [("OFF", "hsl"), ("", "prc"), ("", "eea1"), ("", "short")] {
        assert_eq!(*verdict(&tight, id, key), Verdict::Moves, "{id} {key}");
    }
}

/// The cells of a CSV row.
fn cells(row: &str) -> usize {
    let mut quoted = false;
    let separators = row.chars().filter(|&byte| {
        quoted ^= byte == '"';
        byte == ',' && !quoted
    });
    separators.count() + 1
}

#[test]
fn csv_rows_are_equally_long() {
    let given = study(&curves(), SNAPSHOT).unwrap();
    let variant = tighten(&curves(), SNAPSHOT).unwrap();
    let tight = study(&curves(), &variant.text).unwrap();
    let expected = given.rows.len() + given.readings.len() + 1;
    assert_eq!(csv(&given, None).lines().count(), expected);
    let report = csv(&tight, Some((&variant, &given)));
    assert!(report.lines().all(|row| cells(row) == 14));
    assert!(report.contains("\n40,LOAD,lpc,20000,summary,,moved,"));
    assert!(report.contains("\n39,LOAD,net,500000,made tight,net=95000,"));
    let report = csv(&given, None);
    assert!(report.contains("\n40,LOAD,lpc,20000,summary,,unmoved,,,,,,,\"hidden by the cap"));
}

fn run(arguments: &[&str]) -> Output {
    let mut command = Command::new(env!("CARGO_BIN_EXE_perturb"));
    command.current_dir(env!("CARGO_MANIFEST_DIR"));
    command.args(arguments).output().unwrap()
}

#[test]
fn the_command() {
    let (curves, snapshot) = ("examples/curves.txt", "examples/snapshot.txt");
    for flags in [&[][..], &["--tight"], &["--csv"], &["--tight", "--csv"]] {
        let output = run(&[&[curves, snapshot], flags].concat());
        assert!(output.status.success());
        assert!(output.stderr.is_empty());
    }
    assert_eq!(run(&[curves]).status.code(), Some(2));
    assert_eq!(run(&[curves, snapshot, "--loose"]).status.code(), Some(2));
    assert_eq!(run(&[curves, "examples/none.txt"]).status.code(), Some(1));
    let swapped = run(&[snapshot, curves]);
    assert_eq!(swapped.status.code(), Some(1));
    let message = String::from_utf8(swapped.stderr).unwrap();
    assert!(message.contains("the curves text is refused as it stands: refused 4 at line 1"));
}

/// A unit of each kind and status, with the reason why a mark on it is fine, none
/// where it turns the snapshot back.
const MARKED: [(&str, Option<&str>); 18] = [
    ("gen ON 0", None),
    ("wind ON 0", None),
    (
        "irr ON 0",
        Some("a unit of kind irr is never counted on line"),
    ),
    (
        "nuke ON 0",
        Some("a unit of kind nuke is never counted on line"),
    ),
    ("gen STARTUP 0", None),
    ("wind STARTUP 0", None),
    (
        "irr STARTUP 0",
        Some("a unit of kind irr is never counted on line"),
    ),
    ("gen OFF 1", None),
    ("nuke OFF 1", None),
    ("gen OFF 0", Some("OFF with cold30 0")),
    ("nuke OFF 0", Some("OFF with cold30 0")),
    (
        "wind OFF 1",
        Some("a unit of kind wind that is OFF is never counted"),
    ),
    (
        "irr OFF 1",
        Some("a unit of kind irr that is OFF is never counted"),
    ),
    ("irr OFFNS 0", None),
    ("nuke OFFNS 0", None),
    ("gen ONTEST 1", Some("status ONTEST")),
    ("wind SHUTDOWN 1", Some("status SHUTDOWN")),
    ("nuke OUT 1", Some("status OUT")),
];

#[test]
fn a_mark_turns_back_or_is_fine_and_why() {
    for (unit, fine) in MARKED {
        let mut words = unit.split(' ');
        let mut word = || words.next().unwrap();
        let (kind, status, cold30) = (word(), word(), word());
        let unit = format!(
            "id=U kind={kind} status={status} net=10 lsl=100 hsl=900 base=50 nonspin=0 \
             cold30={cold30}"
        );
        let listing = text(&snapshot_of(&[BIG, &unit]));
        let study = study(&curves(), &listing).unwrap();
        // The unit's numbers but for its flag.
        for line in 21..=25 {
            let outcome = outcome(&study, line, ChangeKind::Marked);
            match (outcome, fine) {
                (
                    Outcome::Refused(Refusal {
                        number: 15,
                        line: at,
                    }),
                    None,
                ) => {
                    assert_eq!(*at, line as u64);
                }
                (
                    Outcome::Priced {
                        moved,
                        reasons,
                        after,
                    },
                    Some(why),
                ) => {
                    assert!(!moved);
                    assert_eq!(*after, study.before);
                    assert_eq!(*reasons, [Reason::MarkIsFine(why.to_string())]);
                }
                other => panic!("{kind} {status} line {line}: {other:?}"),
            }
        }
        let report = plain(&study, None);
        let (_, marks) = report.split_once("a marked number is refused:\n").unwrap();
        let (refused, not) = marks.split_once("a marked number is not:\n").unwrap();
        assert!(refused.contains("  BIG\n"), "{marks}");
        match fine {
            None => assert!(refused.contains("  U\n") && not.is_empty(), "{marks}"),
            Some(why) => {
                assert_eq!(not, format!("  U: a mark is fine on this unit ({why})\n"));
            }
        }
    }
}

#[test]
fn marks_on_loads_flags_and_the_header() {
    let study = study(&curves(), SNAPSHOT).unwrap();
    for reading in &study.readings {
        let at = reading.line as u64;
        let due = match reading.key {
            "id" | "kind" | "status" => continue,
            "cold30" | "rrsok" => 6,
            _ if reading.resource.is_none() => 6,
            // Every unit of the example counts.
            _ => 15,
        };
        let refusal = Refusal {
            number: due,
            line: at,
        };
        let outcome = outcome(&study, reading.line, ChangeKind::Marked);
        assert_eq!(*outcome, Outcome::Refused(refusal), "line {at}");
    }
    let report = plain(&study, None);
    let end = "Resources of which a marked number is refused:\n  A\n  B\n  C\n  LOAD\n\n\
               Resources of which a marked number is not:\n";
    assert!(report.ends_with(end), "{report}");
    assert!(
        report.contains("marked suspect       lpc=20000?"),
        "{report}"
    );
    let csv = csv(&study, None);
    assert!(csv.contains("\n40,LOAD,lpc,20000,marked suspect,lpc=20000?,refused,15,40,,,,,\n"));
}

/// Every load enters a sum, so that a mark on any turns the snapshot back.
#[test]
fn marks_on_loads_that_add_nothing() {
    let not_validated = "id=N kind=nclr rrsok=0 net=5 lpc=5 rrs=0";
    let controllable = "id=C kind=clr base=0 lpc=0 nonspin=0 regup=0";
    let listing = text(&snapshot_of(&[not_validated, controllable]));
    let study = study(&curves(), &listing).unwrap();
    for line in [12, 13, 14, 17, 18, 19, 20] {
        let refusal = Refusal {
            number: 15,
            line: line as u64,
        };
        let outcome = outcome(&study, line, ChangeKind::Marked);
        assert_eq!(*outcome, Outcome::Refused(refusal), "line {line}");
    }
}

/// A snapshot that has marks where they are fine is changed as any other.
#[test]
fn marks_in_the_snapshot_as_given() {
    let unit = "id=U kind=gen status=OUT net=-5? lsl=100 hsl=900? base=50 nonspin=0? cold30=0";
    let listing = text(&snapshot_of(&[BIG, unit]));
    let given = study(&curves(), &listing).unwrap();
    let row = |line: usize, kind: ChangeKind| {
        let mut rows = given.rows.iter();
        let row = rows.find(|row| row.reading == line - 1 && row.kind == kind);
        row.unwrap_or_else(|| panic!("line {line}: {kind:?}"))
    };
    for (line, kind, becomes) in [
        (21, ChangeKind::OneUp, "net=-4?"),
        (21, ChangeKind::Doubled, "net=-10?"),
        (21, ChangeKind::Unmarked, "net=-5"),
        (22, ChangeKind::Marked, "lsl=100?"),
        (23, ChangeKind::MisspeltValue, "hsl=90O?"),
        (23, ChangeKind::AboveRange, "hsl=2000001?"),
        (25, ChangeKind::Zero, "nonspin=0?"),
    ] {
        assert_eq!(row(line, kind).becomes, becomes);
    }
    assert_eq!(row(25, ChangeKind::Zero).outcome, Outcome::Same);
    for (line, kind) in [(21, ChangeKind::Unmarked), (22, ChangeKind::Marked)] {
        let Outcome::Priced { moved, reasons, .. } = &row(line, kind).outcome else {
            panic!("line {line} is accepted");
        };
        assert!(!moved);
        assert_eq!(
            reasons[0].to_string(),
            "a mark is fine on this unit (status OUT)"
        );
    }
    // With its marks the unit is refused in the statuses in which it counts.
    let words: Vec<(&str, &Outcome)> = given
        .rows
        .iter()
        .filter(|row| row.reading == 19 && row.kind == ChangeKind::OtherWord)
        .map(|row| (row.becomes.as_str(), &row.outcome))
        .collect();
    let suspect = Outcome::Refused(Refusal {
        number: 15,
        line: 21,
    });
    for (word, outcome) in words {
        let counts = ["status=ON", "status=OFFNS", "status=STARTUP"].contains(&word);
        assert_eq!(*outcome == suspect, counts, "{word}");
    }
    assert_eq!(names(&given, "U", "hsl"), ["not counted"]);
    let variant = tighten(&curves(), &listing).unwrap();
    let tight = read_snapshot(&variant.text).unwrap();
    assert_eq!(tight.resources[1].marks, 0b1_0101);
}
