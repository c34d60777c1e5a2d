//! Snapshots: their reading, their reserves and their prices.

mod common;
use common::*;
use reference::{
    price_snapshot, read_snapshot, reserves, sums, CurveSet, Prices, Refusal, Reserves, Sums,
    GROUPS,
};

fn price(text: &str) -> Result<Prices, Refusal> {
    price_snapshot(&example_curves(), text.as_bytes())
}

fn sums_of(resources: &[&str]) -> Sums {
    let text = snapshot_of(resources);
    sums(&read_snapshot(text.as_bytes()).unwrap())
}

fn reserves_of(text: &str) -> Reserves {
    let snapshot = read_snapshot(text.as_bytes()).unwrap();
    reserves(&snapshot, &sums(&snapshot))
}

/// One resource of every kind.
const ALL_KINDS: [&str; 6] = [
    "id=G kind=gen status=ON net=1 lsl=1 hsl=9 base=2 nonspin=3 cold30=0",
    "id=W kind=wind status=OUT net=1 lsl=1 hsl=9 base=2 nonspin=3 cold30=1",
    "id=I kind=irr status=ONTEST net=1 lsl=1 hsl=9 base=2 nonspin=3 cold30=0",
    "id=N kind=nuke status=SHUTDOWN net=1 lsl=1 hsl=9 base=2 nonspin=3 cold30=0",
    "id=C_0123456789ABC kind=clr base=1 lpc=2 nonspin=3 regup=4",
    "id=L kind=nclr rrsok=1 net=1 lpc=2 rrs=3",
];

#[test]
fn worked_example() {
    let expected = Prices {
        rs: 2_707_000,
        rsns: 3_000_000,
        pis: 158_655_254,
        pins: 158_655_254,
        online: 142_393,
        offline: 71_197,
    };
    assert_eq!(price(&example_snapshot()), Ok(expected));
}

/// The snapshot of docs/FORMAT.md.
#[test]
fn example_of_all_kinds() {
    let text = include_str!("../../bindings/python/examples/snapshots/5-all-kinds.txt");
    let expected = Prices {
        rs: 2_626_301,
        rsns: 3_194_701,
        pis: 187_850_153,
        pins: 116_104_844,
        online: 136_096,
        offline: 51_986,
    };
    assert_eq!(price(text), Ok(expected));
}

#[test]
fn prc_at_eea1_leaves_off_line_reserve_out() {
    let text = with_line(&example_snapshot(), "prc=3000000", "prc=2300000");
    let prices = price(&text).unwrap();
    assert_eq!((prices.rs, prices.rsns), (2_707_000, 2_707_000));
    let text = with_line(&example_snapshot(), "prc=3000000", "prc=2300001");
    assert_eq!(price(&text).unwrap().rsns, 3_000_000);
}

#[test]
fn a_unit_below_95_hundredths_of_its_lsl_is_not_counted() {
    let text = with_line(&example_snapshot(), "net=95000", "net=94999");
    let prices = price(&text).unwrap();
    assert_eq!((prices.rs, prices.rsns), (1_800_000, 2_093_000));
    assert_eq!(prices.pis, 1_000_000_000);
}

#[test]
fn an_empty_hsl_is_refused() {
    let text = with_line(&example_snapshot(), "hsl=2000000", "hsl=");
    assert_eq!(price(&text), refusal(5, 14));
}

#[test]
fn lambda_at_or_above_voll_gives_no_price() {
    for lambda in ["lambda=900000", "lambda=900001", "lambda=2000000"] {
        let prices = price(&with_line(&example_snapshot(), "lambda=2500", lambda)).unwrap();
        assert_eq!((prices.online, prices.offline), (0, 0));
        assert_eq!(prices.pis, 158_655_254);
    }
    // Without reserve and one cent below VOLL: 1 and a half, rounded up.
    let text = with_line(&snapshot_of(&[]), "lambda=0", "lambda=899999");
    let prices = price(&text).unwrap();
    assert_eq!((prices.online, prices.offline), (1, 1));
}

#[test]
fn a_negative_lambda_raises_the_price() {
    let text = with_line(&snapshot_of(&[]), "lambda=0", "lambda=-2000000");
    let prices = price(&text).unwrap();
    assert_eq!((prices.online, prices.offline), (2_900_000, 1_450_000));
}

#[test]
fn the_half_kw_of_the_cap_is_kept_until_the_floor() {
    let load = "id=L kind=nclr rrsok=1 net=10 lpc=0 rrs=3";
    let text = snapshot_of(&[load]);
    assert_eq!(reserves_of(&text).rs, 4);
    let short = with_line(&text, "short=0", "short=5");
    assert_eq!(reserves_of(&short).rs, -1);
    // Two halves make a whole: the cap is on the total.
    let other = "id=M kind=nclr rrsok=1 net=10 lpc=0 rrs=3";
    assert_eq!(reserves_of(&snapshot_of(&[load, other])).rs, 9);
}

#[test]
fn rounding_goes_down_also_below_zero() {
    let load = "id=L kind=clr base=0 lpc=1 nonspin=0 regup=0";
    let text = with_line(&snapshot_of(&[load]), "factor=10000", "factor=1");
    assert_eq!(reserves_of(&text).rs, -1);
    let text = with_line(&text, "factor=1", "factor=0");
    assert_eq!(reserves_of(&text).rs, 0);
}

#[test]
fn the_factor_applies_to_the_sum_and_not_to_short() {
    let load = "id=L kind=clr base=1001 lpc=0 nonspin=100 regup=0";
    let text = with_line(&snapshot_of(&[load]), "factor=10000", "factor=9750");
    let text = with_line(&text, "short=0", "short=7");
    let reserves = reserves_of(&text);
    // 0.975 × 901 = 878.475 and 0.975 × 1001 = 975.975.
    assert_eq!((reserves.rs, reserves.rsns), (871, 968));
}

#[test]
fn sums_of_all_kinds() {
    let expected = Sums {
        g: 9 - 2 - 3,
        c: 1 - 2 - 3 + 4,
        d: 3 + 3,
        net_less_lpc: -1,
        rrs: 3,
    };
    assert_eq!(sums_of(&ALL_KINDS), expected);
    assert_eq!(expected.twice_l(), 0);
}

#[test]
fn rrs_counts_over_all_loads_and_net_over_validated_ones() {
    let sums = sums_of(&[
        "id=A kind=nclr rrsok=1 net=100 lpc=10 rrs=5",
        "id=B kind=nclr rrsok=0 net=1000 lpc=10 rrs=50",
    ]);
    assert_eq!((sums.net_less_lpc, sums.rrs), (90, 55));
    assert_eq!(sums.twice_l(), 3 * 55);
}

#[test]
fn the_cap_is_on_the_total_and_not_on_each_load() {
    let sums = sums_of(&[
        "id=A kind=nclr rrsok=1 net=100 lpc=0 rrs=0",
        "id=B kind=nclr rrsok=1 net=0 lpc=20 rrs=100",
    ]);
    assert_eq!(sums.twice_l(), 2 * 80);
}

#[test]
fn which_units_count_by_kind_and_status() {
    for kind in ["gen", "wind", "irr", "nuke"] {
        for status in ["ON", "OFF", "OFFNS", "ONTEST", "STARTUP", "SHUTDOWN", "OUT"] {
            for nonspin in [0, 10] {
                for cold30 in [0, 1] {
                    let unit = format!(
                        "id=U kind={kind} status={status} net=50 lsl=50
                         hsl=100 base=60 nonspin={nonspin} cold30={cold30}"
                    );
                    let sums = sums_of(&[&unit]);
                    let on_line = (kind == "gen" || kind == "wind")
                        && (status == "ON" || (status == "STARTUP" && nonspin > 0));
                    let off_line = status == "OFFNS"
                        || (status == "OFF" && cold30 == 1 && (kind == "gen" || kind == "nuke"));
                    let (g, d) = match (on_line, off_line) {
                        (true, _) => (40 - nonspin, nonspin),
                        (_, true) => (0, 100),
                        _ => (0, 0),
                    };
                    assert_eq!((sums.g, sums.d), (g, d), "{unit}");
                }
            }
        }
    }
}

#[test]
fn a_negative_net_does_not_reach_a_low_limit_of_zero() {
    let unit = |net: i64| {
        format!("id=U kind=gen status=ON net={net} lsl=0 hsl=9 base=0 nonspin=0 cold30=0")
    };
    assert_eq!(sums_of(&[&unit(-1)]).g, 0);
    assert_eq!(sums_of(&[&unit(0)]).g, 9);
}

#[test]
fn headroom_may_be_negative() {
    let unit = "id=U kind=gen status=ON net=9 lsl=0 hsl=1 base=5 nonspin=3 cold30=0";
    assert_eq!(sums_of(&[unit]).g, -7);
}

#[test]
fn the_snapshot_without_resources() {
    let prices = price(&snapshot_of(&[])).unwrap();
    assert_eq!((prices.rs, prices.rsns), (0, 0));
    assert_eq!((prices.online, prices.offline), (900_000, 450_000));
}

#[test]
fn as_many_resources_as_allowed() {
    let unit = |index: usize| {
        format!("id={index} kind=gen status=ON net=0 lsl=0 hsl=2000000 base=0 nonspin=0 cold30=0")
    };
    let units: Vec<String> = (0..4096).map(unit).collect();
    let units: Vec<&str> = units.iter().map(String::as_str).collect();
    let text = snapshot_of(&units);
    assert_eq!(reserves_of(&text).rs, 4096 * 2_000_000);
    assert_eq!(price(&text).unwrap().online, 0);
    let more = with_line(&text, "count=4096", "count=4097");
    assert_eq!(price(&more), refusal(7, 8));
}

#[test]
fn refusal_2_of_snapshots() {
    assert_eq!(price(&"x".repeat(1_048_577)), refusal(2, 0));
    assert_eq!(price(&"x".repeat(1_048_576)), refusal(3, 1));
}

#[test]
fn refusals_3_to_7_of_each_line_of_a_snapshot() {
    let text = snapshot_of(&ALL_KINDS);
    for (index, line) in text.lines().enumerate() {
        let place = index as u64 + 1;
        let (key, _) = line.split_once('=').unwrap();
        let answer = |value: &str| {
            let line = format!("{key}={value}");
            price(&with_line_at(&text, index + 1, &line))
        };
        assert_eq!(price(&first_lines(&text, index)), refusal(3, place));
        let unended = first_lines(&text, index + 1);
        assert_eq!(price(&unended[..unended.len() - 1]), refusal(3, place));
        assert_eq!(
            price(&with_line_at(&text, index + 1, "")),
            refusal(4, place)
        );
        assert_eq!(
            price(&with_line_at(&text, index + 1, key)),
            refusal(4, place)
        );
        assert_eq!(answer(""), refusal(5, place));
        assert_eq!(answer("+1"), refusal(6, place));
        assert_eq!(answer("1 "), refusal(6, place));
        assert_eq!(answer("a"), refusal(6, place));
        let generator = (9..9 + 4 * 9).contains(&place);
        let (low, high) = match key {
            "id" | "kind" | "status" => continue,
            "month" => (1, 12),
            "hour" => (0, 23),
            "lambda" => (-2_000_000, 2_000_000),
            "factor" => (0, 10_000),
            "prc" | "eea1" | "short" => (0, 200_000_000),
            "count" => (0, 4096),
            "cold30" | "rrsok" => (0, 1),
            "net" if generator => (-2_000_000, 2_000_000),
            _ => (0, 2_000_000),
        };
        assert_ne!(answer(&low.to_string()), refusal(7, place));
        assert_ne!(answer(&high.to_string()), refusal(7, place));
        assert_eq!(answer(&(low - 1).to_string()), refusal(7, place));
        assert_eq!(answer(&(high + 1).to_string()), refusal(7, place));
        assert_eq!(answer("99999999999999999999"), refusal(7, place));
    }
}

#[test]
fn refusal_6_of_words_and_ids() {
    let text = example_snapshot();
    for id in ["a", "A-B", "A B", "ABCDEFGHIJKLMNOPQ", "\u{c4}", "A="] {
        let text = with_line(&text, "id=B", &format!("id={id}"));
        assert_eq!(price(&text), refusal(6, 18), "{id}");
    }
    for id in ["0", "_", "ABCDEFGHIJKLMNOP"] {
        assert!(price(&with_line(&text, "id=B", &format!("id={id}"))).is_ok());
    }
    for kind in ["GEN", "gens", "load", "ge"] {
        let text = with_line_at(&text, 10, &format!("kind={kind}"));
        assert_eq!(price(&text), refusal(6, 10), "{kind}");
    }
    for status in ["on", "ONN", "OFFN", "START"] {
        let text = with_line_at(&text, 11, &format!("status={status}"));
        assert_eq!(price(&text), refusal(6, 11), "{status}");
    }
}

#[test]
fn refusal_8_names_the_second_line_of_the_id() {
    let text = with_line(&example_snapshot(), "id=C", "id=A");
    assert_eq!(price(&text), refusal(8, 27));
    // It comes before anything that is wrong further down.
    let text = with_line_at(&text, 28, "kind=x");
    assert_eq!(price(&text), refusal(8, 27));
    assert_eq!(price(&first_lines(&text, 27)), refusal(8, 27));
}

#[test]
fn refusal_9_of_snapshots() {
    let text = example_snapshot();
    assert_eq!(price(&format!("{text}\n")), refusal(9, 36));
    assert_eq!(price(&format!("{text}x")), refusal(9, 36));
    let fewer = with_line(&text, "count=3", "count=2");
    assert_eq!(price(&fewer), refusal(9, 27));
    let none = with_line(&text, "count=3", "count=0");
    assert_eq!(price(&none), refusal(9, 9));
}

#[test]
fn more_reserve_never_raises_a_price() {
    let curves = CurveSet {
        voll: 2_000_000,
        floor: 100,
        pairs: [(50, 70); GROUPS],
    };
    let mut last = (i64::MAX, i64::MAX);
    for base in 0..1000 {
        let load = format!("id=L kind=clr base={base} lpc=0 nonspin=0 regup=0");
        let prices = price_snapshot(&curves, snapshot_of(&[&load]).as_bytes()).unwrap();
        assert!(prices.online <= last.0 && prices.offline <= last.1);
        last = (prices.online, prices.offline);
    }
    assert_eq!(last, (0, 0));
}
