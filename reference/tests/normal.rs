//! The normal table and what lies between its knots.

use reference::{n_of, normal_table, pi_ns, pi_s, BILLION};

#[test]
fn known_knots() {
    let table = normal_table();
    assert_eq!(table[0], 500_000_000);
    assert_eq!(table[1], 503_989_356);
    assert_eq!(table[100], 841_344_746);
    assert_eq!(table[196], 975_002_105);
    assert_eq!(table[500], 999_999_713);
}

#[test]
fn knots_rise() {
    assert!(normal_table().windows(2).all(|pair| pair[0] < pair[1]));
}

/// Sums that the same series gives in the rational arithmetic of another
/// language; a slip in any single knot would show in them.
#[test]
fn sums_over_all_knots() {
    let table = normal_table();
    let plain: i64 = table.iter().sum();
    let weighted: i64 = (0..).zip(table).map(|(k, knot): (i64, _)| k * knot).sum();
    assert_eq!(plain, 460_855_444_711);
    assert_eq!(weighted, 122_750_044_363_991);
}

/// Simpson's rule is a second way to the same integral.
#[test]
fn knots_are_near_a_numeric_integral() {
    let density = |t: f64| (-t * t / 2.0).exp() * 0.398_942_280_401_432_7;
    let mut integral = 0.5;
    for (k, &knot) in normal_table().iter().enumerate() {
        assert!((integral * 1e9 - knot as f64).abs() < 0.51, "k = {k}");
        let (from, to) = (k as f64 / 100.0, (k as f64 + 1.0) / 100.0);
        let middle = (from + to) / 2.0;
        integral += (density(from) + 4.0 * density(middle) + density(to)) / 600.0;
    }
}

#[test]
fn n_at_knots_and_between() {
    let one = i128::from(BILLION);
    assert_eq!(n_of(0, 1), 500_000_000);
    assert_eq!(n_of(100, 1), 841_344_746);
    assert_eq!(n_of(300, 3), 841_344_746);
    assert_eq!(n_of(1, 2), 500_000_000 + 3_989_356 / 2);
    assert_eq!(n_of(1, 3), 500_000_000 + 3_989_356 / 3);
    assert_eq!(n_of(1, 1_000_000_000_000), 500_000_000);
    assert_eq!(n_of(500, 1), one);
    assert_eq!(n_of(501, 1), one);
    assert_eq!(n_of(i128::MAX, 1), one);
    // Just below 500 it is still the line from T(499) to T(500).
    assert_eq!(n_of(499_999_999, 1_000_000), 999_999_712);
}

#[test]
fn n_below_zero_is_a_mirror() {
    let one = i128::from(BILLION);
    assert_eq!(n_of(-1, 1), one - 503_989_356);
    assert_eq!(n_of(-500, 1), 0);
    assert_eq!(n_of(-501, 1), 0);
    for num in 1..2000 {
        assert_eq!(n_of(-num, 3), one - n_of(num, 3));
    }
}

#[test]
fn known_pi_ns() {
    let x = 2_000_000;
    assert_eq!(pi_ns(x, x, 0, 1_000_000), 1_000_000_000);
    assert_eq!(pi_ns(x - 1, x, 0, 1_000_000), 1_000_000_000);
    assert_eq!(pi_ns(x + 1, x, 0, 1_000_000), 499_999_602);
    assert_eq!(pi_ns(x + 5000, x, 0, 1_000_000), 498_005_322);
    assert_eq!(pi_ns(x + 1_000_000, x, 2_000_000, 1_000_000), 841_344_746);
}

#[test]
fn pi_s_uses_half_the_mean_and_a_root_of_one_half() {
    assert_eq!(pi_s(0, 0, 0, 1), BILLION);
    assert_eq!(pi_s(-1, 0, -20_000_000, 1), BILLION);
    // 50000 × 2 × 707 / (707 × 1000) is the knot 100.
    assert_eq!(pi_s(707, 0, 0, 1000), BILLION - 841_344_746);
    // 2 × 1000 - 2000 is the middle of the curve.
    assert_eq!(pi_s(1000, 0, 2000, 1), 500_000_000);
    // 50000 × (2 × 1 - 709) / (707 × 500) is the mirrored knot 100.
    assert_eq!(pi_s(1, 0, 709, 500), 841_344_746);
}

#[test]
fn machine_extremes_do_not_overflow() {
    assert_eq!(pi_s(i64::MAX, i64::MIN, i64::MIN, 1), 0);
    assert_eq!(pi_ns(i64::MAX, i64::MIN, i64::MIN, 1), 0);
    assert_eq!(pi_ns(1, 0, i64::MAX, 1), BILLION);
    pi_s(i64::MAX, i64::MIN, i64::MIN, i64::MAX);
    pi_ns(i64::MAX, i64::MIN, i64::MIN, i64::MAX);
}
