//! The normal distribution: 501 exact knots and straight lines between them.

use crate::natural::Natural;
use std::sync::OnceLock;

/// One, in billionths.
pub const BILLION: i64 = 1_000_000_000;

/// The knots stand for 0.00, 0.01, ... 5.00.
pub const KNOTS: usize = 501;

/// The series has terms n = 0..59.
const TERMS: u64 = 60;

/// c = C_DIGITS / 10^16 stands for 1 over the root of 2 pi.
const C_DIGITS: u64 = 3_989_422_804_014_327;

/// T(0)..T(500), computed once.
pub fn normal_table() -> &'static [i64; KNOTS] {
    static TABLE: OnceLock<[i64; KNOTS]> = OnceLock::new();
    TABLE.get_or_init(|| {
        let series = Series::new();
        std::array::from_fn(|k| series.knot(k as u64))
    })
}

/// N(p) for p = num / den, den above 0, in billionths.
pub fn n_of(num: i128, den: i128) -> i128 {
    assert!(den > 0, "the denominator must be above zero");
    let one = i128::from(BILLION);
    if num < 0 {
        return one - n_of(-num, den);
    }
    // Compared without a product, so that no large fraction can overflow.
    let k = num / den;
    if k >= KNOTS as i128 - 1 {
        return one;
    }
    let table = normal_table();
    let low = i128::from(table[k as usize]);
    let high = i128::from(table[k as usize + 1]);
    low + (high - low) * (num - k * den) / den
}

/// The series of A(k) over one common denominator.
///
/// A(k) = k × S(k) / (100 × M), S(k) = sum of (-1)^n × k^(2n) × coefficient(n),
/// M = product of all 2m+1 (m = 0..59) × product of all 20000 m (m = 1..59),
/// since 2^n × n! × 100^(2n) is the product of 20000 m for m = 1..n.
struct Series {
    coefficients: Vec<Natural>,
    /// 10^9 × M: the denominator of 10^9 × c × A(k), whose numerator is
    /// C_DIGITS × k × S(k).
    denominator: Natural,
}

impl Series {
    fn new() -> Series {
        let odd = |m: u64| 2 * m + 1;
        let even = |m: u64| 20_000 * m;
        let coefficient = |n: u64| {
            let other_odds = (0..TERMS).filter(move |&m| m != n).map(odd);
            let later_evens = (n + 1..TERMS).map(even);
            Natural::product(other_odds.chain(later_evens))
        };
        let mut denominator = Natural::product((0..TERMS).map(odd).chain((1..TERMS).map(even)));
        denominator.multiply(1_000_000_000);
        Series {
            coefficients: (0..TERMS).map(coefficient).collect(),
            denominator,
        }
    }

    /// T(k) = 10^9 × (1/2 + c × A(k)), rounded half up.
    fn knot(&self, k: u64) -> i64 {
        // floor(x + 1/2) with the denominator doubled: (2 num + den) / (2 den).
        let mut numerator = self.sum(k);
        numerator.multiply(C_DIGITS);
        numerator.multiply(2 * k);
        numerator.add(&self.denominator);
        let mut denominator = self.denominator.clone();
        denominator.multiply(2);
        BILLION / 2 + numerator.small_quotient(&denominator) as i64
    }

    /// S(k): the terms with a plus less the terms with a minus.
    fn sum(&self, k: u64) -> Natural {
        let mut plus = self.every_second(0, k);
        let mut minus = self.every_second(1, k);
        minus.multiply(k * k);
        plus.subtract(&minus);
        plus
    }

    /// Horner's rule in k^4 over the coefficients first, first + 2, ...
    fn every_second(&self, first: usize, k: u64) -> Natural {
        let mut sum = Natural::new(0);
        for coefficient in self.coefficients[first..].iter().step_by(2).rev() {
            sum.multiply(k * k * k * k);
            sum.add(coefficient);
        }
        sum
    }
}
