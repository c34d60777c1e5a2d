//! Natural numbers of any size, with just the operations the series needs.

use std::cmp::Ordering;

/// A natural number in 64-bit limbs, lowest first, with no zero limb on top.
#[derive(Clone, Debug, PartialEq, Eq)]
pub(crate) struct Natural {
    limbs: Vec<u64>,
}

impl Natural {
    pub fn new(value: u64) -> Natural {
        let mut natural = Natural { limbs: vec![value] };
        natural.trim();
        natural
    }

    /// The product of the factors.
    pub fn product(factors: impl Iterator<Item = u64>) -> Natural {
        let mut product = Natural::new(1);
        for factor in factors {
            product.multiply(factor);
        }
        product
    }

    pub fn multiply(&mut self, factor: u64) {
        let mut carry = 0_u128;
        for limb in &mut self.limbs {
            carry += u128::from(*limb) * u128::from(factor);
            *limb = carry as u64;
            carry >>= 64;
        }
        self.limbs.push(carry as u64);
        self.trim();
    }

    pub fn add(&mut self, other: &Natural) {
        let length = self.limbs.len().max(other.limbs.len());
        self.limbs.resize(length + 1, 0);
        let mut carry = 0_u128;
        for (place, limb) in self.limbs.iter_mut().enumerate() {
            carry += u128::from(*limb) + u128::from(other.limb(place));
            *limb = carry as u64;
            carry >>= 64;
        }
        self.trim();
    }

    /// Takes away `other`, which must not be the larger one.
    pub fn subtract(&mut self, other: &Natural) {
        assert!(*self >= *other, "the difference would be below zero");
        let mut borrow = false;
        for (place, limb) in self.limbs.iter_mut().enumerate() {
            let (difference, under) = limb.overflowing_sub(other.limb(place));
            let (difference, under_again) = difference.overflowing_sub(u64::from(borrow));
            *limb = difference;
            borrow = under || under_again;
        }
        self.trim();
    }

    /// The floor of `self / divisor`, which must be below 2^32.
    pub fn small_quotient(&self, divisor: &Natural) -> u64 {
        let mut quotient = 0;
        for bit in (0..32).rev() {
            let candidate = quotient | 1 << bit;
            let mut product = divisor.clone();
            product.multiply(candidate);
            if product <= *self {
                quotient = candidate;
            }
        }
        quotient
    }

    fn limb(&self, place: usize) -> u64 {
        self.limbs.get(place).copied().unwrap_or(0)
    }

    fn trim(&mut self) {
        while self.limbs.last() == Some(&0) {
            self.limbs.pop();
        }
    }
}

impl Ord for Natural {
    fn cmp(&self, other: &Natural) -> Ordering {
        // Without zero limbs on top the longer number is the larger one.
        let by_length = self.limbs.len().cmp(&other.limbs.len());
        by_length.then_with(|| self.limbs.iter().rev().cmp(other.limbs.iter().rev()))
    }
}

impl PartialOrd for Natural {
    fn partial_cmp(&self, other: &Natural) -> Option<Ordering> {
        Some(self.cmp(other))
    }
}

#[cfg(test)]
mod tests {
    use super::*;

    fn factorial(n: u64) -> Natural {
        Natural::product(1..=n)
    }

    #[test]
    fn carries_and_borrows_cross_limbs() {
        let mut number = Natural::new(u64::MAX);
        number.add(&Natural::new(1));
        assert_eq!(number.limbs, [0, 1]);
        number.subtract(&Natural::new(1));
        assert_eq!(number.limbs, [u64::MAX]);
        number.multiply(u64::MAX);
        assert_eq!(number.limbs, [1, u64::MAX - 1]);
        number.multiply(0);
        assert_eq!(number, Natural::new(0));
    }

    #[test]
    fn subtracting_undoes_adding() {
        let mut number = factorial(50);
        number.add(&factorial(60));
        number.subtract(&factorial(50));
        assert_eq!(number, factorial(60));
    }

    #[test]
    fn quotients_are_floors() {
        let mut number = factorial(42);
        assert_eq!(number.small_quotient(&factorial(40)), 42 * 41);
        number.subtract(&Natural::new(1));
        assert_eq!(number.small_quotient(&factorial(40)), 42 * 41 - 1);
        assert_eq!(factorial(40).small_quotient(&factorial(41)), 0);
    }

    #[test]
    fn order_is_by_size() {
        assert!(factorial(30) < factorial(31));
        assert!(Natural::new(0) < Natural::new(1));
        let mut low = Natural::new(u64::MAX);
        low.multiply(5);
        let mut high = Natural::new(u64::MAX);
        high.multiply(6);
        assert!(low < high);
    }
}
