//! Numbers that look random and follow from a seed.

/// SplitMix64.
pub struct Random(u64);

impl Random {
    pub fn new(seed: u64) -> Random {
        Random(seed)
    }

    /// The numbers of one place in a run, which can be had again without
    /// those before it.
    pub fn at(seed: u64, place: u64) -> Random {
        let mut random = Random(seed);
        let start = random.bits();
        Random(start ^ Random(place).bits())
    }

    pub fn bits(&mut self) -> u64 {
        self.0 = self.0.wrapping_add(0x9e37_79b9_7f4a_7c15);
        let mut z = self.0;
        z = (z ^ (z >> 30)).wrapping_mul(0xbf58_476d_1ce4_e5b9);
        z = (z ^ (z >> 27)).wrapping_mul(0x94d0_49bb_1331_11eb);
        z ^ (z >> 31)
    }

    /// A number from `low` to `high`, both included.
    pub fn within(&mut self, low: i64, high: i64) -> i64 {
        let span = high.wrapping_sub(low) as u64;
        if span == u64::MAX {
            return self.bits() as i64;
        }
        low.wrapping_add((self.bits() % (span + 1)) as i64)
    }

    /// True in one of `parts` calls.
    pub fn one_in(&mut self, parts: u64) -> bool {
        self.bits().is_multiple_of(parts)
    }

    pub fn pick<'a, T>(&mut self, all: &'a [T]) -> &'a T {
        &all[(self.bits() % all.len() as u64) as usize]
    }

    /// A place in a list that is not empty.
    pub fn place(&mut self, length: usize) -> usize {
        (self.bits() % length as u64) as usize
    }

    /// A number from `low` to `high`, often small and often at a bound.
    pub fn uneven(&mut self, low: i64, high: i64) -> i64 {
        let most = match self.bits() % 8 {
            0 => 0,
            1 => 3,
            2 => 100,
            3 => 10_000,
            4 => 1_000_000,
            5 => return *self.pick(&[low, high, high - 1]),
            _ => i64::MAX,
        };
        self.within(low.max(-most), high.min(most).max(low))
    }
}
