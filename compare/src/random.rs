//! A small seeded generator (SplitMix64): a seed names the same inputs on
//! every machine.

#[derive(Clone)]
pub struct Random(u64);

impl Random {
    pub fn new(seed: u64) -> Self {
        Self(seed)
    }

    pub fn next(&mut self) -> u64 {
        self.0 = self.0.wrapping_add(0x9E37_79B9_7F4A_7C15);
        let mixed = (self.0 ^ self.0 >> 30).wrapping_mul(0xBF58_476D_1CE4_E5B9);
        let mixed = (mixed ^ mixed >> 27).wrapping_mul(0x94D0_49BB_1331_11EB);
        mixed ^ mixed >> 31
    }

    /// A number below `limit`. The remainder favours small ones by less than
    /// one part in 2^32 for every limit used here.
    pub fn below(&mut self, limit: u64) -> u64 {
        self.next() % limit
    }

    /// A number up to `most`, which may be the largest there is.
    pub fn up_to(&mut self, most: u64) -> u64 {
        match most.checked_add(1) {
            Some(limit) => self.below(limit),
            None => self.next(),
        }
    }

    pub fn one_in(&mut self, n: u64) -> bool {
        self.below(n) == 0
    }

    pub fn pick<T: Copy>(&mut self, from: &[T]) -> T {
        from[self.below(from.len() as u64) as usize]
    }

    /// One of `from`, moved by at most `reach` either way, round the ends.
    pub fn near(&mut self, from: &[u64], reach: u64) -> u64 {
        let moved = self.below(2 * reach + 1).wrapping_sub(reach);
        self.pick(from).wrapping_add(moved)
    }
}
