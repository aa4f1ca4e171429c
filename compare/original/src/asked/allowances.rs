//! The original's preprocessing allowance. What remains can't be read outside
//! its own tests; it shows only in what can be taken.
use crate::budget::Budget;

pub struct Allowance(Budget);

/// A size of which the original can be asked to take `count` times: it takes
/// a type, so only the sizes of the types in `SIZES` exist.
#[derive(Clone, Copy)]
pub struct Size {
    pub bytes: u64,
    alloc: fn(&Budget, usize) -> bool,
}

macro_rules! sizes {
    ($($n:expr),* $(,)?) => {
        &[$(Size { bytes: $n, alloc: |budget, count| budget.alloc::<[u8; $n]>(count).is_ok() }),*]
    };
}

pub const SIZES: &[Size] = sizes![
    0,
    1,
    2,
    3,
    4,
    5,
    7,
    8,
    12,
    16,
    24,
    64,
    255,
    256,
    4096,
    65_535,
    65_536,
    (1 << 31) - 1,
    (1 << 32) - 1,
    1 << 32,
    (1 << 32) + 1,
    1 << 46,
];

impl Allowance {
    pub fn for_table_bytes(bytes: u64) -> Self {
        Self(Budget::for_table_bytes(bytes as usize))
    }
    pub fn new(work: u64, bytes: u64) -> Self {
        Self(Budget::new(work as usize, bytes as usize))
    }
    /// Taken (true) or Exhausted.
    pub fn work(&self, visits: u64) -> bool {
        self.0.work(visits as usize).is_ok()
    }
    /// Taken (true) or Exhausted.
    pub fn alloc(&self, count: u64, size: Size) -> bool {
        (size.alloc)(&self.0, count as usize)
    }
    /// Whether exactly this remains. It is found by taking all of it.
    pub fn holds(self, [work, bytes]: [u64; 2]) -> bool {
        let byte = SIZES[1];
        self.work(work) && !self.work(1) && self.alloc(bytes, byte) && !self.alloc(1, byte)
    }
}

/// What remains of work and bytes in what `make` makes, the same each time:
/// the most that can be taken.
pub fn left(make: impl Fn() -> Allowance) -> [u64; 2] {
    let byte = SIZES[1];
    [most(|n| make().work(n)), most(|n| make().alloc(n, byte))]
}

/// The largest number that is taken; all below it are, and 0 always is.
fn most(taken: impl Fn(u64) -> bool) -> u64 {
    let mut most = 0;
    for bit in (0..64).rev() {
        if taken(most | 1 << bit) {
            most |= 1 << bit;
        }
    }
    most
}
