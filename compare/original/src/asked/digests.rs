//! The original's two digests.
use crate::ot::apply::RuleSetDigest;
pub use crate::set_digest::SetDigest;

/// The three masks, which only Debug shows.
pub fn masks(digest: &SetDigest) -> [u64; 3] {
    let shown = format!("{digest:?}");
    let list = shown.split(['[', ']']).nth(1).expect("a list of masks");
    let mut numbers = list.split(", ").map(|n| n.parse().expect("a mask"));
    [(); 3].map(|()| numbers.next().expect("three masks"))
}

/// A digest of one mask, which no method shows: it is asked for each bit.
#[derive(Clone, Copy)]
pub struct RuleDigest(RuleSetDigest);

impl RuleDigest {
    pub fn new() -> Self {
        Self(RuleSetDigest::default())
    }
    pub fn full() -> Self {
        Self(RuleSetDigest::full())
    }
    pub fn add(&mut self, value: u32) {
        self.0.add(value);
    }
    pub fn is_full(self) -> bool {
        self.0.is_full()
    }
    pub fn may_have(self, value: u32) -> bool {
        self.0.may_have(value)
    }
    pub fn mask(self) -> u64 {
        (0..64).filter(|&bit| self.may_have(bit)).map(|bit| 1 << bit).sum()
    }
}
