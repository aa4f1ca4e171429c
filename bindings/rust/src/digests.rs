//! Digests of glyph sets and of rules' values. None of these calls refuses anything.
use crate::c;

/// A set of glyphs, told in three masks of 64 bits at the shifts 4, 0 and 6. It may admit a glyph that was never added; it never
/// turns away one that was.
///
/// ```
/// use conchibaru::SetDigest;
///
/// // Card K7.
/// let mut digest = SetDigest::new();
/// digest.add(4660);
/// assert_eq!(digest.masks, [1 << 35, 1 << 52, 1 << 8]);
/// assert!(digest.may_have(4660) && digest.may_have(8756));
/// assert!(!digest.may_have(4661));
///
/// let mut other = SetDigest::new();
/// other.add_array(&[5, 7]);
/// assert!(!digest.may_intersect(&other));
/// digest.union(&other);
/// assert!(digest.may_intersect(&other) && digest.may_have(7));
/// digest.clear();
/// assert_eq!(digest, SetDigest::new());
/// ```
#[derive(Clone, Copy, Debug, Default, PartialEq, Eq, Hash)]
pub struct SetDigest {
    /// The masks, in the order of the shifts.
    pub masks: [u64; 3],
}

// SAFETY of each call below: its pointers come from arrays and slices of the lengths that it is told, and what it writes to is
// lent to it alone.
impl SetDigest {
    /// The digest of no glyph.
    #[must_use]
    pub const fn new() -> Self {
        Self { masks: [0; 3] } // what cb_digest_new writes
    }

    /// The digest that admits every glyph.
    ///
    /// ```
    /// assert_eq!(conchibaru::SetDigest::full().masks, [u64::MAX; 3]);
    /// ```
    #[must_use]
    pub const fn full() -> Self {
        Self { masks: [u64::MAX; 3] } // what cb_digest_full writes
    }

    /// Empties it.
    pub fn clear(&mut self) {
        unsafe { c::cb_digest_clear(&mut self.masks) }
    }

    /// Adds all that the other admits.
    pub fn union(&mut self, other: &Self) {
        unsafe { c::cb_digest_union(&mut self.masks, &other.masks) }
    }

    /// Adds a glyph.
    pub fn add(&mut self, g: u32) {
        unsafe { c::cb_digest_add(&mut self.masks, g) }
    }

    /// Adds each glyph.
    pub fn add_array(&mut self, glyphs: &[u32]) {
        unsafe { c::cb_digest_add_array(&mut self.masks, glyphs.as_ptr(), glyphs.len()) }
    }

    /// Adds the range from `a` to `b`. False where all masks were full before, or where the range is so wide that it fills all
    /// three; else true.
    ///
    /// ```
    /// // Card K8.
    /// let mut digest = conchibaru::SetDigest::new();
    /// assert!(digest.add_range(62, 65));
    /// assert_eq!(digest.masks, [1 << 3 | 1 << 4, 1 << 62 | 1 << 63 | 1 << 0 | 1 << 1, 1 << 0 | 1 << 1]);
    /// ```
    pub fn add_range(&mut self, a: u32, b: u32) -> bool {
        unsafe { c::cb_digest_add_range(&mut self.masks, a, b) }
    }

    /// Whether the glyph may be in the set: false only if it was never added.
    #[must_use]
    pub fn may_have(&self, g: u32) -> bool {
        unsafe { c::cb_digest_may_have(&self.masks, g) }
    }

    /// Whether the two may have a glyph in common: false only if no glyph is admitted by both.
    #[must_use]
    pub fn may_intersect(&self, other: &Self) -> bool {
        unsafe { c::cb_digest_may_intersect(&self.masks, &other.masks) }
    }
}

/// A set of rules' values, told in one mask, on the value mod 64.
///
/// ```
/// let mut digest = conchibaru::RuleSetDigest::new();
/// digest.add(65);
/// assert_eq!(digest.mask, 2);
/// assert!(digest.may_have(129) && !digest.may_have(66) && !digest.is_full());
/// assert!(conchibaru::RuleSetDigest::full().is_full());
/// ```
#[derive(Clone, Copy, Debug, Default, PartialEq, Eq, Hash)]
pub struct RuleSetDigest {
    /// The mask.
    pub mask: u64,
}

// SAFETY of each call below: it takes numbers alone.
impl RuleSetDigest {
    /// The digest of no value.
    #[must_use]
    pub const fn new() -> Self {
        Self { mask: 0 } // what cb_rule_set_digest_new answers
    }

    /// The digest that admits every value.
    #[must_use]
    pub const fn full() -> Self {
        Self { mask: u64::MAX } // what cb_rule_set_digest_full answers
    }

    /// Adds a value.
    pub fn add(&mut self, value: u32) {
        self.mask = unsafe { c::cb_rule_set_digest_add(self.mask, value) };
    }

    /// Whether every value is admitted.
    #[must_use]
    pub fn is_full(self) -> bool {
        unsafe { c::cb_rule_set_digest_is_full(self.mask) }
    }

    /// Whether the value may have been added.
    #[must_use]
    pub fn may_have(self, value: u32) -> bool {
        unsafe { c::cb_rule_set_digest_may_have(self.mask, value) }
    }
}

#[cfg(test)]
mod tests {
    use super::{RuleSetDigest, SetDigest};
    use crate::c;

    /// What is written here as a constant is the library's answer.
    #[test]
    fn the_new_and_the_full_digest_are_the_librarys() {
        let (mut none, mut all) = ([7; 3], [7; 3]);
        // SAFETY: the masks are lent to each call alone; the others take and give numbers.
        unsafe {
            c::cb_digest_new(&mut none);
            c::cb_digest_full(&mut all);
            assert_eq!(RuleSetDigest::new().mask, c::cb_rule_set_digest_new());
            assert_eq!(RuleSetDigest::full().mask, c::cb_rule_set_digest_full());
        }
        assert_eq!((SetDigest::new().masks, SetDigest::full().masks), (none, all));
        assert_eq!((SetDigest::default(), RuleSetDigest::default()), (SetDigest::new(), RuleSetDigest::new()));
    }
}
