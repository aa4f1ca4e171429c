//! Allowances: what may be spent on preparing a font's lookups.
use crate::c;
use std::fmt;

/// More was asked than is left, and nothing was taken.
#[derive(Clone, Copy, Debug, Default, PartialEq, Eq, Hash)]
pub struct Exhausted;

impl fmt::Display for Exhausted {
    fn fmt(&self, f: &mut fmt::Formatter) -> fmt::Result {
        f.write_str("more was asked of an allowance than is left of it")
    }
}

impl std::error::Error for Exhausted {}

/// What is left of the work and of the bytes.
///
/// It is spent through `&mut`, and is not [`Copy`]: handed on by value it is gone, so that nothing is spent twice unseen. A
/// [`Clone`] is a second allowance of the same size, for who wants one, as to try something and go back to what was left before.
///
/// ```compile_fail,E0382
/// let budget = conchibaru::Budget::new(10, 100);
/// let spender = budget;
/// budget.remaining(); // it was handed on
/// # drop(spender);
/// ```
///
/// ```
/// use conchibaru::{Budget, Exhausted};
///
/// // Card K10.
/// assert_eq!(Budget::for_table_bytes(16_385).remaining(), (4_194_560, 4_194_560));
///
/// let mut budget = Budget::new(10, 100);
/// assert_eq!(budget.work(11), Err(Exhausted));
/// assert_eq!(budget.alloc(25, 4), Ok(()));
/// assert_eq!(budget.alloc(u64::MAX, 2), Err(Exhausted));
/// assert_eq!(budget.remaining(), (10, 0));
/// ```
#[derive(Clone, Debug, PartialEq, Eq, Hash)]
pub struct Budget {
    left: [u64; 2],
}

// SAFETY of each call below: the two numbers are lent to it alone.
impl Budget {
    /// The allowance for a table of so many bytes: each number is bytes times 256, from 4,194,304 to 134,217,728.
    #[must_use]
    pub fn for_table_bytes(bytes: u64) -> Self {
        let mut left = [0; 2];
        unsafe { c::cb_budget_for_table_bytes(&mut left, bytes) };
        Self { left }
    }

    /// An allowance of these two numbers.
    #[must_use]
    pub const fn new(work: u64, bytes: u64) -> Self {
        Self { left: [work, bytes] } // what cb_budget_new writes
    }

    /// Takes visits from the work. Taking 0 always succeeds.
    ///
    /// # Errors
    ///
    /// [`Exhausted`] where that is more than is left; then nothing is taken.
    pub fn work(&mut self, visits: u64) -> Result<(), Exhausted> {
        taken(unsafe { c::cb_budget_work(&mut self.left, visits) })
    }

    /// Takes `count` times `size` from the bytes.
    ///
    /// # Errors
    ///
    /// [`Exhausted`] where the product passes 64 bits or what is left; then nothing is taken.
    pub fn alloc(&mut self, count: u64, size: u64) -> Result<(), Exhausted> {
        taken(unsafe { c::cb_budget_alloc(&mut self.left, count, size) })
    }

    /// What is left of the work and of the bytes.
    #[must_use]
    pub const fn remaining(&self) -> (u64, u64) {
        (self.left[0], self.left[1])
    }
}

fn taken(yes: bool) -> Result<(), Exhausted> {
    if yes {
        Ok(())
    } else {
        Err(Exhausted)
    }
}

#[cfg(test)]
mod tests {
    use super::Budget;
    use crate::c;

    /// What is written here as a constant is the library's answer.
    #[test]
    fn a_new_allowance_is_the_librarys() {
        for (work, bytes) in [(0, 0), (10, 100), (u64::MAX, 1)] {
            let mut left = [7; 2];
            // SAFETY: the two numbers are lent to it alone.
            unsafe { c::cb_budget_new(&mut left, work, bytes) };
            assert_eq!(Budget::new(work, bytes), Budget { left });
        }
    }
}
