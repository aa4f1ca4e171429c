//! Runs of records over a text, and whether a book reads.
use crate::c;
use crate::{InputMatch, Refusal, LIMIT, MAX_CONTEXT_LENGTH, WORDS};
use std::fmt;

/// Words of each row of a run, just as many.
pub const RUN_WORDS: usize = WORDS * LIMIT;

/// Depth of a run, at most.
pub const MAX_NESTING_LEVEL: usize = 64;

/// Allowance of a run, at most.
pub const MOST_ALLOWANCE: u32 = 2_147_483_647;

/// A run's settings and its one lookup mask. A run is GSUB. The default is all off, mask 1.
#[derive(Clone, Copy, Debug, PartialEq, Eq, Hash)]
pub struct Switches {
    /// Auto-ZWNJ.
    pub auto_zwnj: bool,
    /// Auto-ZWJ.
    pub auto_zwj: bool,
    /// Whether syllables are tested.
    pub per_syllable: bool,
    /// The mask of every chain in the run.
    pub mask: u32,
}

impl Default for Switches {
    fn default() -> Self {
        Self { auto_zwnj: false, auto_zwj: false, per_syllable: false, mask: 1 }
    }
}

/// What a run is given besides its text.
#[derive(Clone, Copy, Debug, PartialEq, Eq, Hash)]
pub struct Given<'a> {
    /// Mark sets, in pairs of set and glyph.
    pub sets: &'a [u16],
    /// The lookups (see [`book_reads`]).
    pub book: &'a [u16],
    /// Pairs of a sequence index and a lookup index, at most 16.
    pub records: &'a [u16],
    /// The match that the records count in; it counts places in `coming`.
    pub matched: InputMatch,
    /// Settings and mask.
    pub switches: Switches,
    /// How many nested lookups may be tried.
    pub allowance: u32,
    /// How deep they may stand in one another.
    pub depth: usize,
}

/// How a run ended. Later versions may have more endings.
#[non_exhaustive]
#[derive(Clone, Copy, Debug, PartialEq, Eq, Hash)]
pub enum Ending {
    /// Every record that was due was applied.
    Finished = 0,
    /// A record was due at allowance 0.
    Short = 8,
    /// A record was due at depth 0.
    Deep = 9,
    /// A result would have passed [`LIMIT`] glyphs, and nothing of it was written.
    Full = 10,
}

impl Ending {
    /// Document 01's number; Finished has 0.
    #[must_use]
    pub const fn number(self) -> u8 {
        self as u8
    }
}

/// What a run answers. Positions count from the text's first glyph.
#[derive(Clone, Copy, PartialEq, Eq, Hash)]
pub struct Run {
    /// How it ended.
    pub ending: Ending,
    /// How many nested lookups were tried.
    pub spent: u32,
    /// How many glyphs of `done` count now.
    pub d: usize,
    /// The cursor in `coming` now.
    pub idx: usize,
    /// How many positions the first level has.
    pub count: usize,
    /// These positions; the slots after them are 0.
    pub slots: [u16; MAX_CONTEXT_LENGTH],
}

impl Run {
    /// The positions that are counted.
    #[must_use]
    pub fn positions(&self) -> &[u16] {
        &self.slots[..self.count.min(MAX_CONTEXT_LENGTH)]
    }
}

impl fmt::Debug for Run {
    fn fmt(&self, f: &mut fmt::Formatter) -> fmt::Result {
        let Self { ending, spent, d, idx, .. } = self;
        let mut told = f.debug_struct("Run");
        told.field("ending", ending).field("spent", spent).field("d", d).field("idx", idx);
        told.field("positions", &self.positions()).finish()
    }
}

/// A run's answer, or why there was none.
#[must_use = "a run that is refused, or that ended early, says so in its answer alone"]
#[derive(Clone, Copy, Debug, PartialEq, Eq, Hash)]
pub enum RunAnswer {
    /// It ran, and both rows hold the text and 0 elsewhere.
    Ended(Run),
    /// No word was changed.
    Refused(Refusal),
    /// A number that this crate has no name for, neither of an ending nor of a refusal: the library that was linked is newer than the
    /// crate. Words may have been changed.
    Unknown(u8),
}

impl RunAnswer {
    /// Document 01's number: the ending's or the refusal's.
    #[must_use]
    pub const fn number(&self) -> u8 {
        match self {
            Self::Ended(run) => run.ending.number(),
            Self::Refused(why) => why.number(),
            Self::Unknown(number) => *number,
        }
    }

    fn of(ran: c::Ran) -> Self {
        let ending = match ran.number {
            0 => Ending::Finished,
            8 => Ending::Short,
            9 => Ending::Deep,
            10 => Ending::Full,
            number => {
                return match Refusal::of(number) {
                    Refusal::Unknown(number) => Self::Unknown(number),
                    why => Self::Refused(why),
                }
            }
        };
        let c::Ran { spent, d, idx, count, positions, .. } = ran;
        Self::Ended(Run { ending, spent, d, idx, count, slots: positions })
    }
}

/// Whether a book reads. It is lookup after lookup: kind, props (low half, high half), the body's length, the body.
///
/// ```
/// use conchibaru::book_reads;
///
/// assert!(book_reads(&[2, 0, 0, 4, 2, 2, 2, 2])); // lookup 0, of kind 2, turns glyph 2 into 2, 2
/// assert!(book_reads(&[]));
/// assert!(!book_reads(&[2, 0, 0, 4, 2, 2, 2]));
/// ```
#[must_use]
pub fn book_reads(book: &[u16]) -> bool {
    // SAFETY: a slice with its length, which is read.
    unsafe { c::cb_book_reads(book.as_ptr(), book.len()) }
}

/// Applies records to a text; harfrust's `apply_lookup`. Both rows have [`RUN_WORDS`] words: of `done` the first `d` glyphs count, of
/// `coming` those from `idx` to its end. Refused, in this order and with no word changed, by [`Refusal::Shape`],
/// [`Refusal::Cursor`], [`Refusal::Limits`], [`Refusal::Book`], [`Refusal::Match`].
///
/// ```
/// use conchibaru::{match_input, row, run, Ending, Given, Glyph, Lookup, RunAnswer, Switches, Test, Text, LIMIT, RUN_WORDS};
///
/// // Card K11: ids 1, 2, 3 end the row and are matched whole; lookup 0 turns 2 into 2, 2.
/// let three = row(&[Glyph::new(1), Glyph::new(2), Glyph::new(3)]);
/// let (mut done, mut coming) = ([0; RUN_WORDS], [0; RUN_WORDS]);
/// coming[RUN_WORDS - three.len()..].copy_from_slice(&three);
/// let idx = LIMIT - 3;
/// let text = Text { done: &done, d: 0, idx, ..Text::coming(&coming) };
/// let matched = match_input(&text, &Lookup::default(), &[], Test::Equal, &[2, 3]);
///
/// let book = [2, 0, 0, 4, 2, 2, 2, 2];
/// let given = Given { sets: &[], book: &book, records: &[1, 0], matched, switches: Switches::default(), allowance: 1, depth: 1 };
/// let RunAnswer::Ended(ran) = run(&mut done, &mut coming, 0, idx, &given) else { panic!() };
/// assert_eq!((ran.ending, ran.spent, ran.d, ran.positions()), (Ending::Finished, 1, 4, &[0, 1, 2, 3][..]));
/// let now = row(&[Glyph::new(1), Glyph::new(2), Glyph::new(2), Glyph::new(3)]);
/// assert!(done.starts_with(&now) && coming.iter().all(|&word| word == 0));
/// ```
pub fn run(done: &mut [u32], coming: &mut [u32], d: usize, idx: usize, given: &Given) -> RunAnswer {
    let Given { sets, book, records, matched, switches, allowance, depth } = given;
    let switches =
        c::Switches { zwnj: switches.auto_zwnj, zwj: switches.auto_zwj, syllables: switches.per_syllable, mask: switches.mask };
    // SAFETY: slices with their lengths; both rows, which it writes to, are lent to it alone.
    RunAnswer::of(unsafe {
        c::cb_run(
            done.as_mut_ptr(),
            done.len(),
            coming.as_mut_ptr(),
            coming.len(),
            d,
            idx,
            sets.as_ptr(),
            sets.len(),
            book.as_ptr(),
            book.len(),
            records.as_ptr(),
            records.len(),
            matched.in_c(),
            switches,
            *allowance,
            *depth,
        )
    })
}

#[cfg(test)]
mod tests {
    use super::{c, RunAnswer, MAX_CONTEXT_LENGTH};

    /// Any number is an answer, a newer library's too.
    #[test]
    fn each_number_is_told() {
        for number in 0..=u8::MAX {
            let answer = RunAnswer::of(c::Ran { number, spent: 0, d: 0, idx: 0, count: 0, positions: [0; MAX_CONTEXT_LENGTH] });
            assert_eq!(answer.number(), number);
            let named = [0, 1, 2, 3, 6, 7, 8, 9, 10, 11, 12].contains(&number);
            assert_eq!(answer == RunAnswer::Unknown(number), !named, "{answer:?}");
        }
    }
}
