//! The two questions, the verdict and the walks.
use crate::c;
use crate::Refusal;

/// The table that a lookup stands in.
#[derive(Clone, Copy, Debug, Default, PartialEq, Eq, Hash)]
pub enum Table {
    /// Substitution.
    #[default]
    Gsub,
    /// Positioning.
    Gpos,
}

/// What a lookup asks of a text, the same for every glyph. The default is GSUB, settings off, mask 1, props 0.
#[derive(Clone, Copy, Debug, PartialEq, Eq, Hash)]
pub struct Lookup {
    /// Its table.
    pub table: Table,
    /// Auto-ZWNJ: the context matcher ignores ZWNJ.
    pub auto_zwnj: bool,
    /// Auto-ZWJ: the input matcher ignores ZWJ.
    pub auto_zwj: bool,
    /// Whether syllables are tested (under GSUB).
    pub per_syllable: bool,
    /// The lookup's mask, for the input matcher.
    pub mask: u32,
    /// The lookup's props: bits of [`lookup_flags`](crate::lookup_flags), the attachment class, the filtering set's index.
    pub props: u32,
}

impl Default for Lookup {
    fn default() -> Self {
        Self { table: Table::Gsub, auto_zwnj: false, auto_zwj: false, per_syllable: false, mask: 1, props: 0 }
    }
}

impl Lookup {
    pub(crate) fn in_c(&self) -> c::Lookup {
        c::Lookup {
            gpos: self.table == Table::Gpos,
            zwnj: self.auto_zwnj,
            zwj: self.auto_zwj,
            syllables: self.per_syllable,
            mask: self.mask,
            props: self.props,
        }
    }
}

/// Which of a lookup's two matchers is asked.
#[derive(Clone, Copy, Debug, PartialEq, Eq, Hash)]
pub enum Role {
    /// The input matcher.
    Input,
    /// The context matcher, of lookahead and backtrack.
    Context,
}

/// How a value is tested. Later versions may have more ways.
#[non_exhaustive]
#[derive(Clone, Copy, Debug, PartialEq, Eq, Hash)]
pub enum Test {
    /// The glyph's id equals it: harfrust's `match_glyph`.
    Equal = 0,
    /// Any glyph will do: harfrust's `match_always`.
    Any = 1,
    /// No test is set: harfrust's `None`.
    Nothing = 2,
}

/// What a question or a walk seeks.
#[derive(Clone, Copy, Debug, PartialEq, Eq, Hash)]
pub struct Sought {
    /// How the value is tested.
    pub test: Test,
    /// The value; it is looked at only by [`Test::Equal`].
    pub value: u32,
    /// The starting syllable, which is the cursor glyph's; 0 is never tested.
    pub syllable: u8,
}

impl Sought {
    /// A glyph of this id, of any syllable.
    #[must_use]
    pub const fn id(value: u32) -> Self {
        Self { test: Test::Equal, value, syllable: 0 }
    }

    fn in_c(&self) -> c::Sought {
        c::Sought { test: self.test as u8, syllable: self.syllable, value: self.value }
    }
}

/// May a glyph be skipped?
#[derive(Clone, Copy, Debug, PartialEq, Eq, Hash)]
pub enum MaySkip {
    /// It is never passed over.
    No = 0,
    /// It is always passed over.
    Yes = 1,
    /// It is passed over unless it matches.
    Maybe = 2,
}

/// May a glyph match?
#[derive(Clone, Copy, Debug, PartialEq, Eq, Hash)]
pub enum MayMatch {
    /// It doesn't match.
    No = 0,
    /// It matches.
    Yes = 1,
    /// No test is set: it matches unless it may be skipped.
    Maybe = 2,
}

/// What follows from both questions; harfrust's `MatchResult`.
#[derive(Clone, Copy, Debug, PartialEq, Eq, Hash)]
pub enum Verdict {
    /// It matches.
    Match = 0,
    /// It stops a walk.
    NotMatch = 1,
    /// It is passed over.
    Skip = 2,
}

/// A walk's answer.
#[must_use = "a walk that finds nothing says so in its answer alone"]
#[derive(Clone, Copy, Debug, PartialEq, Eq, Hash)]
pub enum Walked {
    /// A glyph that matches, at this place.
    Found(usize),
    /// A glyph stopped it; its extent.
    Stopped(usize),
    /// No glyph was left; its extent.
    RanOut(usize),
    /// Nothing was walked: [`Refusal::Shape`].
    Refused(Refusal),
}

impl Walked {
    /// Document 01's number: 0, 4, or the refusal's.
    #[must_use]
    pub const fn number(self) -> u8 {
        match self {
            Self::Found(_) => 0,
            Self::Stopped(_) | Self::RanOut(_) => 4,
            Self::Refused(why) => why.number(),
        }
    }

    fn of(step: c::Step) -> Self {
        match (step.number, step.ranout) {
            (0, _) => Self::Found(step.place),
            (4, false) => Self::Stopped(step.place),
            (4, true) => Self::RanOut(step.place),
            (number, _) => Self::Refused(Refusal::of(number)),
        }
    }
}

/// What is said, or the refusal.
fn said(said: c::Said) -> Result<u8, Refusal> {
    match said.number {
        0 => Ok(said.said),
        number => Err(Refusal::of(number)),
    }
}

// SAFETY of each call below: its pointers come from slices of the lengths that it is told, and it writes to none.

/// May the glyph at a place of a row be skipped? `sets` are the mark sets, in pairs of set and glyph. Refused by
/// [`Refusal::Shape`] where the row is out of shape, the place isn't in it, or the sets are odd.
///
/// ```
/// use conchibaru::{lookup_flags, may_skip, props, Glyph, Lookup, MaySkip, Role};
///
/// let mark = Glyph { props: props::MARK, ..Glyph::new(9) }.words();
/// let ignoring = Lookup { props: lookup_flags::IGNORE_MARKS, ..Lookup::default() };
/// assert_eq!(may_skip(&mark, 0, &ignoring, Role::Input, &[]), Ok(MaySkip::Yes));
/// assert_eq!(may_skip(&mark, 0, &Lookup::default(), Role::Input, &[]), Ok(MaySkip::No));
/// ```
pub fn may_skip(row: &[u32], place: usize, lookup: &Lookup, role: Role, sets: &[u16]) -> Result<MaySkip, Refusal> {
    let context = role == Role::Context;
    let (p, n) = (sets.as_ptr(), sets.len());
    match said(unsafe { c::cb_may_skip(row.as_ptr(), row.len(), place, lookup.in_c(), context, p, n) })? {
        0 => Ok(MaySkip::No),
        1 => Ok(MaySkip::Yes),
        _ => Ok(MaySkip::Maybe),
    }
}

/// May the glyph at a place of a row match? Refused by [`Refusal::Shape`] where the row is out of shape or the place isn't in it.
///
/// ```
/// use conchibaru::{may_match, Glyph, Lookup, MayMatch, Refusal, Role, Sought, Test};
///
/// let row = Glyph::new(7).words();
/// let lookup = Lookup::default();
/// assert_eq!(may_match(&row, 0, &lookup, Role::Input, &Sought::id(7)), Ok(MayMatch::Yes));
/// assert_eq!(may_match(&row, 0, &lookup, Role::Input, &Sought::id(8)), Ok(MayMatch::No));
/// let untested = Sought { test: Test::Nothing, ..Sought::id(8) };
/// assert_eq!(may_match(&row, 0, &lookup, Role::Input, &untested), Ok(MayMatch::Maybe));
/// assert_eq!(may_match(&row, 1, &lookup, Role::Input, &untested), Err(Refusal::Shape));
/// ```
pub fn may_match(row: &[u32], place: usize, lookup: &Lookup, role: Role, sought: &Sought) -> Result<MayMatch, Refusal> {
    let context = role == Role::Context;
    match said(unsafe { c::cb_may_match(row.as_ptr(), row.len(), place, lookup.in_c(), context, sought.in_c()) })? {
        0 => Ok(MayMatch::No),
        1 => Ok(MayMatch::Yes),
        _ => Ok(MayMatch::Maybe),
    }
}

/// The verdict on the glyph at a place of a row. Refused as [`may_skip`] is.
///
/// ```
/// use conchibaru::{flags, verdict, Glyph, Lookup, Role, Sought, Verdict};
///
/// // A default ignorable is passed over unless it matches.
/// let row = Glyph { flags: flags::IGNORABLE, ..Glyph::new(9) }.words();
/// let lookup = Lookup::default();
/// assert_eq!(verdict(&row, 0, &lookup, Role::Input, &Sought::id(7), &[]), Ok(Verdict::Skip));
/// assert_eq!(verdict(&row, 0, &lookup, Role::Input, &Sought::id(9), &[]), Ok(Verdict::Match));
/// ```
pub fn verdict(
    row: &[u32],
    place: usize,
    lookup: &Lookup,
    role: Role,
    sought: &Sought,
    sets: &[u16],
) -> Result<Verdict, Refusal> {
    let context = role == Role::Context;
    let (words, (p, n)) = (row.as_ptr(), (sets.as_ptr(), sets.len()));
    match said(unsafe { c::cb_verdict(words, row.len(), place, lookup.in_c(), context, sought.in_c(), p, n) })? {
        0 => Ok(Verdict::Match),
        1 => Ok(Verdict::NotMatch),
        _ => Ok(Verdict::Skip),
    }
}

/// The next glyph after a place, among the first `len`, that isn't passed over; harfrust's `SkippingIterator::next`. The extent is
/// the last place reached + 1. Refused as [`may_skip`] is, where `len` is past the row, and where the place is past `len`.
///
/// ```
/// use conchibaru::{forward, lookup_flags, props, row, Glyph, Lookup, Role, Sought, Walked};
///
/// let mark = Glyph { props: props::MARK, ..Glyph::new(9) };
/// let row = row(&[Glyph::new(5), mark, Glyph::new(7)]);
/// let ignoring = Lookup { props: lookup_flags::IGNORE_MARKS, ..Lookup::default() };
/// assert_eq!(forward(&row, 3, 0, &ignoring, Role::Input, &Sought::id(7), &[]), Walked::Found(2));
/// assert_eq!(forward(&row, 3, 0, &Lookup::default(), Role::Input, &Sought::id(7), &[]), Walked::Stopped(2));
/// assert_eq!(forward(&row, 2, 0, &ignoring, Role::Input, &Sought::id(7), &[]), Walked::RanOut(2));
/// ```
pub fn forward(row: &[u32], len: usize, place: usize, lookup: &Lookup, role: Role, sought: &Sought, sets: &[u16]) -> Walked {
    let context = role == Role::Context;
    let (words, (p, n)) = (row.as_ptr(), (sets.as_ptr(), sets.len()));
    Walked::of(unsafe { c::cb_forward(words, row.len(), len, place, lookup.in_c(), context, sought.in_c(), p, n) })
}

/// The nearest glyph before a place that isn't passed over; harfrust's `SkippingIterator::prev`. Stopped at `p` the extent is
/// `max(p, 1) - 1`, run out it is 0. Refused as [`may_skip`] is, but the place may be the row's end.
///
/// ```
/// use conchibaru::{backward, row, Glyph, Lookup, Refusal, Role, Sought, Walked};
///
/// let row = row(&[Glyph::new(5), Glyph::new(7)]);
/// let lookup = Lookup::default();
/// assert_eq!(backward(&row, 2, &lookup, Role::Context, &Sought::id(7), &[]), Walked::Found(1));
/// assert_eq!(backward(&row, 2, &lookup, Role::Context, &Sought::id(5), &[]), Walked::Stopped(0));
/// assert_eq!(backward(&row, 0, &lookup, Role::Context, &Sought::id(5), &[]), Walked::RanOut(0));
/// assert_eq!(backward(&row, 3, &lookup, Role::Context, &Sought::id(5), &[]), Walked::Refused(Refusal::Shape));
/// ```
pub fn backward(row: &[u32], place: usize, lookup: &Lookup, role: Role, sought: &Sought, sets: &[u16]) -> Walked {
    let context = role == Role::Context;
    let (words, (p, n)) = (row.as_ptr(), (sets.as_ptr(), sets.len()));
    Walked::of(unsafe { c::cb_backward(words, row.len(), place, lookup.in_c(), context, sought.in_c(), p, n) })
}

#[cfg(test)]
mod tests {
    use super::{c, said, Walked};
    use crate::Refusal;

    /// Any number is an answer, a newer library's too.
    #[test]
    fn each_number_is_told() {
        for number in 0..=u8::MAX {
            assert_eq!(Walked::of(c::Step { number, ranout: false, place: 0 }).number(), number);
            assert_eq!(said(c::Said { number, said: 2 }).map_err(Refusal::number), if number == 0 { Ok(2) } else { Err(number) });
        }
    }
}
