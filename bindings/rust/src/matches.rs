//! The three matchers.
use crate::c;
use crate::{Lookup, Refusal, Test};
use std::fmt;

/// Positions of a match, at most.
pub const MAX_CONTEXT_LENGTH: usize = 64;

/// A text: of `done` the first `d` glyphs, and `coming`, of which `len` glyphs count, with the cursor `idx`.
#[derive(Clone, Copy, Debug, PartialEq, Eq, Hash)]
pub struct Text<'a> {
    /// The row of glyphs that are done.
    pub done: &'a [u32],
    /// How many of them count.
    pub d: usize,
    /// The row in which the cursor stands.
    pub coming: &'a [u32],
    /// How many of its glyphs count.
    pub len: usize,
    /// The cursor.
    pub idx: usize,
}

impl<'a> Text<'a> {
    /// Nothing done, all of a row coming, and the cursor at its first glyph.
    #[must_use]
    pub const fn coming(coming: &'a [u32]) -> Self {
        Self { done: &[], d: 0, coming, len: coming.len() / crate::WORDS, idx: 0 }
    }
}

/// What an input match found.
#[derive(Clone, Copy, PartialEq, Eq, Hash)]
pub struct Match {
    /// The last position + 1.
    pub end: usize,
    /// The cursor glyph's component count and each later glyph's count in ligation, added up.
    pub total: u16,
    /// How many positions there are.
    pub count: usize,
    /// The positions, rising, the cursor first; the slots after them are 0.
    pub slots: [u16; MAX_CONTEXT_LENGTH],
}

impl Match {
    /// The positions that are counted.
    #[must_use]
    pub fn positions(&self) -> &[u16] {
        &self.slots[..self.count.min(MAX_CONTEXT_LENGTH)]
    }
}

impl fmt::Debug for Match {
    fn fmt(&self, f: &mut fmt::Formatter) -> fmt::Result {
        let Self { end, total, .. } = self;
        f.debug_struct("Match").field("end", end).field("total", total).field("positions", &self.positions()).finish()
    }
}

/// An input match's answer.
#[must_use = "a call that matches nothing says so in its answer alone"]
#[derive(Clone, Copy, Debug, PartialEq, Eq, Hash)]
pub enum InputMatch {
    /// Every value was matched.
    Matched(Match),
    /// A walk stopped or ran out, with this extent.
    Lost(usize),
    /// The ligature rule turned a glyph down.
    Ligature,
    /// Nothing was matched.
    Refused(Refusal),
}

impl InputMatch {
    /// Document 01's number: 0, 4, 5, or the refusal's.
    #[must_use]
    pub const fn number(&self) -> u8 {
        match self {
            Self::Matched(_) => 0,
            Self::Lost(_) => 4,
            Self::Ligature => 5,
            Self::Refused(why) => why.number(),
        }
    }

    fn of(m: c::Matched) -> Self {
        match m.number {
            0 => Self::Matched(Match { end: m.end, total: m.total, count: m.count, slots: m.positions }),
            4 => Self::Lost(m.end),
            5 => Self::Ligature,
            number => Self::Refused(Refusal::of(number)),
        }
    }

    pub(crate) fn in_c(&self) -> c::Matched {
        let bare = c::Matched { number: self.number(), total: 0, end: 0, count: 0, positions: [0; MAX_CONTEXT_LENGTH] };
        match self {
            Self::Matched(m) => c::Matched { number: 0, total: m.total, end: m.end, count: m.count, positions: m.slots },
            Self::Lost(extent) => c::Matched { end: *extent, ..bare },
            Self::Ligature | Self::Refused(_) => bare,
        }
    }
}

/// A lookahead or backtrack match's answer.
#[must_use = "a call that matches nothing says so in its answer alone"]
#[derive(Clone, Copy, Debug, PartialEq, Eq, Hash)]
pub enum ContextMatch {
    /// Every value was matched: ahead the last place + 1, back the last place.
    Matched(usize),
    /// A walk stopped or ran out, with this extent.
    Lost(usize),
    /// Nothing was matched.
    Refused(Refusal),
}

impl ContextMatch {
    /// Document 01's number: 0, 4, or the refusal's.
    #[must_use]
    pub const fn number(self) -> u8 {
        match self {
            Self::Matched(_) => 0,
            Self::Lost(_) => 4,
            Self::Refused(why) => why.number(),
        }
    }

    fn of(placed: c::Placed) -> Self {
        match placed.number {
            0 => Self::Matched(placed.place),
            4 => Self::Lost(placed.place),
            number => Self::Refused(Refusal::of(number)),
        }
    }
}

/// Calls a matcher on a text. SAFETY: its pointers come from slices of the lengths that it is told, and it writes to none.
macro_rules! call {
    ($name:ident, $text:expr, [$($start:expr)?], $lookup:expr, $sets:expr, $test:expr, $values:expr) => {{
        let Text { done, d, coming, len, idx } = *$text;
        unsafe {
            c::$name(
                done.as_ptr(),
                done.len(),
                d,
                coming.as_ptr(),
                coming.len(),
                len,
                idx,
                $($start,)?
                $lookup.in_c(),
                $sets.as_ptr(),
                $sets.len(),
                $test as u8,
                $values.as_ptr(),
                $values.len(),
            )
        }
    }};
}

/// Matches up to 63 values after the cursor, whose own glyph isn't tested. Refused, in this order, by [`Refusal::Shape`],
/// [`Refusal::Cursor`], [`Refusal::Values`]; the walk then meets [`InputMatch::Lost`] or [`InputMatch::Ligature`].
///
/// ```
/// use conchibaru::{lookup_flags, match_input, props, row, Glyph, InputMatch, Lookup, Test, Text};
///
/// // Cards K2 and K3: ids 5, 9, 7, of which 9 is a mark.
/// let mark = Glyph { props: props::MARK, ..Glyph::new(9) };
/// let coming = row(&[Glyph::new(5), mark, Glyph::new(7)]);
/// let text = Text::coming(&coming);
/// let ignoring = Lookup { props: lookup_flags::IGNORE_MARKS, ..Lookup::default() };
/// let answer = match_input(&text, &ignoring, &[], Test::Equal, &[7]);
/// assert!(matches!(answer, InputMatch::Matched(m) if m.end == 3 && m.positions() == [0, 2]));
/// assert_eq!(match_input(&text, &Lookup::default(), &[], Test::Equal, &[7]), InputMatch::Lost(2));
/// ```
pub fn match_input(text: &Text, lookup: &Lookup, sets: &[u16], test: Test, values: &[u32]) -> InputMatch {
    InputMatch::of(call!(cb_match_input, text, [], lookup, sets, test, values))
}

/// Matches up to 64 values from the glyph at `start` on. With no values the answer is the start. Refused as [`match_input`] is, but
/// that 64 values are taken and that a start of 0 is [`Refusal::Start`].
///
/// ```
/// use conchibaru::{match_lookahead, row, ContextMatch, Glyph, Lookup, Refusal, Test, Text};
///
/// let coming = row(&[Glyph::new(5), Glyph::new(7)]);
/// let (text, lookup) = (Text::coming(&coming), Lookup::default());
/// assert_eq!(match_lookahead(&text, 1, &lookup, &[], Test::Equal, &[7]), ContextMatch::Matched(2));
/// assert_eq!(match_lookahead(&text, 1, &lookup, &[], Test::Equal, &[8]), ContextMatch::Lost(2));
/// assert_eq!(match_lookahead(&text, 0, &lookup, &[], Test::Equal, &[]), ContextMatch::Refused(Refusal::Start));
/// ```
pub fn match_lookahead(text: &Text, start: usize, lookup: &Lookup, sets: &[u16], test: Test, values: &[u32]) -> ContextMatch {
    ContextMatch::of(call!(cb_match_lookahead, text, [start], lookup, sets, test, values))
}

/// Matches up to 64 values, the nearest first, backward over `done`, under GPOS over `coming` before the cursor. With no values the
/// answer is that row's length. Refused as [`match_input`] is, but that 64 values are taken.
///
/// ```
/// use conchibaru::{match_backtrack, row, ContextMatch, Glyph, Lookup, Test, Text};
///
/// let (done, coming) = (row(&[Glyph::new(3), Glyph::new(4)]), Glyph::new(5).words());
/// let text = Text { done: &done, d: 2, ..Text::coming(&coming) };
/// assert_eq!(match_backtrack(&text, &Lookup::default(), &[], Test::Equal, &[4, 3]), ContextMatch::Matched(0));
/// assert_eq!(match_backtrack(&text, &Lookup::default(), &[], Test::Equal, &[]), ContextMatch::Matched(2));
/// ```
pub fn match_backtrack(text: &Text, lookup: &Lookup, sets: &[u16], test: Test, values: &[u32]) -> ContextMatch {
    ContextMatch::of(call!(cb_match_backtrack, text, [], lookup, sets, test, values))
}

#[cfg(test)]
mod tests {
    use super::{c, ContextMatch, InputMatch, MAX_CONTEXT_LENGTH};

    /// Any number is an answer, a newer library's too, and goes to a run as it came.
    #[test]
    fn each_number_is_told() {
        for number in 0..=u8::MAX {
            let input = InputMatch::of(c::Matched { number, total: 0, end: 0, count: 0, positions: [0; MAX_CONTEXT_LENGTH] });
            assert_eq!((input.number(), input.in_c().number), (number, number));
            assert_eq!(ContextMatch::of(c::Placed { number, place: 0 }).number(), number);
        }
    }
}
