//! What a call is refused for.
use std::fmt;

/// Why a call was refused: document 01's table, "When the desk says no". A refused call has changed no word.
///
/// The numbers 4, 5 and 8 to 10 of that table are no refusals of a call but answers of a walk, a match and a run, and stand there.
///
/// ```
/// use conchibaru::{book_reads, may_skip, Lookup, Refusal, Role};
///
/// let no_row = may_skip(&[1, 2, 3], 0, &Lookup::default(), Role::Input, &[]);
/// assert_eq!(no_row, Err(Refusal::Shape));
/// assert_eq!(Refusal::Shape.number(), 1);
/// ```
///
/// Later versions may have more: a `match` has an arm for them.
///
/// ```compile_fail,E0004
/// use conchibaru::Refusal::{self, *};
///
/// fn is_shape(why: Refusal) -> bool {
///     match why {
///         Shape => true,
///         Cursor | Values | Start | Match | Book | Limits | Unknown(_) => false, // and `_ => false`
///     }
/// }
/// ```
#[non_exhaustive]
#[derive(Clone, Copy, Debug, PartialEq, Eq, Hash)]
pub enum Refusal {
    /// 1: a row that isn't whole glyphs, is over [`LIMIT`](crate::LIMIT) or has the wrong length for a run; `d`, `len`, a place or
    /// a start past its row; odd mark sets or records; over 16 records; a run's text over that limit.
    Shape,
    /// 2: the cursor at or past `len`.
    Cursor,
    /// 3: over 63 input values, or over 64 of context.
    Values,
    /// 6: a lookahead start of 0.
    Start,
    /// 7: a run was handed a match that isn't a success, or whose positions or end aren't a match's.
    Match,
    /// 11: the book doesn't read.
    Book,
    /// 12: an allowance over 2,147,483,647 or a depth over 64.
    Limits,
    /// A number that this crate has no name for: the library that was linked is newer than the crate. Ask [`Refusal::number`] and don't
    /// match on the number: a later version of the crate has a name for it.
    Unknown(u8),
}

/// Those that have a name.
const NAMED: [Refusal; 7] =
    [Refusal::Shape, Refusal::Cursor, Refusal::Values, Refusal::Start, Refusal::Match, Refusal::Book, Refusal::Limits];

impl Refusal {
    /// Document 01's number.
    #[must_use]
    pub const fn number(self) -> u8 {
        match self {
            Refusal::Shape => 1,
            Refusal::Cursor => 2,
            Refusal::Values => 3,
            Refusal::Start => 6,
            Refusal::Match => 7,
            Refusal::Book => 11,
            Refusal::Limits => 12,
            Refusal::Unknown(number) => number,
        }
    }

    /// The refusal that a number of the library's is, where it is no answer.
    pub(crate) fn of(number: u8) -> Self {
        NAMED.into_iter().find(|why| why.number() == number).unwrap_or(Self::Unknown(number))
    }
}

impl fmt::Display for Refusal {
    fn fmt(&self, f: &mut fmt::Formatter) -> fmt::Result {
        let why = match self {
            Self::Shape => "a row, place, set or record is out of shape",
            Self::Cursor => "the cursor is at or past the end",
            Self::Values => "too many values",
            Self::Start => "a lookahead start of 0",
            Self::Match => "not a match",
            Self::Book => "the book doesn't read",
            Self::Limits => "an allowance or a depth past its limit",
            Self::Unknown(_) => "this version has no name for it",
        };
        write!(f, "refusal {}: {why}", self.number())
    }
}

impl std::error::Error for Refusal {}

#[cfg(test)]
mod tests {
    use super::Refusal;

    #[test]
    fn each_number_comes_back() {
        for number in [1, 2, 3, 6, 7, 11, 12] {
            let why = Refusal::of(number);
            assert_eq!(why.number(), number);
            assert_ne!(why, Refusal::Unknown(number));
            assert!(why.to_string().starts_with(&format!("refusal {number}: ")), "{why}");
        }
    }

    /// A newer library's number is told, and nothing panics.
    #[test]
    fn a_number_without_a_name_is_told() {
        for number in [0, 4, 5, 8, 13, 14, 15, 255] {
            assert_eq!(Refusal::of(number), Refusal::Unknown(number));
            assert_eq!(Refusal::of(number).number(), number);
        }
        assert_eq!(Refusal::Unknown(13).to_string(), "refusal 13: this version has no name for it");
    }
}
