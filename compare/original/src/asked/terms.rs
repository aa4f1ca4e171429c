//! The words in which the comparison asks and is answered.

/// What a lookup is matched under.
#[derive(Clone, Debug, Default)]
pub struct Setup {
    pub gpos: bool,
    pub auto_zwnj: bool,
    pub auto_zwj: bool,
    pub per_syllable: bool,
    pub mask: u32,
    pub props: u32,
    /// Pairs (set, glyph).
    pub sets: Vec<u16>,
}

/// The input or the context matcher.
#[derive(Clone, Copy, Debug, PartialEq, Eq)]
pub enum Role {
    Input,
    Context,
}

pub const ROLES: [Role; 2] = [Role::Input, Role::Context];

/// The test that a walk looks for a glyph with.
#[derive(Clone, Copy, Debug, PartialEq, Eq)]
pub enum Test {
    Equal(u32),
    Any,
    None,
}

/// An answer to may skip or to may match.
#[derive(Clone, Copy, Debug, PartialEq, Eq)]
pub enum May {
    No,
    Yes,
    Maybe,
}

#[derive(Clone, Copy, Debug, PartialEq, Eq)]
pub enum Verdict {
    Match,
    NotMatch,
    Skip,
}

#[derive(Clone, Copy, Debug, PartialEq, Eq)]
pub enum Walked {
    Found(usize),
    /// Stopped at a glyph; the extent.
    Stopped(usize),
    /// Came to the end; the extent.
    RanOut(usize),
}

/// The case of test of a matcher, which is handed a value for each glyph.
#[derive(Clone, Copy, Debug, PartialEq, Eq)]
pub enum Testing {
    Equal,
    Any,
    Nothing,
}

impl Testing {
    pub fn of(self, value: u32) -> Test {
        match self {
            Self::Equal => Test::Equal(value),
            Self::Any => Test::Any,
            Self::Nothing => Test::None,
        }
    }
}

pub const TESTINGS: [Testing; 3] = [Testing::Equal, Testing::Any, Testing::Nothing];

/// Which matcher is asked; lookahead with its start.
#[derive(Clone, Copy, Debug, PartialEq, Eq)]
pub enum Call {
    Input,
    Lookahead(usize),
    Backtrack,
}

#[derive(Clone, Debug, PartialEq, Eq)]
pub enum Matched {
    /// An input match. There is no total where the original can't hold the
    /// counts that it is made of.
    Input { end: usize, total: Option<u32>, positions: Vec<usize> },
    /// A lookahead or a backtrack match.
    Context(usize),
    /// Stopped or ran out; the extent.
    Lost(usize),
    /// No, and nothing more.
    No,
}
