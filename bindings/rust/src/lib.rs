//! Conchibaru from Rust: a glyph matcher that is proved to meet its definitions, after harfrust 0.15.0, behind safe calls.
//!
//! The proved library is `libdesk.a`; `rt lib` in crates/desk makes it, for x86-64 Linux. This crate has no other dependency. It adds
//! types and names, and decides nothing: each answer is the library's. docs/01-scope.md ("document 01") has the rules.
//!
//! - **Any words may be handed in.** Every call ends, stays within its slices, and refuses what it doesn't accept by document
//!   01's number ([`Refusal`]). None panics, none allocates but [`row`], and none keeps anything, so that threads may call at once.
//! - **Later versions** may have more refusals, endings and tests, so [`Refusal`], [`Ending`] and [`Test`] are `#[non_exhaustive]`. A
//!   number that this version has no name for, as a newer library may answer, is told as such ([`Refusal::Unknown`],
//!   [`RunAnswer::Unknown`]). [`Refusal`] and [`Exhausted`] are [`std::error::Error`]s.
//! - **Stack.** [`run`] is the only call that nests. On x86-64 it took 1,200 bytes for each level of [`Given::depth`]. At depth 64 the
//!   smallest thread on which it ended had 88 KB (86,464 bytes where the caller was optimized), found by halving
//!   [`std::thread::Builder::stack_size`]; every other call ended on the smallest thread that the standard library makes, of 24 KB
//!   there. Measured, not promised; tests/stack.rs runs depth 64 on 128 KB.
//! - **Names are harfrust's** where it has one: [`match_input`], [`match_lookahead`], [`match_backtrack`], [`may_skip`],
//!   [`may_match`], [`SetDigest`], [`RuleSetDigest`], [`Budget`]. Its `SkippingIterator` is [`forward`] and [`backward`], its
//!   `MatchResult` is [`Verdict`], its `ApplyContext` is a [`Lookup`] beside a [`Text`], and its `apply_lookup` is [`run`].
//! - **A row** is a slice of words, four to a glyph ([`Glyph`]), of at most [`LIMIT`] glyphs. Places count glyphs.
//!
//! ```
//! use conchibaru::{match_input, row, Glyph, InputMatch, Lookup, Test, Text};
//!
//! // Card K1: ids 5, 7 and the value 7.
//! let coming = row(&[Glyph::new(5), Glyph::new(7)]);
//! let answer = match_input(&Text::coming(&coming), &Lookup::default(), &[], Test::Equal, &[7]);
//! let InputMatch::Matched(m) = answer else { panic!("{answer:?}") };
//! assert_eq!((m.end, m.positions()), (2, &[0, 1][..]));
//! ```

/// README.md's example runs with the others.
#[cfg(doctest)]
#[doc = include_str!("../README.md")]
mod readme {}

mod budget;
mod c;
mod digests;
mod glyphs;
mod matches;
mod refusal;
mod runs;
mod walks;

/// The version of this crate, of include/conchibaru.h and of the library that they call: one number for the three.
pub const VERSION: &str = env!("CARGO_PKG_VERSION");

pub use budget::{Budget, Exhausted};
pub use digests::{RuleSetDigest, SetDigest};
pub use glyphs::{flags, lookup_flags, props, row, Glyph, LIMIT, WORDS};
pub use matches::{match_backtrack, match_input, match_lookahead, ContextMatch, InputMatch, Match, Text, MAX_CONTEXT_LENGTH};
pub use refusal::Refusal;
pub use runs::{book_reads, run, Ending, Given, Run, RunAnswer, Switches, MAX_NESTING_LEVEL, MOST_ALLOWANCE, RUN_WORDS};
pub use walks::{
    backward, forward, may_match, may_skip, verdict, Lookup, MayMatch, MaySkip, Role, Sought, Table, Test, Verdict, Walked,
};
