//! What the comparison asks of the original, in the port's terms. The
//! handed-over types are private to this crate, so each gets a thin cover.
pub mod allowances;
pub mod digests;
pub mod glyphs;
pub mod hook;
pub mod matches;
pub mod runs;
pub mod terms;
pub mod walks;
