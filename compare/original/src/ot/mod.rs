//! Stand-in for harfrust's ot/mod.rs: the font data that ot/apply.rs asks for.
#[allow(unused_imports, mismatched_lifetime_syntaxes)]
pub mod apply; // handed over
pub mod cache;
pub mod layout; // handed over
#[allow(unused_imports, mismatched_lifetime_syntaxes)]
pub mod lookup; // handed over
pub mod map;

use crate::buffer::{self, GlyphInfo};
use crate::{set_digest, Mask};
use layout::LayoutTableKind;
use lookup::{CachedLookup, CachedLookupRef, LookupCache};
use read_fonts::types::GlyphId;

/// The lookup flags of the OpenType specification.
pub mod lookup_flags {
    pub const IGNORE_FLAGS: u16 = 0x000E;
    pub const USE_MARK_FILTERING_SET: u16 = 0x0010;
    pub const MARK_ATTACHMENT_TYPE_MASK: u16 = 0xFF00;
}

pub struct OtData<'a> {
    pub(crate) lookups: LookupCache,
    /// Answers for an index that isn't in the book, so that its try is seen.
    pub(crate) missing: Option<CachedLookupRef>,
    /// Pairs (set, glyph), as the port is handed them.
    pub mark_sets: &'a [u16],
}

impl OtData<'_> {
    pub fn lookup(&self, _: LayoutTableKind, index: u16) -> Option<&CachedLookup<'_>> {
        let missing = self.missing.as_ref().map(|lookup| lookup.get());
        self.lookups.get(index).or(missing.map(|lookup| lookup as &CachedLookup<'_>))
    }

    pub fn is_mark_glyph(&self, glyph: u32, set: u16) -> bool {
        self.mark_sets.chunks_exact(2).any(|pair| pair[0] == set && u32::from(pair[1]) == glyph)
    }

    // No glyph has a class of the font's own: the port's glyphs bring theirs.
    pub fn has_glyph_classes(&self) -> bool {
        false
    }

    pub fn glyph_props(&self, _: GlyphId) -> u16 {
        0
    }
}
