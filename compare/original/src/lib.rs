//! The crate root of the original: stands in for harfrust's lib.rs.
//!
//! `compare/run` links the handed-over files in beside these: buffer, budget,
//! set_digest, ot/apply, ot/layout and ot/lookup/{mod,context,coverage,gsub},
//! unchanged. Everything else under src/ is a stand-in for a module that was
//! not handed over, except `asked`, which puts the comparison's questions to
//! them.

extern crate alloc;

// Each handed-over module is part of a larger crate, much of which isn't here.
#[allow(dead_code, unused_macros, non_camel_case_types, mismatched_lifetime_syntaxes)]
#[macro_use]
mod buffer; // handed over
#[allow(dead_code)]
mod budget; // handed over
#[allow(dead_code)]
mod ot;
mod set_digest; // handed over

mod aat;
mod hint;
mod once;
mod plan;
mod unicode;

mod asked;

pub use asked::*;
use buffer::{Buffer, GlyphInfo};

type Mask = u32;

bitflags::bitflags! {
    #[derive(Default, Debug, Clone, Copy)]
    pub struct BufferFlags: u32 {
        const PRODUCE_UNSAFE_TO_CONCAT = 0x40;
        const PRODUCE_SAFE_TO_INSERT_TATWEEL = 0x80;
    }
}

bitflags::bitflags! {
    #[derive(Default, Debug, Clone, Copy)]
    pub struct SerializeFlags: u8 {
        const NO_CLUSTERS = 1;
        const NO_POSITIONS = 2;
        const NO_GLYPH_NAMES = 4;
        const GLYPH_EXTENTS = 8;
        const GLYPH_FLAGS = 16;
        const NO_ADVANCES = 32;
    }
}

#[derive(Debug, Clone, Copy, PartialEq, Eq)]
pub enum ClusterLevel {
    MonotoneGraphemes,
    MonotoneCharacters,
    Characters,
    Graphemes,
}

impl ClusterLevel {
    fn new(level: u32) -> Self {
        match level {
            0 => Self::MonotoneGraphemes,
            1 => Self::MonotoneCharacters,
            2 => Self::Characters,
            _ => Self::Graphemes,
        }
    }
    fn is_monotone(self) -> bool {
        matches!(self, Self::MonotoneGraphemes | Self::MonotoneCharacters)
    }
    fn is_graphemes(self) -> bool {
        matches!(self, Self::MonotoneGraphemes | Self::Graphemes)
    }
}

#[derive(Debug, Clone, Copy, PartialEq, Eq, Default)]
pub enum Direction {
    #[default]
    Invalid,
    LeftToRight,
}

impl Direction {
    fn from_script(_: Script) -> Option<Self> {
        None
    }
}

#[derive(Debug, Clone, Copy, PartialEq, Eq)]
pub struct Script(u32);

impl Script {
    pub const COMMON: Self = Self(0);
    pub const INHERITED: Self = Self(1);
    pub const UNKNOWN: Self = Self(2);
}

#[derive(Debug, Clone)]
pub struct Language;

#[derive(Default)]
pub struct U32Set(alloc::collections::BTreeSet<u32>);

impl U32Set {
    fn clear(&mut self) {
        self.0.clear();
    }
    fn extend_unsorted(&mut self, it: impl IntoIterator<Item = u32>) {
        self.0.extend(it);
    }
}

#[derive(Clone, Copy)]
pub struct Scale;

impl Scale {
    fn scale_x_f(&self, value: f32) -> i32 {
        value as i32
    }
    fn scale_y_f(&self, value: f32) -> i32 {
        value as i32
    }
}

#[derive(Clone, Copy)]
pub struct LayoutData<'a> {
    pub ot: &'a ot::OtData<'a>,
}

pub struct GlyphExtents {
    pub x_bearing: i32,
    pub y_bearing: i32,
    pub width: i32,
    pub height: i32,
}

pub struct ShaperFont<'a, 'b> {
    ot: &'a ot::OtData<'a>,
    pub scale: Scale,
    other: core::marker::PhantomData<&'b ()>,
}

impl<'a> ShaperFont<'a, '_> {
    fn layout(&self) -> LayoutData<'a> {
        LayoutData { ot: self.ot }
    }
    fn glyph_name(&self, _: read_fonts::types::GlyphId) -> Option<String> {
        None
    }
    fn glyph_extents(&self, _: read_fonts::types::GlyphId) -> Option<GlyphExtents> {
        None
    }
}
