//! Ways to take a lookup or a glyph for another, which questions, walks and
//! matchers share.
use original::terms::Setup;

pub const LOOKUPS: [(&str, fn(&mut Setup)); 13] = [
    ("the lookup mask isn't looked at", |setup| setup.mask = u32::MAX),
    ("syllables aren't tested", |setup| setup.per_syllable = false),
    ("auto-ZWNJ is off", |setup| setup.auto_zwnj = false),
    ("auto-ZWJ is off", |setup| setup.auto_zwj = false),
    ("GPOS is taken for GSUB", |setup| setup.gpos = false),
    ("GSUB is taken for GPOS", |setup| setup.gpos = true),
    ("bases are never ignored", |setup| setup.props &= !2),
    ("ligatures are never ignored", |setup| setup.props &= !4),
    ("marks are never ignored", |setup| setup.props &= !8),
    ("no attachment class is asked", |setup| setup.props &= !0xFF00),
    ("no mark filtering set is used", |setup| setup.props &= !0x10),
    ("the mark filtering set is the first", |setup| setup.props &= 0xFFFF),
    ("no glyph is in a mark set", |setup| {
        if setup.sets.len() % 2 == 0 {
            setup.sets.clear();
        }
    }),
];

/// Of a glyph's first three words.
pub const GLYPHS: [(&str, fn(&mut [u32])); 6] = [
    ("default ignorables are ordinary", |glyph| glyph[2] &= !(1 << 24)),
    ("ZWNJ is no ZWNJ", |glyph| glyph[2] &= !(2 << 24)),
    ("ZWJ is no ZWJ", |glyph| glyph[2] &= !(4 << 24)),
    ("hidden glyphs aren't hidden", |glyph| glyph[2] &= !(8 << 24)),
    ("a substituted ignorable is ordinary", |glyph| {
        if glyph[2] & 0x10 != 0 {
            glyph[2] &= !(1 << 24);
        }
    }),
    ("an id has 16 bits", |glyph| glyph[0] &= 0xFFFF),
];

/// Does it to each whole glyph of a row.
pub fn each(words: &mut [u32], change: fn(&mut [u32])) {
    words.chunks_exact_mut(4).for_each(change);
}
