//! Rows of words as glyphs. Nothing here calls the library: it is the layout of document 01, for writing rows down.

/// Words a glyph.
pub const WORDS: usize = 4;

/// Glyphs a row, at most.
pub const LIMIT: usize = 2048;

/// Bits of a glyph's flags.
pub mod flags {
    /// A default ignorable.
    pub const IGNORABLE: u8 = 1;
    /// A ZWNJ.
    pub const ZWNJ: u8 = 2;
    /// A ZWJ.
    pub const ZWJ: u8 = 4;
    /// A hidden glyph.
    pub const HIDDEN: u8 = 8;
}

/// Bits of a glyph's props; the high byte is the mark attachment class.
pub mod props {
    /// A base.
    pub const BASE: u16 = 2;
    /// A ligature.
    pub const LIGATURE: u16 = 4;
    /// A mark.
    pub const MARK: u16 = 8;
}

/// Bits of a lookup's props; 0xFF00 is the attachment class asked, and the high half the index of the filtering set.
pub mod lookup_flags {
    /// Bases are ignored.
    pub const IGNORE_BASES: u32 = 2;
    /// Ligatures are ignored.
    pub const IGNORE_LIGATURES: u32 = 4;
    /// Marks are ignored.
    pub const IGNORE_MARKS: u32 = 8;
    /// Marks outside the filtering set are ignored.
    pub const USE_FILTERING_SET: u32 = 16;
}

/// A glyph, field by field.
///
/// ```
/// use conchibaru::{props, Glyph};
///
/// let mark = Glyph { props: props::MARK, syllable: 2, ..Glyph::new(9) };
/// assert_eq!(mark.words(), [9, 1, 0x0002_0008, 0x0000_0101]);
/// assert_eq!(Glyph::from_words(mark.words()), mark);
/// ```
#[derive(Clone, Copy, Debug, Default, PartialEq, Eq, Hash)]
pub struct Glyph {
    /// The glyph id.
    pub id: u32,
    /// The mask.
    pub mask: u32,
    /// Bits of [`flags`].
    pub flags: u8,
    /// The syllable.
    pub syllable: u8,
    /// Bits of [`props`], and the mark attachment class.
    pub props: u16,
    /// The id of the ligature that it belongs to, or 0.
    pub ligature_id: u8,
    /// The component of that ligature, or 0.
    pub component: u8,
    /// Its component count.
    pub count: u8,
    /// Its component count in ligation.
    pub count_in_ligation: u8,
}

impl Glyph {
    /// A glyph of mask 1 that counts as one component; everything else 0.
    #[must_use]
    pub const fn new(id: u32) -> Self {
        let (flags, syllable, props, ligature_id, component) = (0, 0, 0, 0, 0);
        Self { id, mask: 1, flags, syllable, props, ligature_id, component, count: 1, count_in_ligation: 1 }
    }

    /// Its four words.
    #[must_use]
    pub const fn words(self) -> [u32; WORDS] {
        let [high, low] = self.props.to_be_bytes();
        [
            self.id,
            self.mask,
            u32::from_be_bytes([self.flags, self.syllable, high, low]),
            u32::from_be_bytes([self.ligature_id, self.component, self.count, self.count_in_ligation]),
        ]
    }

    /// The glyph that four words are; any are one.
    #[must_use]
    pub const fn from_words(words: [u32; WORDS]) -> Self {
        let [flags, syllable, high, low] = words[2].to_be_bytes();
        let [ligature_id, component, count, count_in_ligation] = words[3].to_be_bytes();
        let props = u16::from_be_bytes([high, low]);
        Self { id: words[0], mask: words[1], flags, syllable, props, ligature_id, component, count, count_in_ligation }
    }
}

/// The words of some glyphs: a row, where they are at most [`LIMIT`].
///
/// ```
/// use conchibaru::{row, Glyph};
///
/// assert_eq!(row(&[Glyph::new(5), Glyph::new(7)]), [5, 1, 0, 0x101, 7, 1, 0, 0x101]);
/// ```
#[must_use]
pub fn row(glyphs: &[Glyph]) -> Vec<u32> {
    glyphs.iter().flat_map(|glyph| glyph.words()).collect()
}

#[cfg(test)]
mod tests {
    use super::{Glyph, WORDS};

    /// Each byte of the words is one field's, and comes back.
    #[test]
    fn any_words_are_a_glyph() {
        for word in 0..WORDS {
            for byte in 0..4 {
                let mut words = [0; WORDS];
                words[word] = 0xA5 << (8 * byte);
                let glyph = Glyph::from_words(words);
                assert_ne!(glyph, Glyph::default());
                assert_eq!(glyph.words(), words);
            }
        }
    }
}
