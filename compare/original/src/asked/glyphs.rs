//! The port's glyphs of four words, as the original holds them.
use crate::buffer::{GlyphInfo, UnicodeProps};
use crate::unicode::GeneralCategory;

/// Id; mask; flag byte, syllable and props; the ligature's numbers.
pub type Glyph = [u32; 4];

/// The props bit that has a meaning for the original's walks and none in the
/// port: a glyph with it is not default ignorable, whatever its flag says.
pub const SUBSTITUTED: u32 = 0x10;

/// The props bit with which the original says that a glyph's count in ligation
/// is 0. The port has that count as a number, and the bit means nothing there.
const MULTIPLIED: u32 = 0x40;
const LIGATURE: u32 = 4;

/// The port's flags beside the original's.
const FLAGS: [(u32, UnicodeProps); 4] = [
    (1, UnicodeProps::IGNORABLE),
    (2, UnicodeProps::CF_ZWNJ),
    (4, UnicodeProps::CF_ZWJ),
    (8, UnicodeProps::HIDDEN),
];
const JOINERS: u32 = 2 | 4;

/// The category of a glyph that is no joiner. What counts is that it isn't Cf.
pub const ORDINARY: GeneralCategory = GeneralCategory::OTHER_LETTER;

/// Without its ligature's numbers, which no walk reads. ZWNJ and ZWJ count in
/// the original only on characters of category Cf, so a glyph with either is
/// given that.
pub fn info(glyph: &Glyph) -> GlyphInfo {
    let joins = glyph[2] >> 24 & JOINERS != 0;
    info_of(glyph, if joins { GeneralCategory::FORMAT } else { ORDINARY })
}

pub fn info_of(glyph: &Glyph, category: GeneralCategory) -> GlyphInfo {
    let flags = glyph[2] >> 24;
    let held = FLAGS.iter().filter(|(flag, _)| flags & flag != 0);
    let unicode = held.fold(u16::from(category.0), |props, (_, held)| props | held.bits());
    let mut info = GlyphInfo { glyph_id: glyph[0], mask: glyph[1], ..GlyphInfo::default() };
    info.set_glyph_props(glyph[2] as u16);
    info.set_syllable((glyph[2] >> 16) as u8);
    info.set_unicode_props(unicode);
    info
}

// ---- the ligature's numbers

pub fn ligature_id(glyph: &Glyph) -> u8 {
    (glyph[3] >> 24) as u8
}

pub fn component(glyph: &Glyph) -> u8 {
    (glyph[3] >> 16) as u8
}

pub fn count(glyph: &Glyph) -> u32 {
    glyph[3] >> 8 & 0xFF
}

pub fn count_in_ligation(glyph: &Glyph) -> u32 {
    glyph[3] & 0xFF
}

/// The original keeps three bits of an id and four of a component. Matching
/// asks only whether two are equal and whether one is 0, so wider numbers are
/// renamed, as long as no more than 7 ids and 15 components are in use.
pub struct Names {
    ids: [u8; 256],
    components: [u8; 256],
}

impl Names {
    pub fn of<'a>(text: impl Iterator<Item = &'a Glyph> + Clone) -> Option<Self> {
        Some(Self {
            ids: rename(text.clone().map(ligature_id), 7)?,
            components: rename(text.map(component), 15)?,
        })
    }
}

fn rename(numbers: impl Iterator<Item = u8> + Clone, most: u8) -> Option<[u8; 256]> {
    let mut names = [0; 256];
    if numbers.clone().all(|number| number <= most) {
        (0..=most).for_each(|number| names[usize::from(number)] = number);
        return Some(names);
    }
    let mut used = 0;
    for number in numbers {
        let name = &mut names[usize::from(number)];
        if number != 0 && *name == 0 {
            used += 1;
            *name = used;
        }
    }
    (used <= most).then_some(names)
}

/// With the ligature's numbers, and whether the original's count is the one
/// wanted: the cursor's own count, or another glyph's count in ligation. A
/// ligature may count up to 15, an attached glyph 1, or 0 in ligation, and any
/// other glyph 1.
pub fn named_info(glyph: &Glyph, names: &Names, is_cursor: bool) -> (GlyphInfo, bool) {
    let mut info = info(glyph);
    let id = names.ids[usize::from(ligature_id(glyph))];
    let component = names.components[usize::from(component(glyph))];
    let wanted = if is_cursor { count(glyph) } else { count_in_ligation(glyph) };
    let mut props = glyph[2] & !MULTIPLIED;
    let held = match component {
        0 if glyph[2] & LIGATURE != 0 && wanted <= 15 => {
            info.set_lig_props_for_ligature(id, wanted as u8);
            true
        }
        _ => {
            info.set_lig_props_for_mark(id, component);
            if component != 0 && wanted == 0 {
                props |= MULTIPLIED;
            }
            wanted == 1 || (wanted == 0 && component != 0 && !is_cursor)
        }
    };
    info.set_glyph_props(props as u16);
    (info, held)
}

/// With the ligature's numbers as the original itself would write them, cut to
/// their bits, and every bit of the props as it is.
pub fn written_info(glyph: &Glyph) -> GlyphInfo {
    let mut info = info(glyph);
    let [id, component] = [ligature_id(glyph), component(glyph)];
    match component {
        0 if glyph[2] & LIGATURE != 0 => info.set_lig_props_for_ligature(id, count(glyph) as u8),
        _ => info.set_lig_props_for_mark(id, component),
    }
    info
}
