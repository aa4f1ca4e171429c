//! Glyphs, lookups and mark sets, drawn so that every clause decides often.
use crate::random::Random;
use original::glyphs::{Glyph, SUBSTITUTED};
use original::terms::{Setup, Test};

/// Few, so that values are met; some are as wide as a set's glyph or wider,
/// and one differs from another only above 16 bits.
const IDS: [u32; 8] = [5, 7, 9, 10, 0xFFFF, 0x1_0000, 0x1_0009, u32::MAX];
const MASKS: [u32; 8] = [1, 1, 1, 2, 3, 0, 1 << 31, u32::MAX];
const SYLLABLES: [u8; 5] = [0, 1, 1, 2, 255];
const SETS: [u16; 4] = [0, 1, 2, u16::MAX];

pub fn id(random: &mut Random) -> u32 {
    random.pick(&IDS)
}

pub fn syllable(random: &mut Random) -> u8 {
    random.pick(&SYLLABLES)
}

pub fn glyph(random: &mut Random) -> Glyph {
    let lig = random.next() as u32;
    if random.one_in(24) {
        return [random.next() as u32, random.next() as u32, random.next() as u32, lig];
    }
    let mut flags = random.pick(&[0, 0, 0, 0, 0, 1, 1, 1, 1, 3, 5, 9, 15, 2, 4, 8]);
    if random.one_in(8) {
        flags |= random.pick(&[0x10, 0x80, 0xF0]);
    }
    let class = random.pick(&[0, 0, 2, 4, 8, 8, 8, 8, 6, 0xC]);
    let attachment = random.pick(&[0, 0x100, 0x100, 0x200, 0xFF00]);
    let unnamed = match random.one_in(4) {
        true => random.pick(&[0x01, 0x10, 0x20, 0x40, 0x80, 0xF1]),
        false => 0,
    };
    let syllable = u32::from(syllable(random));
    let word2 = flags << 24 | syllable << 16 | attachment | class | unnamed;
    [id(random), random.pick(&MASKS), word2, lig]
}

/// Of a palette of few glyphs, so that walks often pass over many.
pub fn row(random: &mut Random, glyphs: usize) -> Vec<Glyph> {
    let palette: Vec<Glyph> = (0..1 + random.below(4)).map(|_| glyph(random)).collect();
    let mut next = || match random.one_in(8) {
        true => glyph(random),
        false => random.pick(&palette),
    };
    (0..glyphs).map(|_| next()).collect()
}

pub fn words(row: &[Glyph]) -> Vec<u32> {
    row.concat()
}

pub fn glyphs(words: &[u32]) -> Vec<Glyph> {
    words.chunks(4).map(|word| [word[0], word[1], word[2], word[3]]).collect()
}

/// The glyph without the bit that means something to the original alone.
pub fn without_substituted(&[id, mask, word2, word3]: &Glyph) -> Glyph {
    [id, mask, word2 & !SUBSTITUTED, word3]
}

pub fn sets(random: &mut Random) -> Vec<u16> {
    let pairs = match random.one_in(100) {
        true => 200,
        false => random.pick(&[0, 1, 2, 3, 6]),
    };
    let glyphs = [5, 7, 9, 10, 0, u16::MAX];
    (0..pairs).flat_map(|_| [random.pick(&SETS), random.pick(&glyphs)]).collect()
}

pub fn setup(random: &mut Random) -> Setup {
    let settings = random.below(16);
    let flags = match random.below(20) {
        0..=2 => 0,
        3 => 2,
        4 => 4,
        5..=6 => 8,
        7 => 0xE,
        8..=11 => 0x10,
        12 => 0x12,
        13..=14 => 0x100,
        15 => 0x200,
        16 => 0x110,
        17 => 0xFF00,
        18 => 1,
        _ => random.below(1 << 16) as u32,
    };
    Setup {
        gpos: settings & 1 != 0,
        auto_zwnj: settings & 2 != 0,
        auto_zwj: settings & 4 != 0,
        per_syllable: settings & 8 != 0,
        mask: random.pick(&MASKS),
        props: u32::from(random.pick(&SETS)) << 16 | flags,
        sets: sets(random),
    }
}

pub fn test(random: &mut Random) -> Test {
    match random.below(4) {
        0 | 1 => Test::Equal(id(random)),
        2 => Test::Any,
        _ => Test::None,
    }
}
