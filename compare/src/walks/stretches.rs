//! Long walks: sixteen glyphs and more are passed over one after the other, which
//! our walk crosses quickly (crates/walk_stretch) where those that it looks at are marks.
use super::{glyph, Asker, Case, Way, ALPHABET, WAYS};
use crate::draw;
use crate::random::Random;
use original::glyphs::Glyph;
use original::terms::{Role, Setup, Test, ROLES};
use original::walks::with_row;

const BASE: Glyph = glyph(5, 1, 0, 0, 2);
const FOUND: Glyph = glyph(7, 1, 0, 0, 2);
const LIGATURE: Glyph = glyph(5, 1, 0, 0, 4);
const MARK: Glyph = glyph(9, 1, 0, 0, 0x108);
const OTHER_MARK: Glyph = glyph(8, 1, 0, 0, 0x108);
const MARK_OF_2: Glyph = glyph(9, 1, 0, 0, 0x208);

/// Two blocks of marks, one of bases, one of ligatures.
const BLOCKS: [Glyph; 32] = {
    let mut glyphs = [MARK; 32];
    let mut i = 16;
    while i < 32 {
        glyphs[i] = if i < 24 { BASE } else { LIGATURE };
        i += 1;
    }
    glyphs
};

/// A lookup and glyphs that it passes over as skip Yes, taken by turns.
const PASSED: [(u32, &[Glyph]); 11] = [
    (8, &[MARK]),
    (2, &[BASE]),
    (4, &[LIGATURE]),
    (0xE, &[MARK, BASE, LIGATURE]), // no bit in common
    (0xE, &BLOCKS),
    (0x200, &[MARK]),
    (0x300, &[MARK, MARK_OF_2]), // no bit of the class in common, once 3 is turned
    (0xA00, &[MARK, OTHER_MARK]),
    (0x3_0010, &[OTHER_MARK]),
    (0x3_0018, &[MARK, OTHER_MARK]), // of the set and not, and marks are ignored
    (0x3_0110, &[OTHER_MARK]),       // a class is asked, but a set goes before it
];

/// Set 3 has 9 and others, among pairs of other sets.
fn sets() -> Vec<u16> {
    (0..12).flat_map(|i| [3, 1000 + i, 4, 8]).chain([3, 9]).collect()
}

fn setup(props: u32, sets: Vec<u16>) -> Setup {
    Setup { mask: 1, props, sets, ..Setup::default() }
}

/// Lengths round two blocks, three, four, five and six, as they are and with every
/// glyph of the alphabet in each place; a glyph to be found stands at either end.
pub fn every(asker: &mut Asker) {
    for (props, passed) in PASSED {
        for count in [15, 16, 17, 23, 24, 25, 31, 32, 33, 40, 41, 48, 49] {
            let glyphs: Vec<Glyph> = passed.iter().cycle().take(count).copied().collect();
            let row = [&[FOUND][..], &glyphs, &[FOUND]].concat();
            let case = Case::new(setup(props, sets()), row, count + 2, 0);
            asker.both_ways(&case, "walks over long stretches");
            for place in 1..=count {
                for odd in ALPHABET {
                    let mut row = case.glyphs.clone();
                    row[place] = odd;
                    let case = Case::new(setup(props, sets()), row, count + 2, 0);
                    asker.both_ways(&case, "walks over long stretches with a glyph otherwise");
                }
            }
        }
    }
}

/// Up to 200 glyphs with up to three otherwise, under drawn settings.
pub fn random(asker: &mut Asker, random: &mut Random) {
    let (props, passed) = random.pick(&PASSED);
    let most = if random.one_in(8) { 187 } else { 50 };
    let count = 14 + random.below(most) as usize;
    let mut row: Vec<Glyph> = passed.iter().cycle().take(count).copied().collect();
    for _ in 0..random.below(4) {
        let place = random.below(count as u64) as usize;
        row[place] = draw::glyph(random);
    }
    let setup = Setup { props, sets: sets(), mask: 1, ..draw::setup(random) };
    let len = count - random.below(3) as usize;
    let case = Case::new(setup, row, len, draw::syllable(random));
    asker.both_ways(&case, "walks over random long stretches");
}

impl Asker {
    /// Forward from the first glyph and backward from the last, for id 7.
    fn both_ways(&mut self, case: &Case, input: &'static str) {
        with_row(&case.setup, &case.glyphs, case.len, case.syllable, |row| {
            for way in WAYS {
                for role in ROLES {
                    let place = if way == Way::Forward { 0 } else { case.glyphs.len() - 1 };
                    self.summary.input(input);
                    self.walk(case, row, (way, role), place, case.sign(Test::Equal(7), 0));
                }
            }
        });
    }
}

/// A walk that tells a wrong answer, one of crates/walk_stretch/must-fail, from the
/// right one.
pub struct Witness {
    pub case: Case,
    pub way: Way,
    pub role: Role,
    pub place: usize,
}

pub fn witnesses() -> Vec<Witness> {
    let marks = |n: usize| vec![MARK; n];
    let others = |n: usize| vec![OTHER_MARK; n];
    let forward = |props: u32, sets: &[u16], parts: &[&[Glyph]]| {
        let row = [&[&[BASE][..]], parts, &[&[FOUND]]].concat().concat();
        let len = row.len();
        let case = Case::new(setup(props, sets.to_vec()), row, len, 0);
        Witness { case, way: Way::Forward, role: Role::Input, place: 0 }
    };
    let backward = |props: u32, sets: &[u16], row: &[&[Glyph]]| {
        let row = row.concat();
        let place = row.len();
        let case = Case::new(setup(props, sets.to_vec()), row, place, 0);
        Witness { case, way: Way::Backward, role: Role::Context, place }
    };
    vec![
        // a_block_has_the_bits_of_any_glyph, the_last_glyph_of_a_block_isnt_looked_at
        forward(8, &[], &[&marks(7), &[BASE], &marks(16)]),
        // marks_of_the_class_asked_are_passed
        forward(0x100, &[], &[&marks(24)]),
        // a_long_walk_forward_begins_at_the_rows_end
        forward(8, &[], &[&marks(3), &[BASE], &marks(36)]),
        // what_the_digest_admits_is_outside
        forward(0x3_0010, &[3, 9], &[&marks(24)]),
        // a_digest_is_of_the_other_sets
        forward(0x3_0010, &[3, 9], &[&others(8), &marks(16)]),
        // a_base_is_outside_the_set
        forward(0x3_0010, &[3, 9], &[&others(16), &[BASE], &others(7)]),
        // a_long_walk_backward_begins_at_the_rows_start
        backward(8, &[], &[&marks(36), &[BASE], &marks(3)]),
        // a_long_walk_has_half_the_sets
        backward(0x3_0010, &[3, 8, 3, 9], &[&[FOUND], &marks(24)]),
    ]
}
