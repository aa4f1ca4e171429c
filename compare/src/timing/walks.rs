//! Both walks: over a whole line, warm and cold; over shorter lines; over marks
//! with mark sets of so many pairs; to the next base, over so many marks, in a line
//! of bases and in one where each base has as many.
use super::{line, print_line, Times, GLYPHS, MARK, PLAIN, SEED, SOUGHT};
use crate::draw;
use crate::ours::{self, Sign};
use crate::paper::MOST_GLYPHS;
use crate::random::Random;
use original::glyphs::Glyph;
use original::terms::{Role, Setup, Test};
use original::walks::{with_row, Row};
use std::hint::black_box;

const IGNORABLE: Glyph = [9, 1, 0x0100_0000, 0x0101];
const IGNORABLE_MARK: Glyph = [9, 1, 0x0100_0108, 0x0101];
const BASE: Glyph = [9, 1, 0x0000_0002, 0x0101];
const FOUND: Glyph = [SOUGHT, 1, 0x0000_0002, 0x0101];
const FLAG_8: u32 = 8;
/// The marks' own class is 1.
const CLASS_2: u32 = 0x200;
const SET_3: u32 = 3 << 16 | 0x10;
const LAST: usize = GLYPHS - 1;
/// What is read between two walks so that the row isn't in a near cache.
const ELSEWHERE: usize = 64 << 20;
/// Ids all over 16 bits are drawn from another seed than the glyphs.
const OTHER_SEED: u64 = 2;

/// All of its glyphs are passed over, but for the last that a walk meets in the
/// mixture, which stops it.
struct Text {
    name: String,
    props: u32,
    sets: Vec<u16>,
    glyph: fn(&mut Random, usize) -> Glyph,
}

impl Text {
    fn new(name: &str, props: u32, glyph: fn(&mut Random, usize) -> Glyph) -> Self {
        Self { name: name.to_string(), props, sets: vec![], glyph }
    }
}

fn marks() -> Text {
    Text::new("marks under flag 8", FLAG_8, |_, _| MARK)
}

fn other_marks() -> Text {
    Text::new("marks of another attachment class", CLASS_2, |_, _| MARK)
}

fn ignorables() -> Text {
    Text::new("default ignorables", 0, |_, _| IGNORABLE)
}

fn mixture() -> Text {
    Text::new("a mixture that stops at its last", 0x202, |random, place| match place {
        0 | LAST => PLAIN,
        _ => random.pick(&[MARK, MARK, MARK, IGNORABLE, IGNORABLE, BASE, BASE]),
    })
}

fn side_by_side(pairs: u16) -> impl Iterator<Item = u16> {
    (0..pairs).flat_map(|i| [3, 1000 + i])
}

/// Sets of so many pairs: marks outside the set, whose ids lie side by side; marks of
/// the set, which are passed over because they are ignorable; and where a digest
/// helps least, ids from all over 16 bits, none of which is in the set.
fn with_sets(pairs: u16) -> [Text; 3] {
    let before = pairs / 2;
    let among: Vec<u16> =
        side_by_side(before).chain([3, 9]).chain(side_by_side(pairs - before - 1)).collect();
    let random = &mut Random::new(OTHER_SEED);
    let scattered = (0..pairs).flat_map(|_| [3, random.below(21_845) as u16 * 3 + 1]).collect();
    let noun = if pairs == 1 { "pair" } else { "pairs" };
    let text = |name: String, sets: Vec<u16>, glyph: fn(&mut Random, usize) -> Glyph| Text {
        sets,
        ..Text::new(&name, SET_3, glyph)
    };
    [
        text(format!("{pairs} {noun}, marks outside"), side_by_side(pairs).collect(), |_, _| MARK),
        text(format!("{pairs} {noun}, ignorable marks of the set"), among, |_, _| IGNORABLE_MARK),
        text(format!("{pairs} scattered {noun}, marks outside"), scattered, |random, _| {
            [random.below(21_845) as u32 * 3, 1, 0x0000_0108, 0x0101]
        }),
    ]
}

/// Rows are warm but where it is said.
pub fn run(rounds: u32) {
    println!("nanoseconds a glyph over {GLYPHS} glyphs, rows warm");
    for text in [marks(), other_marks(), ignorables(), mixture()] {
        over(&text, GLYPHS, |sides| sides.warm(&text.name, rounds));
    }
    let few = rounds / 3 + 1;
    println!("nanoseconds a glyph over {GLYPHS} marks, rows warm, a set is named; {few} rounds");
    for text in [1, 10, 200, 2000].into_iter().flat_map(with_sets) {
        over(&text, GLYPHS, |sides| sides.warm(&text.name, few));
    }
    println!("nanoseconds a glyph over {GLYPHS} glyphs, rows cold: before each walk 64 MiB elsewhere are read; {few} rounds");
    let elsewhere = vec![1_u8; ELSEWHERE];
    for text in [marks(), other_marks(), ignorables()] {
        over(&text, GLYPHS, |sides| sides.cold(&text.name, few, &elsewhere));
    }
    println!("nanoseconds a glyph, rows warm");
    for text in [marks(), other_marks(), ignorables()] {
        for glyphs in [64, 256, GLYPHS, MOST_GLYPHS] {
            over(&text, glyphs, |sides| sides.warm(&format!("{glyphs}, {}", text.name), rounds));
        }
    }
    let lookups = [
        ("under flag 8", FLAG_8, vec![]),
        ("of another class", CLASS_2, vec![]),
        ("outside a set of 10 pairs", SET_3, side_by_side(10).collect()),
    ];
    println!("nanoseconds a walk to the next base in a line of bases, rows warm");
    for (name, props, sets) in &lookups {
        for marks in [0, 1, 2, 4, 8, 16, 32] {
            to_the_next(name, *props, sets, marks, |_| BASE, rounds);
        }
    }
    println!("nanoseconds a walk to the next base, each base with as many marks, rows warm");
    for (name, props, sets) in &lookups {
        for marks in [1, 2, 3, 4, 6, 8] {
            let pointed = |from_place: usize| match from_place % (marks + 1) {
                0 => BASE,
                _ => MARK,
            };
            to_the_next(name, *props, sets, marks, pointed, rounds);
        }
    }
}

/// The same row on both sides, and where the walks start from.
struct Sides<'p, 'r, 'a> {
    original: &'p mut Row<'r, 'a>,
    ours: ours::Row<'p>,
    len: usize,
    forward_from: usize,
    backward_from: usize,
    /// What a walk's time is divided by.
    glyphs: usize,
}

/// Walks that go over all of a text: forward with the input matcher from the
/// first glyph, backward with the context matcher from the last. The one they
/// start from isn't tested.
fn over(text: &Text, len: usize, ask: impl FnOnce(&mut Sides)) {
    let random = &mut Random::new(SEED);
    let glyphs: Vec<Glyph> = (0..len).map(|place| (text.glyph)(random, place)).collect();
    let setup = Setup { mask: 1, props: text.props, sets: text.sets.clone(), ..Setup::default() };
    with_sides(&setup, &glyphs, [0, len - 1], len - 1, |sides| {
        sides.must_end([(false, len), (false, 0)], &text.name);
        ask(sides);
    });
}

/// Walks over so many marks to the base that is sought. `other` is the glyph so many
/// places from where they start.
fn to_the_next(
    name: &str,
    props: u32,
    sets: &[u16],
    marks: usize,
    other: impl Fn(usize) -> Glyph,
    rounds: u32,
) {
    let place = GLYPHS / 2;
    let mut glyphs: Vec<Glyph> = (0..GLYPHS).map(|p| other(p.abs_diff(place))).collect();
    glyphs[place - marks..=place + marks].fill(MARK);
    (glyphs[place - marks - 1], glyphs[place]) = (FOUND, BASE);
    glyphs[place + marks + 1] = FOUND;
    let s = if marks == 1 { "" } else { "s" };
    let name = format!("{marks} mark{s} {name}");
    let setup = Setup { mask: 1, props, sets: sets.to_vec(), ..Setup::default() };
    with_sides(&setup, &glyphs, [place, place], 1, |sides| {
        sides.must_end([(true, place + marks + 1), (true, place - marks - 1)], &name);
        sides.warm(&name, rounds);
    });
}

fn with_sides(
    setup: &Setup,
    glyphs: &[Glyph],
    [forward_from, backward_from]: [usize; 2],
    divisor: usize,
    ask: impl FnOnce(&mut Sides),
) {
    let words = draw::words(glyphs);
    let len = glyphs.len();
    with_row(setup, glyphs, len, 0, |row| {
        let ours = ours::Row { setup, words: &words };
        ask(&mut Sides { original: row, ours, len, forward_from, backward_from, glyphs: divisor });
    });
}

fn sign() -> Sign {
    Sign { test: Test::Equal(black_box(SOUGHT)), syllable: 0, spare: 0 }
}

impl Sides<'_, '_, '_> {
    fn original_forward(&mut self) -> (bool, usize) {
        self.original.bare_forward(Role::Input, self.forward_from, black_box(SOUGHT))
    }
    fn original_backward(&mut self) -> (bool, usize) {
        self.original.bare_backward(Role::Context, self.backward_from, black_box(SOUGHT))
    }

    /// Found or not, and the place or the extent, of both walks on both sides.
    fn must_end(&mut self, ends: [(bool, usize); 2], name: &str) {
        let original = [self.original_forward(), self.original_backward()];
        assert_eq!(original, ends, "the original's walks over {name}");
        let forward = self.ours.forward(Role::Input, self.len, self.forward_from, sign());
        let backward = self.ours.backward(Role::Context, self.backward_from, sign());
        let ours = [forward, backward].map(|walked| (walked.number, walked.place));
        let wanted = ends.map(|(found, place)| (if found { 0 } else { 4 }, place));
        assert_eq!(ours, wanted, "our walks over {name}");
    }

    fn warm(&mut self, name: &str, rounds: u32) {
        let (lent, glyphs) = (&self.ours, self.glyphs);
        let [from, back_from, len] = [self.forward_from, self.backward_from, self.len];
        line(
            &format!("forward, {name}"),
            rounds,
            glyphs,
            || {
                black_box(self.original.bare_forward(Role::Input, from, black_box(SOUGHT)));
            },
            || {
                black_box(lent.forward(Role::Input, len, from, sign()));
            },
        );
        line(
            &format!("backward, {name}"),
            rounds,
            glyphs,
            || {
                black_box(self.original.bare_backward(Role::Context, back_from, black_box(SOUGHT)));
            },
            || {
                black_box(lent.backward(Role::Context, back_from, sign()));
            },
        );
    }

    /// One walk at a time, each after something else was read.
    fn cold(&mut self, name: &str, rounds: u32, elsewhere: &[u8]) {
        let mut times = [(); 4].map(|()| Times(vec![]));
        for _ in 0..rounds {
            read(elsewhere);
            self.take(&mut times[0], |sides| {
                black_box(sides.original_forward());
            });
            read(elsewhere);
            self.take(&mut times[1], |sides| {
                black_box(sides.ours.forward(Role::Input, sides.len, sides.forward_from, sign()));
            });
            read(elsewhere);
            self.take(&mut times[2], |sides| {
                black_box(sides.original_backward());
            });
            read(elsewhere);
            self.take(&mut times[3], |sides| {
                black_box(sides.ours.backward(Role::Context, sides.backward_from, sign()));
            });
        }
        let [forward, our_forward, backward, our_backward] = times;
        print_line(&format!("forward, {name}"), forward, our_forward);
        print_line(&format!("backward, {name}"), backward, our_backward);
    }

    fn take(&mut self, times: &mut Times, walk: impl Fn(&mut Self)) {
        let glyphs = self.glyphs;
        times.take(1, glyphs, &mut || walk(self));
    }
}

/// A byte of each line of the cache.
fn read(elsewhere: &[u8]) {
    black_box(elsewhere.iter().step_by(64).map(|&byte| u64::from(byte)).sum::<u64>());
}
