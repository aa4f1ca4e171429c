//! May skip, may match, the verdict and both walks. All numbers are one word.
//!
//!     30  may skip   30 lookup context test value syllable place len sets row  said
//!     31  verdict    31 lookup context test value syllable place len sets row  said
//!     32  forward    32 lookup context test value syllable place len sets row  number ran_out place
//!     33  backward   33 lookup context test value syllable place len sets row  number ran_out place
//!     34  may match  34 lookup context test value syllable place len sets row  said
//!
//! A lookup is gpos zwnj zwj syllables mask props; a test is 0 equal, 1 any or
//! another number; len is 0 but in 32; sets and row are each a number of words
//! and those words. Said is 0 No, 1 Yes, 2 Maybe in 30 and 34, and 0 Match, 1
//! NotMatch, 2 Skip in 31. The number is 0, found at the place, or 4, with the
//! extent as place, and ran_out is 1 where no glyph was left.
//!
//! May match has no call of its own in the original: it shows in two of its
//! verdicts. 230, 231 and 234 are the same questions where the paper refuses
//! them by 1; the original has no refusals, so said is the second reading's
//! (src/paper.rs), and it is 9. No walk is refused here, and no ignorable glyph
//! has the props bit 0x10, on which the original answers otherwise
//! (docs/DIFFERENCES.md). Those differences have operations 130 and 132, in the
//! same form, with our answer.
use super::{Line, List};
use crate::ours::{CWalked, Sign};
use crate::paper;
use crate::random::Random;
use crate::walks::stretches::{self, Witness};
use crate::walks::{self, Case, Way};
use crate::{differences, draw};
use original::glyphs::Glyph;
use original::terms::{Role, Setup, Test, Walked, ROLES};
use original::walks::{with_row, Row};

const SEED: u64 = 3;
const QUESTIONS: usize = 400;
const WALKS: usize = 520;
/// What was stored later is drawn from a seed of its own, so that the lines
/// before it stay as they were.
const LATER_SEED: u64 = 4;
const MATCHES: usize = 60;
const REFUSED: u32 = 9;
/// A walk over each of these, in each direction.
const LONG: [usize; 4] = [40, 64, 150, crate::paper::MOST_GLYPHS];

pub fn write(list: &mut List) {
    let random = &mut Random::new(SEED);
    every_glyph(list, random);
    for _ in 0..QUESTIONS {
        let count = 1 + random.below(3) as usize;
        let case = case(random, count);
        let place = random.below(count as u64) as usize;
        let asked = Asked::new(&case, random.pick(&ROLES), place, sign(random, &case));
        list.push(asked.may_skip());
        list.push(asked.verdict());
    }
    for i in 0..WALKS {
        let count = LONG.get(i).copied().unwrap_or_else(|| random.below(13) as usize);
        let case = case(random, count);
        for way in [Way::Forward, Way::Backward] {
            let place = place(random, way, &case);
            let asked = Asked::new(&case, random.pick(&ROLES), place, sign(random, &case));
            list.push(asked.walk(way));
        }
    }
    let random = &mut Random::new(LATER_SEED);
    every_match(list, random);
    for _ in 0..MATCHES {
        let count = 1 + random.below(3) as usize;
        let case = case(random, count);
        let place = random.below(count as u64) as usize;
        let asked = Asked::new(&case, random.pick(&ROLES), place, sign(random, &case));
        list.push(asked.may_match());
    }
    refused(list);
    for Witness { case, way, role, place } in stretches::witnesses() {
        let sign = Sign { test: Test::Equal(7), syllable: 0, spare: 0 };
        list.push(Asked::new(&case, role, place, sign).walk(way));
    }
    for (walks, on_row) in differences::on_rows() {
        let case = on_row.case();
        let asked = Asked::new(&case, on_row.role, on_row.place, on_row.sign);
        list.push(match walks {
            false => asked.question(130, 0).word(on_row.may_skip().said),
            true => {
                let CWalked { number, ran_out, place } = on_row.forward();
                let line = asked.question(132, case.len);
                line.word(number).word(ran_out).word(place as u32)
            }
        });
    }
}

/// Mostly one from which something is tested.
fn place(random: &mut Random, way: Way, case: &Case) -> usize {
    let most = if way == Way::Forward { case.len } else { case.glyphs.len() };
    let tests = |&place: &usize| if way == Way::Forward { place + 1 < most } else { place > 0 };
    let mut drawn = [(); 4].map(|()| walks::place(random, way, most)).into_iter();
    let last = drawn.next_back().expect("four places");
    drawn.find(tests).unwrap_or(last)
}

/// Each glyph of the alphabet by itself under each of the lookups, the
/// settings taken in turn.
fn every_glyph(list: &mut List, random: &mut Random) {
    let settings: Vec<Setup> = walks::all_settings().collect();
    let mut turn = 0;
    for glyph in walks::ALPHABET {
        for props in walks::PROPS {
            for role in ROLES {
                // 7 shares no divisor with 16, so that every setting is met
                turn += 7;
                let setup = Setup { props, ..settings[turn % settings.len()].clone() };
                let case = Case::new(setup, vec![glyph], 1, draw::syllable(random));
                let asked = Asked::new(&case, role, 0, sign(random, &case));
                list.push(asked.may_skip());
                list.push(asked.verdict());
            }
        }
    }
}

/// May match of each glyph of the alphabet by itself for each kind of test, the
/// settings taken in turn.
fn every_match(list: &mut List, random: &mut Random) {
    let settings: Vec<Setup> = walks::all_settings().collect();
    let mut turn = 0;
    for glyph in walks::ALPHABET {
        for role in ROLES {
            for test in [Test::Equal(7), Test::Any, Test::None] {
                turn += 7;
                let setup = settings[turn % settings.len()].clone();
                let case = Case::new(setup, vec![glyph], 1, draw::syllable(random));
                let spare = random.below(256) as u32;
                let sign = Sign { test, syllable: case.syllable, spare };
                list.push(Asked::new(&case, role, 0, sign).may_match());
            }
        }
    }
}

/// Each question at and past its row's end, of a row that isn't whole glyphs,
/// of one without glyphs, and with odd mark sets. May match is handed no sets,
/// so the last of these it answers.
fn refused(list: &mut List) {
    let setup = walks::all_settings().next().expect("there are settings");
    let whole = Case::new(setup, walks::ALPHABET[..2].to_vec(), 2, 1);
    let mut cut = whole.clone();
    cut.words.pop();
    let mut odd = whole.clone();
    odd.setup.sets.pop();
    let none = Case::new(whole.setup.clone(), vec![], 0, 1);
    let past = u32::MAX as usize;
    let asked = [(&whole, 2), (&whole, past), (&cut, 0), (&cut, 1), (&none, 0), (&odd, 0)];
    for (case, place) in asked {
        let sign = Sign { test: Test::Equal(7), syllable: 1, spare: 0 };
        let asked = Asked::new(case, Role::Input, place, sign);
        for operation in [30, 31, 34] {
            let sets = if operation == 34 { &[] } else { &case.setup.sets[..] };
            if paper::refuses_question(&case.words, place, sets) {
                list.push(asked.question(200 + operation, 0).word(REFUSED));
            } else {
                list.push(asked.may_match());
            }
        }
    }
}

fn case(random: &mut Random, count: usize) -> Case {
    let case = walks::case(random, count);
    let clear = |g: &Glyph| match g[2] >> 24 & 1 {
        0 => *g,
        _ => draw::without_substituted(g),
    };
    Case::new(case.setup, case.glyphs.iter().map(clear).collect(), case.len, case.syllable)
}

fn sign(random: &mut Random, case: &Case) -> Sign {
    let test = draw::test(random);
    // What is looked for is often there.
    let test = match (test, random.one_in(2)) {
        (Test::Equal(_), true) if !case.glyphs.is_empty() => {
            Test::Equal(random.pick(&case.glyphs)[0])
        }
        _ => test,
    };
    Sign { test, syllable: case.syllable, spare: random.below(256) as u32 }
}

struct Asked<'a> {
    case: &'a Case,
    role: Role,
    place: usize,
    sign: Sign,
}

impl<'a> Asked<'a> {
    fn new(case: &'a Case, role: Role, place: usize, sign: Sign) -> Self {
        Self { case, role, place, sign }
    }

    fn original<R>(&self, ask: impl FnOnce(&mut Row) -> R) -> R {
        let case = self.case;
        with_row(&case.setup, &case.glyphs, case.len, case.syllable, ask)
    }

    fn question(&self, operation: u32, len: usize) -> Line {
        let setup = &self.case.setup;
        Line::of(operation)
            .word(setup.gpos)
            .word(setup.auto_zwnj)
            .word(setup.auto_zwj)
            .word(setup.per_syllable)
            .words(&[setup.mask, setup.props])
            .word(self.role == Role::Context)
            .word(self.sign.number())
            .word(self.sign.value())
            .word(self.case.syllable)
            .words(&[self.place as u32, len as u32])
            .narrow(&setup.sets)
            .list(&self.case.words)
    }

    fn may_skip(&self) -> Line {
        let said = self.original(|row| row.may_skip(self.role, self.place));
        self.question(30, 0).word(said as u8)
    }

    fn may_match(&self) -> Line {
        let said = self.original(|row| row.may_match(self.role, self.place, self.sign.test));
        self.question(34, 0).word(said as u8)
    }

    fn verdict(&self) -> Line {
        let said = self.original(|row| row.verdict(self.role, self.place, self.sign.test));
        self.question(31, 0).word(said as u8)
    }

    fn walk(&self, way: Way) -> Line {
        let at = (way, self.role);
        let walked = self.original(|row| walks::walked(row, at, self.place, self.sign.test));
        let line = match way {
            Way::Forward => self.question(32, self.case.len),
            Way::Backward => self.question(33, 0),
        };
        match walked {
            Walked::Found(place) => line.words(&[0, 0, place as u32]),
            Walked::Stopped(extent) => line.words(&[4, 0, extent as u32]),
            Walked::RanOut(extent) => line.words(&[4, 1, extent as u32]),
        }
    }
}
