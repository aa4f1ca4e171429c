//! Both questions, the verdict at a place, and both walks: the original, ours
//! and the plain second implementation of the paper. Calls that the paper
//! refuses are compared with the paper alone, since the original has no
//! refusals.
pub mod stretches;

use crate::differences;
use crate::draw;
use crate::kinds::Comparison;
use crate::ours::{self, CSaid, CWalked, Sign};
use crate::paper::{self, MOST_GLYPHS};
use crate::random::Random;
use crate::summary::Summary;
use crate::trials::Trial;
use original::glyphs::Glyph;
use original::terms::{Role, Setup, Test, Walked, ROLES};
use original::walks::{with_row, Row};

#[derive(Clone, Copy, Debug, PartialEq, Eq)]
pub enum Way {
    Forward,
    Backward,
}

const WAYS: [Way; 2] = [Way::Forward, Way::Backward];

/// What questions are put to: the first `len` glyphs are a forward walk's.
#[derive(Clone)]
pub struct Case {
    pub setup: Setup,
    pub glyphs: Vec<Glyph>,
    pub words: Vec<u32>,
    pub len: usize,
    pub syllable: u8,
}

impl Case {
    pub fn new(setup: Setup, glyphs: Vec<Glyph>, len: usize, syllable: u8) -> Self {
        let words = draw::words(&glyphs);
        Self { setup, glyphs, words, len, syllable }
    }

    /// The glyphs without the bit that means something to the original alone.
    pub fn without_substituted(&self) -> Vec<Glyph> {
        self.glyphs.iter().map(draw::without_substituted).collect()
    }

    fn ours(&self) -> ours::Row<'_> {
        ours::Row { setup: &self.setup, words: &self.words }
    }

    fn sign(&self, test: Test, spare: u32) -> Sign {
        Sign { test, syllable: self.syllable, spare }
    }
}

/// Which of our calls is made.
#[derive(Clone, Copy, Debug, PartialEq, Eq)]
pub enum Asks {
    MaySkip,
    MayMatch,
    Verdict,
    Walk(Way),
}

/// A call of ours.
#[derive(Clone)]
pub struct Asked {
    pub asks: Asks,
    pub case: Case,
    pub role: Role,
    pub place: usize,
    pub sign: Sign,
}

/// What it hands over; the other one of the two stays as it is here.
pub struct Told {
    pub said: CSaid,
    pub walked: CWalked,
}

fn tell(asks: Asks, case: &Case, role: Role, place: usize, sign: Sign) -> Told {
    let ours = case.ours();
    let mut told = Told { said: CSaid::of_may(None), walked: CWalked::of(None) };
    match asks {
        Asks::MaySkip => told.said = ours.may_skip(role, place),
        Asks::MayMatch => told.said = ours.may_match(role, place, sign),
        Asks::Verdict => told.said = ours.verdict(role, place, sign),
        Asks::Walk(Way::Forward) => told.walked = ours.forward(role, case.len, place, sign),
        Asks::Walk(Way::Backward) => told.walked = ours.backward(role, place, sign),
    }
    told
}

pub type WalkTrial = Trial<Asked, Told>;

/// How walks end, by their places in `ENDS`, forward and backward.
const ENDS: [[&str; 6]; 2] = [
    [
        "forward: found at the first place tested",
        "forward: found after passing over some",
        "forward: stopped at the first place tested",
        "forward: stopped after passing over some",
        "forward: ran out with nothing to test",
        "forward: ran out after passing over all",
    ],
    [
        "backward: found at the first place tested",
        "backward: found after passing over some",
        "backward: stopped at the first place tested",
        "backward: stopped after passing over some",
        "backward: ran out with nothing to test",
        "backward: ran out after passing over all",
    ],
];
const SEVERAL_FAULTS: &str = "refusal 1: several of these at once";
const AT_THE_END: &str = "refusal 1: a question's place at or past its row's end";

fn clauses() -> Vec<&'static str> {
    let mut names = [&paper::SKIP_BY[..], &paper::MATCH_BY, &paper::VERDICT_BY].concat();
    names.extend(ENDS.concat());
    names.extend(paper::REFUSED_BY);
    names.extend([SEVERAL_FAULTS, AT_THE_END]);
    names
}

/// Asks all sides, and counts what decided.
pub struct Asker {
    pub summary: Summary,
    trial: Option<&'static WalkTrial>,
    skip_by: [u64; paper::SKIP_BY.len()],
    match_by: [u64; paper::MATCH_BY.len()],
    verdict_by: [u64; paper::VERDICT_BY.len()],
    ends: [[u64; 6]; 2],
}

impl Asker {
    pub fn new(trial: Option<&'static WalkTrial>) -> Self {
        Self {
            summary: Summary::new("walks", &clauses()),
            trial,
            skip_by: Default::default(),
            match_by: Default::default(),
            verdict_by: Default::default(),
            ends: Default::default(),
        }
    }

    fn count_clauses(&mut self) {
        let counted = [
            (&paper::SKIP_BY[..], &self.skip_by[..]),
            (&paper::MATCH_BY, &self.match_by),
            (&paper::VERDICT_BY, &self.verdict_by),
            (&ENDS[0], &self.ends[0]),
            (&ENDS[1], &self.ends[1]),
        ];
        for (names, times) in counted {
            for (name, times) in names.iter().zip(times) {
                self.summary.decided_times(name, *times);
            }
        }
    }

    /// The paper's judgement, counted. May match decides nothing after a Yes.
    fn judge(&mut self, case: &Case, role: Role, place: usize, test: Test) -> paper::Judged {
        let matcher = paper::matcher(&case.setup, role);
        let judged = paper::judge(&matcher, &case.words, place, test, case.syllable);
        self.skip_by[judged.skip_by] += 1;
        if judged.verdict_by != 0 {
            self.match_by[judged.match_by] += 1;
        }
        self.verdict_by[judged.verdict_by] += 1;
        judged
    }

    /// Compares an answer of ours with the original's, which is asked again
    /// without SUBSTITUTED where they differ, and with the paper's.
    fn settle<T: PartialEq + std::fmt::Debug>(
        &mut self,
        case: &Case,
        (original, ours, paper): (T, T, T),
        again: impl FnOnce(&mut Row) -> T,
        question: impl Fn() -> String,
    ) {
        let shown = || {
            let Case { setup, glyphs, len, syllable, .. } = case;
            format!("{}, len {len}, syllable {syllable}, {setup:X?}, {glyphs:08X?}", question())
        };
        let explained = || {
            let cleared = case.without_substituted();
            let anew = with_row(&case.setup, &cleared, case.len, case.syllable, again);
            (anew == ours).then_some(&differences::SUBSTITUTED_IGNORABLE)
        };
        self.summary.compare(&original, &ours, explained, shown);
        self.summary.compare_with_paper(&paper, &ours, shown);
    }

    /// In a trial a wrong answer stands in for ours.
    fn ours(&self, asks: Asks, case: &Case, role: Role, place: usize, sign: Sign) -> Told {
        let Some(trial) = self.trial else { return tell(asks, case, role, place, sign) };
        let asked = Asked { asks, case: case.clone(), role, place, sign };
        trial.answer(&asked, |Asked { asks, case, role, place, sign }| {
            tell(*asks, case, *role, *place, *sign)
        })
    }

    fn questions(&mut self, case: &Case, row: &mut Row, role: Role, place: usize, sign: Sign) {
        let test = sign.test;
        let judged = self.judge(case, role, place, test);
        let [skip, matches, decided] = [Asks::MaySkip, Asks::MayMatch, Asks::Verdict]
            .map(|asks| self.ours(asks, case, role, place, sign).said);
        let may = |may| CSaid::of_may(Some(may));
        let verdict = |verdict| CSaid::of_verdict(Some(verdict));
        self.settle(
            case,
            (may(row.may_skip(role, place)), skip, may(judged.skip)),
            |row| may(row.may_skip(role, place)),
            || format!("may skip {place} {role:?}"),
        );
        self.settle(
            case,
            (may(row.may_match(role, place, test)), matches, may(judged.matches)),
            |row| may(row.may_match(role, place, test)),
            || format!("may match {place} {role:?} {sign:X?}"),
        );
        self.settle(
            case,
            (verdict(row.verdict(role, place, test)), decided, verdict(judged.verdict)),
            |row| verdict(row.verdict(role, place, test)),
            || format!("verdict {place} {role:?} {sign:X?}"),
        );
    }

    fn walk(
        &mut self,
        case: &Case,
        row: &mut Row,
        (way, role): (Way, Role),
        place: usize,
        sign: Sign,
    ) {
        let paper = self.paper_walk(case, (way, role), place, sign.test);
        let original =
            |row: &mut Row| CWalked::of(Some(walked(row, (way, role), place, sign.test)));
        let ours = self.ours(Asks::Walk(way), case, role, place, sign).walked;
        self.settle(case, (original(row), ours, CWalked::of(Some(paper))), original, || {
            format!("{way:?} from {place} {role:?} {sign:X?}")
        });
    }

    fn paper_walk(
        &mut self,
        case: &Case,
        (way, role): (Way, Role),
        place: usize,
        test: Test,
    ) -> Walked {
        let mut tested = 0;
        let judge = |p| {
            tested += 1;
            self.judge(case, role, p, test).verdict
        };
        let walked = match way {
            Way::Forward => paper::forward(case.len, place, judge),
            Way::Backward => paper::backward(place, judge),
        };
        let end = match (walked, tested) {
            (Walked::Found(_), 1) => 0,
            (Walked::Found(_), _) => 1,
            (Walked::Stopped(_), 1) => 2,
            (Walked::Stopped(_), _) => 3,
            (Walked::RanOut(_), 0) => 4,
            (Walked::RanOut(_), _) => 5,
        };
        self.ends[way as usize][end] += 1;
        walked
    }

    /// No call may have written to the row.
    fn row_is_unchanged(&mut self, case: &Case) {
        self.summary.compare_with_paper(&draw::words(&case.glyphs), &case.words, || {
            "a row after it was walked over".to_string()
        });
    }
}

pub fn walked(row: &mut Row, (way, role): (Way, Role), place: usize, test: Test) -> Walked {
    match way {
        Way::Forward => row.forward(role, place, test),
        Way::Backward => row.backward(role, place, test),
    }
}

// ---- every row of few glyphs

const fn glyph(id: u32, mask: u32, flags: u32, syllable: u32, props: u32) -> Glyph {
    [id, mask, flags << 24 | syllable << 16 | props, 0]
}

/// A glyph for each clause, under one of the lookups below.
pub const ALPHABET: [Glyph; 15] = [
    glyph(7, 1, 0, 1, 0),
    glyph(5, 1, 0, 1, 2),
    glyph(5, 1, 0, 1, 4),
    glyph(9, 1, 0, 1, 0x108),
    glyph(10, 1, 0, 1, 0x208),
    glyph(0x1_0009, 1, 0, 1, 0x108),
    glyph(8, 1, 1, 1, 0),
    glyph(7, 1, 1, 1, 0),
    glyph(8, 1, 3, 1, 0),
    glyph(8, 1, 5, 1, 0),
    glyph(8, 1, 9, 1, 0),
    glyph(8, 1, 14, 1, 0),
    glyph(7, 2, 0, 1, 0),
    glyph(7, 1, 0, 2, 0),
    glyph(9, 1, 1, 1, 0x208),
];

pub const PROPS: [u32; 12] = [0, 2, 4, 8, 0xE, 0x10, 0x1_0010, 0x2_0010, 0x18, 0x100, 0x200, 0x110];

pub fn all_settings() -> impl Iterator<Item = Setup> {
    (0..16).map(|settings| Setup {
        gpos: settings & 1 != 0,
        auto_zwnj: settings & 2 != 0,
        auto_zwj: settings & 4 != 0,
        per_syllable: settings & 8 != 0,
        mask: 1,
        props: 0,
        sets: vec![0, 9, 1, 10],
    })
}

const TESTS: [Test; 3] = [Test::Equal(7), Test::Any, Test::None];

/// Each glyph of the alphabet under all settings, lookups, masks, tests and
/// starting syllables.
fn every_glyph(asker: &mut Asker) {
    for setup in all_settings() {
        for props in PROPS {
            for mask in [1, 2, 0] {
                for syllable in [0, 1, 2] {
                    let setup = Setup { props, mask, ..setup.clone() };
                    let case = Case::new(setup, ALPHABET.to_vec(), ALPHABET.len(), syllable);
                    with_row(&case.setup, &case.glyphs, case.len, syllable, |row| {
                        for role in ROLES {
                            for place in 0..case.len {
                                for test in TESTS {
                                    asker.summary.input("each glyph of an alphabet, three answers");
                                    let sign = case.sign(test, 0);
                                    asker.questions(&case, row, role, place, sign);
                                }
                            }
                        }
                    });
                }
            }
        }
    }
}

/// Every row of up to three glyphs of the alphabet, from every place.
fn every_row(asker: &mut Asker) {
    let plain = all_settings().next().expect("a setup");
    let setups = [
        plain.clone(),
        Setup { props: 8, gpos: true, ..plain.clone() },
        Setup { props: 0x100, auto_zwj: true, ..plain.clone() },
        Setup { props: 0x10, per_syllable: true, auto_zwnj: true, ..plain.clone() },
        Setup { props: 6, mask: 2, per_syllable: true, ..plain },
    ];
    for setup in setups {
        for count in 0..=3u32 {
            for number in 0..ALPHABET.len().pow(count) {
                let pick = |i| ALPHABET[number / ALPHABET.len().pow(i) % ALPHABET.len()];
                let case =
                    Case::new(setup.clone(), (0..count).map(pick).collect(), count as usize, 1);
                with_row(&case.setup, &case.glyphs, case.len, case.syllable, |row| {
                    for place in 0..=case.len {
                        for role in ROLES {
                            for test in TESTS {
                                for way in WAYS {
                                    asker.summary.input("walks over every row to 3 glyphs");
                                    let sign = case.sign(test, 0);
                                    asker.walk(&case, row, (way, role), place, sign);
                                }
                            }
                        }
                    }
                });
            }
        }
    }
}

// ---- random rows

/// Mostly short; some are as long as a row may be.
fn count(random: &mut Random) -> usize {
    match random.below(1000) {
        0 => random.near(&[MOST_GLYPHS as u64 - 1], 1) as usize,
        1..=20 => random.below(100) as usize,
        _ => random.below(13) as usize,
    }
}

pub fn case(random: &mut Random, count: usize) -> Case {
    let setup = draw::setup(random);
    let glyphs = draw::row(random, count);
    let len = match random.one_in(4) {
        true => random.up_to(count as u64) as usize,
        false => count,
    };
    Case::new(setup, glyphs, len, draw::syllable(random))
}

/// A place of a row of `len`: often the one from which a walk sees all of the
/// row, else an end, its neighbour, or any.
pub fn place(random: &mut Random, way: Way, len: usize) -> usize {
    let [first, last] = match way {
        Way::Forward => [0, len],
        Way::Backward => [len, 0],
    };
    match random.below(16) {
        0..=6 => first,
        7 => last,
        8 => len.saturating_sub(1),
        9 => len.min(1),
        _ => random.up_to(len as u64) as usize,
    }
}

fn random_row(asker: &mut Asker, random: &mut Random) -> u64 {
    let count = count(random);
    let case = case(random, count);
    let mut walks = 0;
    with_row(&case.setup, &case.glyphs, case.len, case.syllable, |row| {
        for role in ROLES {
            for _ in 0..2 {
                let sign = case.sign(draw::test(random), random.next() as u32);
                if count > 0 {
                    asker.summary.input("random glyphs, three answers");
                    let at = random.below(count as u64) as usize;
                    asker.questions(&case, row, role, at, sign);
                }
                for way in WAYS {
                    let most = if way == Way::Forward { case.len } else { count };
                    for _ in 0..2 {
                        asker.summary.input("walks over random rows");
                        let from = place(random, way, most);
                        asker.walk(&case, row, (way, role), from, sign);
                        walks += 1;
                    }
                }
            }
        }
    });
    asker.row_is_unchanged(&case);
    walks
}

// ---- damaged calls

/// A call with something wrong in it, or nearly so: what the paper doesn't
/// refuse is asked of the original too.
fn damaged(asker: &mut Asker, random: &mut Random, plenty: &[Glyph]) {
    let wrong: Vec<u64> = (0..1 + random.below(2)).map(|_| random.below(6)).collect();
    let is_wrong = |fault| wrong.contains(&fault);
    let whole = match is_wrong(0) {
        true => random.pick(&[MOST_GLYPHS + 1, MOST_GLYPHS + 2]),
        false => random.pick(&[0, 1, 2, 3, 12, MOST_GLYPHS - 1, MOST_GLYPHS]),
    };
    let past = |random: &mut Random, end: usize| match random.below(3) {
        0 => end + 1,
        1 => random.near(&[u64::MAX - 2, 1 << 62, 1 << 32], 2) as usize,
        _ => end + 1 + random.below(8) as usize,
    };
    let len = match is_wrong(1) {
        true => past(random, whole),
        false => place(random, Way::Backward, whole),
    };
    let place = match is_wrong(2) {
        true => past(random, len.min(1 << 62)),
        false => place(random, Way::Forward, len.min(whole)),
    };
    let mut setup = draw::setup(random);
    if is_wrong(3) {
        setup.sets.push(random.below(3) as u16);
    }
    let glyphs = plenty[..whole].to_vec();
    let mut words = draw::words(&plenty[..whole + 1]);
    words.truncate(4 * whole + if is_wrong(4) { 1 + random.below(3) as usize } else { 0 });
    let case = Case { setup, glyphs, words, len, syllable: draw::syllable(random) };
    let sign = case.sign(draw::test(random), random.next() as u32);
    let role = random.pick(&ROLES);
    for way in WAYS {
        asker.summary.input("damaged calls of walks");
        let len = (way == Way::Forward).then_some(case.len);
        let faults = paper::faults(&case.words, len, Some(place), &case.setup.sets);
        if faults.is_empty() {
            // The original's row ends at len in a forward walk only.
            let len = len.unwrap_or(whole);
            with_row(&case.setup, &case.glyphs, len, case.syllable, |row| {
                asker.walk(&case, row, (way, role), place, sign);
            });
            continue;
        }
        asker.summary.decided(match faults[..] {
            [fault] => paper::REFUSED_BY[fault],
            _ => SEVERAL_FAULTS,
        });
        let ours = asker.ours(Asks::Walk(way), &case, role, place, sign).walked;
        let shown = || refused_shown(&case, place, &format!("{way:?}"));
        asker.summary.compare_with_paper(&CWalked::of(None), &ours, shown);
    }
    damaged_questions(asker, &case, whole, role, place, sign);
}

/// A question needs a glyph, so its place may not be its row's end either. May
/// match is handed no sets.
fn damaged_questions(
    asker: &mut Asker,
    case: &Case,
    whole: usize,
    role: Role,
    place: usize,
    sign: Sign,
) {
    let asked = [
        ("may skip", Asks::MaySkip, &case.setup.sets[..]),
        ("may match", Asks::MayMatch, &[]),
        ("verdict", Asks::Verdict, &case.setup.sets),
    ];
    for (i, (name, asks, sets)) in asked.into_iter().enumerate() {
        let ours = asker.ours(asks, case, role, place, sign).said;
        asker.summary.input("damaged calls of questions");
        let faults = paper::faults(&case.words, None, None, sets);
        let past = place >= whole;
        let shown = || refused_shown(case, place, name);
        if !past && faults.is_empty() {
            let judged = asker.judge(case, role, place, sign.test);
            let paper = [
                CSaid::of_may(Some(judged.skip)),
                CSaid::of_may(Some(judged.matches)),
                CSaid::of_verdict(Some(judged.verdict)),
            ];
            asker.summary.compare_with_paper(&paper[i], &ours, shown);
            continue;
        }
        asker.summary.decided(match (past, &faults[..]) {
            (true, []) => AT_THE_END,
            (false, [fault]) => paper::REFUSED_BY[*fault],
            _ => SEVERAL_FAULTS,
        });
        asker.summary.compare_with_paper(&CSaid::of_may(None), &ours, shown);
    }
}

fn refused_shown(case: &Case, place: usize, name: &str) -> String {
    let (words, sets) = (case.words.len(), case.setup.sets.len());
    format!("{name} from {place}, len {}, {words} words, {sets} set words", case.len)
}

pub fn comparison() -> Box<dyn Comparison> {
    Box::new(Asker::new(None))
}

impl Comparison for Asker {
    fn exhaust(&mut self) {
        every_glyph(self);
        every_row(self);
        stretches::every(self);
    }

    fn draw(&mut self, steps: u64, seed: u64) {
        let random = &mut Random::new(seed);
        let mut made = 0;
        while made < steps {
            made += random_row(self, random);
        }
        let plenty = draw::row(random, MOST_GLYPHS + 3);
        for _ in 0..steps / 50 {
            damaged(self, random, &plenty);
        }
        for _ in 0..steps / 20 {
            stretches::random(self, random);
        }
    }

    fn finish(mut self: Box<Self>) -> Summary {
        self.count_clauses();
        self.summary
    }
}
