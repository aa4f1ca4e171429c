//! Digests: every operation on the original's two digests and on ours, all
//! masks and answers compared.
//!
//! The original runs in sequences of its own; ours is handed the masks that
//! the original had before each step. So each step stands for itself, and one
//! disagreement doesn't bring on others.
use crate::kinds::Comparison;
use crate::ours;
use crate::random::Random;
use crate::summary::Summary;
use crate::trials::Trial;
use original::digests::{masks, RuleDigest, SetDigest};

pub const SHIFTS: [u32; 3] = [4, 0, 6];

/// A digest of the original beside its masks, which are slow to read.
#[derive(Clone)]
pub struct Known {
    digest: SetDigest,
    pub masks: [u64; 3],
}

impl Known {
    fn of(digest: SetDigest) -> Self {
        let masks = masks(&digest);
        Self { digest, masks }
    }

    pub fn new() -> Self {
        Self::of(SetDigest::new())
    }

    pub fn full() -> Self {
        Self::of(SetDigest::full())
    }

    /// All but one bit of one mask: glyphs below 4,096 reach every bit.
    pub fn lacking(shift: u32, bit: u32) -> Self {
        let mut digest = SetDigest::new();
        digest.add_array((0..4096).filter(|g| g >> shift & 63 != bit));
        Self::of(digest)
    }
}

#[derive(Clone)]
pub enum Step {
    New,
    Full,
    Clear,
    Union(Known),
    Add(u32),
    AddArray(Vec<u32>),
    AddRange(u32, u32),
    MayHave(u32),
    MayIntersect(Known),
}

/// A step with what the original made of it.
#[derive(Clone)]
pub struct Asked {
    pub before: Known,
    pub step: Step,
    pub after: Known,
    pub yes: Option<bool>,
}

/// The masks afterwards, and yes or no where that is asked.
pub type DigestTrial = Trial<Asked, ([u64; 3], Option<bool>)>;
pub type RuleTrial = Trial<AskedRule, (u64, Option<bool>)>;

pub fn ask(before: &Known, step: Step) -> Asked {
    let mut digest = before.digest.clone();
    let mut yes = None;
    match &step {
        Step::New => digest = SetDigest::new(),
        Step::Full => digest = SetDigest::full(),
        Step::Clear => digest.clear(),
        Step::Union(other) => digest.union(&other.digest),
        Step::Add(g) => digest.add(*g),
        Step::AddArray(glyphs) => digest.add_array(glyphs.iter().copied()),
        Step::AddRange(a, b) => yes = Some(digest.add_range(*a, *b)),
        Step::MayHave(g) => yes = Some(digest.may_have(*g)),
        Step::MayIntersect(other) => yes = Some(digest.may_intersect(&other.digest)),
    }
    Asked { before: before.clone(), step, after: Known::of(digest), yes }
}

impl Asked {
    fn ours(&self) -> ([u64; 3], Option<bool>) {
        let mut digest = ours::Digest(self.before.masks);
        let mut yes = None;
        match &self.step {
            Step::New => digest = ours::Digest::new(self.before.masks),
            Step::Full => digest = ours::Digest::full(self.before.masks),
            Step::Clear => digest.clear(),
            Step::Union(other) => digest.union(other.masks),
            Step::Add(g) => digest.add(*g),
            Step::AddArray(glyphs) => digest.add_array(glyphs),
            Step::AddRange(a, b) => yes = Some(digest.add_range(*a, *b)),
            Step::MayHave(g) => yes = Some(digest.may_have(*g)),
            Step::MayIntersect(other) => yes = Some(digest.may_intersect(&other.masks)),
        }
        (digest.0, yes)
    }

    fn shown(&self) -> String {
        let step = match &self.step {
            Step::New => "new".to_string(),
            Step::Full => "full".to_string(),
            Step::Clear => "clear".to_string(),
            Step::Union(other) => format!("union {:X?}", other.masks),
            Step::Add(g) => format!("add {g:X}"),
            Step::AddArray(glyphs) => format!("add_array {glyphs:X?}"),
            Step::AddRange(a, b) => format!("add_range {a:X} {b:X}"),
            Step::MayHave(g) => format!("may_have {g:X}"),
            Step::MayIntersect(other) => format!("may_intersect {:X?}", other.masks),
        };
        format!("{step} on {:X?}", self.before.masks)
    }

    fn compare(&self, summary: &mut Summary, trial: Option<&'static DigestTrial>) {
        self.count(summary);
        let original = (self.after.masks, self.yes);
        let ours = trial.map_or_else(|| self.ours(), |trial| trial.answer(self, Asked::ours));
        summary.compare(&original, &ours, || None, || self.shown());
    }

    /// Which clauses of the original's code this step went through.
    fn count(&self, summary: &mut Summary) {
        let [yes, no] = [self.yes == Some(true), self.yes == Some(false)];
        let changed = self.after.masks != self.before.masks;
        match &self.step {
            Step::New | Step::Full | Step::Clear => summary.decided("new, full, clear"),
            Step::Union(_) if changed => summary.decided("union: brings bits"),
            Step::Union(_) => summary.decided("union: brings no bit"),
            Step::Add(_) if changed => summary.decided("add: sets a bit"),
            Step::Add(_) => summary.decided("add: finds its bits set"),
            Step::AddArray(glyphs) if glyphs.is_empty() => summary.decided("add_array: empty"),
            Step::AddArray(_) => summary.decided("add_array: 1 to 20 glyphs"),
            Step::AddRange(..) if self.before.masks == [u64::MAX; 3] => {
                summary.decided("add_range: all masks full before, no");
            }
            Step::AddRange(a, b) => {
                for (i, shift) in SHIFTS.into_iter().enumerate() {
                    summary.decided(RANGE[i][course(*a, *b, shift) as usize]);
                    if a > b && a >> shift == b >> shift {
                        summary.decided("add_range: a past b with one shifted value");
                    }
                }
                summary.decided(if yes {
                    "add_range: yes"
                } else {
                    "add_range: wide at every shift, no"
                });
            }
            Step::MayHave(_) if yes => summary.decided("may_have: yes"),
            Step::MayHave(g) => {
                let lacks = |i: usize| self.before.masks[i] >> (g >> SHIFTS[i] & 63) & 1 == 0;
                summary.decided(HAVE_NO[(0..3).find(|&i| lacks(i)).expect("a reason")]);
            }
            Step::MayIntersect(other) if no => {
                let apart = |i: usize| self.before.masks[i] & other.masks[i] == 0;
                summary.decided(INTERSECT_NO[(0..3).find(|&i| apart(i)).expect("a reason")]);
            }
            Step::MayIntersect(_) => summary.decided("may_intersect: yes"),
        }
    }
}

/// How a range runs over one mask.
#[derive(Clone, Copy)]
enum Course {
    Wide,
    Past,
    Straight,
    Round,
}

fn course(a: u32, b: u32, shift: u32) -> Course {
    let (a, b) = (a >> shift, b >> shift);
    match (a > b, b.wrapping_sub(a) >= 63, a & 63 > b & 63) {
        (true, ..) => Course::Past,
        (_, true, _) => Course::Wide,
        (.., false) => Course::Straight,
        (.., true) => Course::Round,
    }
}

const RANGE: [[&str; 4]; 3] = [
    [
        "add_range, shift 4: 63 or more apart",
        "add_range, shift 4: a past b",
        "add_range, shift 4: straight",
        "add_range, shift 4: round past 63",
    ],
    [
        "add_range, shift 0: 63 or more apart",
        "add_range, shift 0: a past b",
        "add_range, shift 0: straight",
        "add_range, shift 0: round past 63",
    ],
    [
        "add_range, shift 6: 63 or more apart",
        "add_range, shift 6: a past b",
        "add_range, shift 6: straight",
        "add_range, shift 6: round past 63",
    ],
];
const HAVE_NO: [&str; 3] =
    ["may_have: no by shift 4", "may_have: no by shift 0", "may_have: no by shift 6"];
const INTERSECT_NO: [&str; 3] = [
    "may_intersect: no by shift 4",
    "may_intersect: no by shift 0",
    "may_intersect: no by shift 6",
];

fn clauses() -> Vec<&'static str> {
    let mut names = vec![
        "new, full, clear",
        "union: brings bits",
        "union: brings no bit",
        "add: sets a bit",
        "add: finds its bits set",
        "add_array: empty",
        "add_array: 1 to 20 glyphs",
        "add_range: all masks full before, no",
    ];
    names.extend(RANGE.concat());
    names.extend([
        "add_range: a past b with one shifted value",
        "add_range: yes",
        "add_range: wide at every shift, no",
    ]);
    names.push("may_have: yes");
    names.extend(HAVE_NO);
    names.push("may_intersect: yes");
    names.extend(INTERSECT_NO);
    names.extend(RULE);
    names
}

#[derive(Clone, Copy, Debug)]
pub enum RuleStep {
    New,
    Full,
    Add(u32),
    IsFull,
    MayHave(u32),
}

const RULE: [&str; 7] = [
    "rule new, rule full",
    "rule add: sets a bit",
    "rule add: finds its bit set",
    "rule is_full: yes",
    "rule is_full: no",
    "rule may_have: yes",
    "rule may_have: no",
];

/// A step on the small digest with what the original made of it.
#[derive(Clone)]
pub struct AskedRule {
    pub before: u64,
    pub step: RuleStep,
    pub after: u64,
    pub yes: Option<bool>,
}

fn ask_rule(digest: &mut RuleDigest, step: RuleStep) -> AskedRule {
    let before = digest.mask();
    let mut yes = None;
    match step {
        RuleStep::New => *digest = RuleDigest::new(),
        RuleStep::Full => *digest = RuleDigest::full(),
        RuleStep::Add(value) => digest.add(value),
        RuleStep::IsFull => yes = Some(digest.is_full()),
        RuleStep::MayHave(value) => yes = Some(digest.may_have(value)),
    }
    AskedRule { before, step, after: digest.mask(), yes }
}

impl AskedRule {
    fn ours(&self) -> (u64, Option<bool>) {
        let mut digest = ours::RuleDigest(self.before);
        let mut yes = None;
        match self.step {
            RuleStep::New => digest = ours::RuleDigest::new(),
            RuleStep::Full => digest = ours::RuleDigest::full(),
            RuleStep::Add(value) => digest.add(value),
            RuleStep::IsFull => yes = Some(digest.is_full()),
            RuleStep::MayHave(value) => yes = Some(digest.may_have(value)),
        }
        (digest.0, yes)
    }

    fn compare(&self, summary: &mut Summary, trial: Option<&'static RuleTrial>) {
        summary.decided(match (self.step, self.yes, self.before == self.after) {
            (RuleStep::New | RuleStep::Full, ..) => RULE[0],
            (RuleStep::Add(_), _, false) => RULE[1],
            (RuleStep::Add(_), _, true) => RULE[2],
            (RuleStep::IsFull, Some(true), _) => RULE[3],
            (RuleStep::IsFull, ..) => RULE[4],
            (RuleStep::MayHave(_), Some(true), _) => RULE[5],
            (RuleStep::MayHave(_), ..) => RULE[6],
        });
        let shown = || format!("rule {:X?} on {:X}", self.step, self.before);
        let ours = trial.map_or_else(|| self.ours(), |trial| trial.answer(self, AskedRule::ours));
        summary.compare(&(self.after, self.yes), &ours, || None, shown);
    }
}

/// Random steps over a few digests of the original.
pub struct Source<'a> {
    random: &'a mut Random,
    digests: [Known; 4],
    lacking: Vec<Known>,
    rules: [RuleDigest; 3],
    recent: [u32; 8],
}

impl<'a> Source<'a> {
    pub fn new(random: &'a mut Random) -> Self {
        let lacking = SHIFTS
            .into_iter()
            .flat_map(|shift| [0, 1, 31, 62, 63].map(|bit| Known::lacking(shift, bit)));
        Self {
            random,
            digests: [(); 4].map(|()| Known::new()),
            lacking: lacking.collect(),
            rules: [RuleDigest::new(); 3],
            recent: [0; 8],
        }
    }

    pub fn next(&mut self) -> Asked {
        let at = self.random.below(4) as usize;
        // Digests fill up: most are started over while they are nearly empty,
        // and some begin nearly full.
        let before = match self.random.below(40) {
            0..=7 => Known::new(),
            8 => Known::full(),
            9 => self.lacking[self.random.below(self.lacking.len() as u64) as usize].clone(),
            _ => self.digests[at].clone(),
        };
        let step = self.step();
        let asked = ask(&before, step);
        self.digests[at] = asked.after.clone();
        asked
    }

    fn step(&mut self) -> Step {
        match self.random.below(32) {
            0 => Step::New,
            1 if self.random.one_in(6) => Step::Full,
            2 => Step::Clear,
            3 | 4 => Step::Union(self.other()),
            5..=10 => Step::Add(self.glyph()),
            11 | 12 => {
                let n = self.random.pick(&[0, 1, 2, 3, 4, 8, 20]);
                Step::AddArray((0..n).map(|_| self.glyph()).collect())
            }
            13..=21 => {
                let (a, b) = self.range();
                Step::AddRange(a, b)
            }
            22..=28 => Step::MayHave(self.glyph()),
            _ => Step::MayIntersect(self.other()),
        }
    }

    /// Another of the digests, or one of a single glyph, which meets few bits.
    fn other(&mut self) -> Known {
        match self.random.one_in(2) {
            true => self.digests[self.random.below(4) as usize].clone(),
            false => ask(&Known::new(), Step::Add(self.glyph())).after,
        }
    }

    /// Often one that was used before, so that a yes is not always by chance,
    /// or one that differs from it in a single bit, which not each mask sees.
    fn glyph(&mut self) -> u32 {
        let random = &mut *self.random;
        let at = random.below(8) as usize;
        let g = match random.below(10) {
            0..=2 => return self.recent[at],
            8 | 9 => return self.recent[at] ^ 1 << random.below(12),
            3 => random.below(256) as u32,
            4 => {
                let unit = random.pick(&[16, 64, 1024, 4096]);
                (unit * random.below(70)).wrapping_add(random.below(5)).wrapping_sub(2) as u32
            }
            5 => random.below(65_536) as u32,
            6 => random.near(&[0], 5000) as u32,
            _ => random.next() as u32,
        };
        self.recent[at] = g;
        g
    }

    fn range(&mut self) -> (u32, u32) {
        let a = self.glyph();
        let shift = self.random.pick(&SHIFTS);
        let away = match self.random.below(8) {
            0 => self.random.below(4) as u32,
            1 | 2 => self.random.below(80) as u32,
            // round the length at which a mask fills
            3 | 4 => (63 << shift) + self.random.below(4 << shift) as u32 - (2 << shift),
            5 => (self.random.next() as u32) >> self.random.below(32),
            _ => return (a, self.glyph()),
        };
        match self.random.one_in(4) {
            true => (a, a.wrapping_sub(away)),
            false => (a, a.wrapping_add(away)),
        }
    }

    pub fn next_rule(&mut self) -> AskedRule {
        let value = match self.random.below(4) {
            0 => self.random.next() as u32,
            1 => self.random.near(&[0], 130) as u32,
            _ => self.random.below(64) as u32,
        };
        let step = match self.random.below(128) {
            0 => RuleStep::New,
            1 => RuleStep::Full,
            2..=80 => RuleStep::Add(value),
            81..=90 => RuleStep::IsFull,
            _ => RuleStep::MayHave(value),
        };
        let at = self.random.below(3) as usize;
        ask_rule(&mut self.rules[at], step)
    }
}

/// End points round the multiples at which a mask's bit changes or comes round
/// again, and at both ends of u32.
pub fn end_points() -> Vec<u32> {
    let round = [0u32, 16, 64, 1008, 1024, 4032, 4096, 65_536];
    let mut points: Vec<u32> = round.iter().flat_map(|p| [p.wrapping_sub(1), *p, p + 1]).collect();
    points.extend([
        63 * 16 - 16,
        63 * 64 - 64,
        u32::MAX - 15,
        u32::MAX - 63,
        u32::MAX - 1023,
        u32::MAX - 4095,
    ]);
    points.extend([62, 126, 127, 1 << 31, u32::MAX - 1]);
    points.sort_unstable();
    points.dedup();
    points
}

pub fn starts() -> Vec<Known> {
    let mut starts = vec![Known::new(), Known::full()];
    starts.extend(SHIFTS.map(|shift| Known::lacking(shift, 63)));
    starts.push(ask(&Known::new(), Step::AddArray(vec![0, 77, 4660, u32::MAX])).after);
    starts
}

/// The single bit that a digest lacks, asked for and then brought, for each
/// bit: what one mask alone decides.
pub fn lacking() -> impl Iterator<Item = Asked> {
    let bits = SHIFTS.into_iter().flat_map(|shift| (0..64).map(move |bit| (shift, bit)));
    bits.flat_map(|(shift, bit)| {
        let (before, g) = (Known::lacking(shift, bit), bit << shift);
        let alone = ask(&Known::new(), Step::Add(g)).after;
        [Step::MayHave(g), Step::MayIntersect(alone), Step::AddRange(g, g), Step::Add(g)]
            .map(|step| ask(&before, step))
    })
}

/// The same for the small digest.
pub fn lacking_rule() -> impl Iterator<Item = AskedRule> {
    (0..64).flat_map(|bit| {
        let mut digest = RuleDigest::new();
        (0..64).filter(|&other| other != bit).for_each(|other| digest.add(other));
        [RuleStep::IsFull, RuleStep::MayHave(bit), RuleStep::Add(bit), RuleStep::IsFull]
            .map(|step| ask_rule(&mut digest, step))
    })
}

/// Every range over the end points, and every glyph up to 4,096 and from
/// 2^32 - 4,096, on each start; and each bit that is lacking.
fn exhaustive(summary: &mut Summary, trials: Trials) {
    let Trials(trial, rule_trial) = trials;
    let points = end_points();
    for start in starts() {
        for &a in &points {
            for &b in &points {
                summary.input("ranges over the end points");
                ask(&start, Step::AddRange(a, b)).compare(summary, trial);
            }
        }
        for g in (0..=4096).chain(u32::MAX - 4096..=u32::MAX) {
            for step in [Step::Add(g), Step::MayHave(g)] {
                summary.input("each glyph at the ends, added and asked for");
                ask(&start, step).compare(summary, trial);
            }
        }
    }
    for asked in lacking() {
        summary.input("the one bit that is lacking");
        asked.compare(summary, trial);
    }
    for asked in lacking_rule() {
        summary.input("the one bit that is lacking");
        asked.compare(summary, rule_trial);
    }
    for value in 0..=256 {
        summary.input("rule values to 256");
        ask_rule(&mut RuleDigest::new(), RuleStep::Add(value)).compare(summary, rule_trial);
    }
}

/// Of the digest of three masks, and of that of one.
#[derive(Clone, Copy)]
struct Trials(Option<&'static DigestTrial>, Option<&'static RuleTrial>);

pub struct Digests {
    pub summary: Summary,
    trials: Trials,
}

impl Digests {
    fn under(trials: Trials) -> Self {
        Self { summary: Summary::new("digests", &clauses()), trials }
    }

    pub fn new(trial: Option<&'static DigestTrial>) -> Self {
        Self::under(Trials(trial, None))
    }

    pub fn of_rules(trial: Option<&'static RuleTrial>) -> Self {
        Self::under(Trials(None, trial))
    }
}

pub fn comparison() -> Box<dyn Comparison> {
    Box::new(Digests::new(None))
}

impl Comparison for Digests {
    fn exhaust(&mut self) {
        exhaustive(&mut self.summary, self.trials);
    }

    fn draw(&mut self, steps: u64, seed: u64) {
        let mut random = Random::new(seed);
        let mut source = Source::new(&mut random);
        for step in 0..steps {
            if step % 8 == 0 {
                self.summary.input("random steps on one mask");
                source.next_rule().compare(&mut self.summary, self.trials.1);
            } else {
                self.summary.input("random steps on three masks");
                source.next().compare(&mut self.summary, self.trials.0);
            }
        }
    }

    fn finish(self: Box<Self>) -> Summary {
        self.summary
    }
}
