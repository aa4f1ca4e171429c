//! The three matchers: the original, ours and the plain second implementation
//! of the paper. Calls that the paper refuses before it looks at a glyph, and
//! texts that the original can't hold, are compared with the paper alone.
use crate::differences;
use crate::draw;
use crate::kinds::Comparison;
use crate::ours::{self, Answer};
use crate::paper;
use crate::paper::matchers::{self, By};
use crate::paper::MOST_GLYPHS;
use crate::progress::grouped;
use crate::random::Random;
use crate::summary::Summary;
use crate::trials::Trial;
use original::glyphs::Glyph;
use original::matches::{with_text, Held, Text};
use original::terms::{Call, Matched, May, Role, Setup, Testing, TESTINGS};

/// A text under a lookup.
#[derive(Clone)]
pub struct Case {
    pub setup: Setup,
    pub done: Vec<Glyph>,
    pub d: usize,
    pub coming: Vec<Glyph>,
    pub len: usize,
    pub idx: usize,
    /// What ours is lent: the same, unless a call is damaged.
    pub words: [Vec<u32>; 2],
}

impl Case {
    /// The whole of both rows counts.
    pub fn new(setup: Setup, done: Vec<Glyph>, coming: Vec<Glyph>, idx: usize) -> Self {
        let (d, len) = (done.len(), coming.len());
        let words = [draw::words(&done), draw::words(&coming)];
        Self { setup, done, d, coming, len, idx, words }
    }

    pub fn lent(&self) -> matchers::Text<'_> {
        let Self { setup, d, len, idx, words: [done, coming], .. } = self;
        matchers::Text { setup, done, d: *d, coming, len: *len, idx: *idx }
    }

    pub fn text(&self) -> Text<'_> {
        let Self { setup, done, d, coming, len, idx, .. } = self;
        Text { setup, done, d: *d, coming, len: *len, idx: *idx }
    }

    /// The text without the bit that means something to the original alone.
    pub fn without_substituted(&self) -> Self {
        let clear = |row: &[Glyph]| row.iter().map(draw::without_substituted).collect();
        Self { done: clear(&self.done), coming: clear(&self.coming), ..self.clone() }
    }
}

/// What is asked of a text.
#[derive(Clone, Debug)]
pub struct Question {
    pub call: Call,
    pub testing: Testing,
    pub spare: u8,
    pub values: Vec<u32>,
}

impl Question {
    pub fn original(&self, held: &mut Held) -> Matched {
        held.ask(self.call, self.testing, &self.values)
    }
    pub fn ours(&self, case: &Case) -> Answer {
        let test = ours::test_number(self.testing, self.spare);
        ours::matched(&case.lent(), self.call, test, &self.values)
    }
    pub fn paper(&self, case: &Case, by: impl FnMut(By)) -> Result<Matched, u8> {
        matchers::answer(&case.lent(), self.call, self.testing, &self.values, by)
    }
}

const SEVERAL_FAULTS: &str = "refusal 1: several of these at once, matchers";
const CALLS: [&str; 3] = ["input", "lookahead", "backtrack"];

fn row_of(call: Call) -> usize {
    match call {
        Call::Input => 0,
        Call::Lookahead(_) => 1,
        Call::Backtrack => 2,
    }
}

pub type MatchTrial = Trial<(Case, Question), Answer>;

/// Asks all sides, and counts what decided.
pub struct Asker {
    pub summary: Summary,
    trial: Option<&'static MatchTrial>,
    by: [u64; matchers::NAMES.len()],
    /// By call and number of values: how many were asked, and matched.
    numbers: [[[u64; 2]; 66]; 3],
    with_original: u64,
    without_original: u64,
    without_total: u64,
    with_total: u64,
}

impl Asker {
    pub fn new(trial: Option<&'static MatchTrial>) -> Self {
        let names = [&matchers::NAMES[..], &matchers::FAULTS, &[SEVERAL_FAULTS]].concat();
        Self {
            summary: Summary::new("matches", &names),
            trial,
            by: [0; matchers::NAMES.len()],
            numbers: [[[0; 2]; 66]; 3],
            with_original: 0,
            without_original: 0,
            without_total: 0,
            with_total: 0,
        }
    }

    fn count_clauses(&mut self) {
        for (name, times) in matchers::NAMES.iter().zip(self.by) {
            self.summary.decided_times(name, times);
        }
        for (call, counts) in CALLS.iter().zip(self.numbers) {
            let most = if *call == "input" { 63 } else { 64 };
            let least = |from: &[[u64; 2]], which: usize| {
                from.iter().map(|counts| counts[which]).min().unwrap_or(0)
            };
            let [matched, asked] = [least(&counts[..=most], 1), least(&counts, 0)];
            self.summary.note(format!(
                "{call}: each number of values from 0 to 65 asked {asked} times and more, each to {most} matched {matched} times and more"
            ));
        }
        self.summary.note(format!(
            "{} with three answers: the original's, ours and that of 01",
            grouped(self.with_original)
        ));
        self.summary.note(format!(
            "{} that no refusal stops, of texts that the original can't hold: compared with 01 alone",
            grouped(self.without_original)
        ));
        self.summary.note(format!(
            "{} input matches with the original's total, {} where it can't hold the counts: their total is compared with 01 alone",
            grouped(self.with_total),
            grouped(self.without_total)
        ));
    }

    /// In a trial a wrong answer stands in for ours.
    fn ours(&self, case: &Case, question: &Question) -> Answer {
        match self.trial {
            None => question.ours(case),
            Some(trial) => trial
                .answer(&(case.clone(), question.clone()), |(case, question)| question.ours(case)),
        }
    }

    fn ask(&mut self, case: &Case, held: Option<&mut Held>, question: &Question) {
        let call = question.call;
        let paper = question.paper(case, |by| self.by[by as usize] += 1);
        let ours = self.ours(case, question);
        let counts = &mut self.numbers[row_of(call)];
        if let Some(counts) = counts.get_mut(question.values.len()) {
            counts[0] += 1;
            let matched = matches!(paper, Ok(Matched::Input { .. } | Matched::Context(_)));
            counts[1] += u64::from(matched);
        }
        let shown = || shown(case, question);
        let expected = Answer::of(call, &paper);
        self.summary.compare_with_paper(&expected, &ours, shown);
        if paper.is_err() {
            return;
        }
        let Some(held) = held else {
            self.without_original += 1;
            return;
        };
        self.with_original += 1;
        let original = question.original(held);
        match original {
            Matched::Input { total: Some(_), .. } => self.with_total += 1,
            Matched::Input { total: None, .. } => self.without_total += 1,
            _ => {}
        }
        let told = beside(call, original, expected);
        let explained = || {
            let cleared = case.without_substituted();
            let anew = with_text(cleared.text(), |held| question.original(held));
            let anew = anew.map(|anew| beside(call, anew, expected));
            if wrapped(told, ours) {
                Some(&differences::TOTALS)
            } else if anew.is_some_and(|anew| anew == ours || wrapped(anew, ours)) {
                Some(&differences::SUBSTITUTED_IGNORABLE)
            } else {
                None
            }
        };
        self.summary.compare(&told, &ours, explained, shown);
    }

    /// Several questions about a text.
    fn ask_all(&mut self, kind: &'static str, case: &Case, questions: &[Question]) {
        let asked = with_text(case.text(), |held| {
            for question in questions {
                self.summary.input(kind);
                self.ask(case, Some(held), question);
            }
        });
        if asked.is_none() {
            for question in questions {
                self.summary.input(kind);
                self.ask(case, None, question);
            }
        }
        let [done, coming] = &case.words;
        if case.done.len() * 4 == done.len() && case.coming.len() * 4 == coming.len() {
            let same = *done == draw::words(&case.done) && *coming == draw::words(&case.coming);
            self.summary.compare_with_paper(&true, &same, || "a row after matching".to_string());
        }
    }
}

/// The original's answer; with the paper's total where it has none.
pub fn beside(call: Call, original: Matched, expected: Answer) -> Answer {
    let unknown = matches!(original, Matched::Input { total: None, .. });
    let mut told = Answer::of(call, &Ok(original));
    if let (true, Answer::Input(told), Answer::Input(expected)) = (unknown, &mut told, expected) {
        told.total = expected.total;
    }
    told
}

/// Whether the only difference is that the original's total has eight bits.
pub fn wrapped(original: Answer, ours: Answer) -> bool {
    match (original, ours) {
        (Answer::Input(original), Answer::Input(ours)) => {
            let total = ours.total & 0xFF;
            ours.total > 0xFF && original == ours::CMatched { total, ..ours }
        }
        _ => false,
    }
}

fn shown(case: &Case, question: &Question) -> String {
    let Case { setup, done, d, coming, len, idx, words } = case;
    let [m, n] = [words[0].len(), words[1].len()];
    let rows = format!("{done:08X?} ({m} words), {coming:08X?} ({n} words)");
    let rows = if rows.len() < 4000 { rows } else { format!("{m} and {n} words") };
    format!("{question:X?}, d {d}, len {len}, idx {idx}, {setup:X?}, {rows}")
}

// ---- every text of few glyphs

const fn glyph(id: u32, flags: u32, props: u32, ligature: u32) -> Glyph {
    [id, 1, flags << 24 | 1 << 16 | props, ligature]
}

/// What may come: each way to be attached or not, a ligature, which some
/// lookups ignore, a default ignorable, a glyph of another id.
pub const COMING: [Glyph; 9] = [
    glyph(7, 0, 0, 0x0000_0101),
    glyph(7, 0, 0, 0x0101_0100),
    glyph(7, 0, 0, 0x0102_0101),
    glyph(7, 0, 0, 0x0201_0101),
    glyph(7, 0, 0, 0x0100_0101),
    glyph(7, 0, 4, 0x0100_0302),
    glyph(9, 1, 0, 0x0101_0101),
    glyph(9, 0, 0, 0x0000_0201),
    glyph(7, 0, 0, 0x0001_0101),
];

/// What may be done: bases under which skip is Yes, Maybe or No, a glyph of
/// the same id that is no base, a base and a mark of another.
pub const DONE: [Glyph; 6] = [
    glyph(7, 0, 4, 0x0100_0202),
    glyph(7, 1, 0, 0x0100_0101),
    glyph(7, 0, 0, 0x0100_0101),
    glyph(9, 0, 0, 0x0101_0101),
    glyph(7, 0, 4, 0x0200_0202),
    glyph(9, 0, 0, 0x0201_0101),
];

/// Every row of up to `most` of these glyphs.
fn rows(of: &[Glyph], least: u32, most: u32) -> Vec<Vec<Glyph>> {
    let number =
        |count: u32, n: usize| (0..count).map(|i| of[n / of.len().pow(i) % of.len()]).collect();
    (least..=most)
        .flat_map(|count| (0..of.len().pow(count)).map(move |n| number(count, n)))
        .collect()
}

pub fn plain(gpos: bool, props: u32) -> Setup {
    Setup { gpos, props, mask: 1, ..Setup::default() }
}

fn question(call: Call, testing: Testing, values: &[u32]) -> Question {
    Question { call, testing, spare: 0, values: values.to_vec() }
}

/// The input matcher over every text of up to 3 glyphs that come and 2 that
/// are done; lookahead and backtrack, which each look at one row, over every
/// such row, from every start and cursor.
fn every_text(asker: &mut Asker) {
    let input = |testing, values| question(Call::Input, testing, values);
    let asked = [
        input(Testing::Equal, &[7]),
        input(Testing::Equal, &[7, 9]),
        input(Testing::Any, &[0, 0]),
        input(Testing::Nothing, &[0]),
    ];
    let both: Vec<(bool, u32)> = vec![(false, 4), (false, 0), (true, 4)];
    for (gpos, props) in both {
        for done in rows(&DONE, 0, if gpos { 1 } else { 2 }) {
            for coming in rows(&COMING, 1, 3) {
                let case = Case::new(plain(gpos, props), done.clone(), coming, 0);
                asker.ask_all("input over every text to 2 + 3 glyphs", &case, &asked);
            }
        }
    }
    for (gpos, props) in [(false, 4), (false, 0), (true, 4), (true, 0)] {
        for row in rows(&COMING, 1, 3) {
            every_context(asker, plain(gpos, props), row);
        }
    }
}

fn every_context(asker: &mut Asker, setup: Setup, row: Vec<Glyph>) {
    let values: [(Testing, &[u32]); 4] = [
        (Testing::Equal, &[7]),
        (Testing::Equal, &[9, 7]),
        (Testing::Any, &[0, 0]),
        (Testing::Nothing, &[0]),
    ];
    for idx in 0..row.len() {
        let ahead = (0..=row.len()).map(Call::Lookahead);
        let calls: Vec<Call> = ahead.chain([Call::Backtrack]).collect();
        let asked: Vec<Question> = calls
            .iter()
            .flat_map(|&call| values.map(|(testing, values)| question(call, testing, values)))
            .collect();
        let case = Case::new(setup.clone(), row.clone(), row.clone(), idx);
        asker.ask_all("context over every row to 3 glyphs", &case, &asked);
    }
}

// ---- every number of values

/// Glyphs that are sought, one of them a ligature of 15 components, so that
/// totals pass 255, and two that are passed over under flag 8.
pub const SOUGHT: Glyph = glyph(7, 0, 0, 0x0000_0101);
const WIDE: Glyph = glyph(7, 0, 4, 0x0000_0F0F);
pub const MARK: Glyph = glyph(9, 0, 8, 0x0000_0101);
pub const IGNORABLE: Glyph = glyph(9, 1, 0, 0x0000_0101);

/// A text in which a matcher finds exactly `there` values in either direction:
/// as often what is passed over, then a glyph that is sought.
pub fn numbered(gpos: bool, there: usize, sought: Glyph, between: &[Glyph]) -> Case {
    let one = [between, &[sought]].concat();
    let row: Vec<Glyph> = (0..there).flat_map(|_| one.iter().copied()).collect();
    let cursor = if gpos { row.len() } else { 0 };
    let before = if gpos { row.clone() } else { vec![] };
    let coming = [before, vec![SOUGHT], row.clone()].concat();
    Case::new(plain(gpos, 8), row, coming, cursor)
}

fn every_number(asker: &mut Asker) {
    for n in 0..=65usize {
        for there in [n.saturating_sub(1), n, n + 1] {
            let rows = [(SOUGHT, &[][..]), (SOUGHT, &[MARK]), (WIDE, &[MARK, IGNORABLE])];
            for (sought, between) in rows {
                for gpos in [false, true] {
                    let case = numbered(gpos, there, sought, between);
                    let start = case.idx + 1;
                    let calls = [Call::Input, Call::Lookahead(start), Call::Backtrack];
                    let asked: Vec<Question> = calls
                        .iter()
                        .flat_map(|&call| TESTINGS.map(|t| question(call, t, &vec![7; n])))
                        .collect();
                    asker.ask_all("every number of values from 0 to 65", &case, &asked);
                }
            }
        }
    }
}

// ---- random texts

/// Few numbers of ligatures, so that glyphs share them, with every width and
/// now and then more of them than the original can hold.
struct Ligatures {
    ids: Vec<u32>,
    components: Vec<u32>,
}

impl Ligatures {
    fn draw(random: &mut Random) -> Self {
        let some = |random: &mut Random, narrow: u64| -> Vec<u32> {
            match random.below(16) {
                0 => (0..40).map(|_| random.below(256) as u32).collect(),
                1..=4 => (0..4).map(|_| 1 + random.below(255) as u32).chain([0]).collect(),
                5 => vec![0],
                _ => vec![0, 1, 1, 1, random.below(narrow) as u32, 2],
            }
        };
        Self { ids: some(random, 8), components: some(random, 16) }
    }

    /// The word, with counts that the original mostly holds.
    fn word(&self, random: &mut Random) -> u32 {
        let counts = match random.below(16) {
            0 | 1 => 0x0100,
            2 | 3 => random.below(16) as u32 * 0x0101,
            4 => random.next() as u32 & 0xFFFF,
            5 => 0x0201,
            6 => 0x0F0F,
            _ => 0x0101,
        };
        random.pick(&self.ids) << 24 | random.pick(&self.components) << 16 | counts
    }
}

/// Mostly glyphs that a match gets past: few of them have another mask or
/// syllable.
fn calm_glyph(random: &mut Random, ligatures: &Ligatures) -> Glyph {
    let flags = random.pick(&[0, 0, 0, 0, 0, 0, 1, 1, 1, 3, 5, 9]);
    let props = random.pick(&[0, 0, 2, 4, 4, 8, 0x108, 0x208]);
    let syllable = if random.one_in(16) { draw::syllable(random) } else { 1 };
    let mask = if random.one_in(24) { 2 } else { 1 };
    let id = random.pick(&[5, 7, 7, 7, 9]);
    let word2 = flags << 24 | u32::from(syllable) << 16 | props;
    [id, mask, word2, ligatures.word(random)]
}

fn calm_setup(random: &mut Random) -> Setup {
    let setup = draw::setup(random);
    let props = random.pick(&[0, 0, 2, 4, 4, 4, 6, 8, 0xC, 0x10, 0x1_0010, 0x100, 0x200]);
    Setup { mask: 1, props, sets: vec![0, 9, 1, 7, 0, 5], ..setup }
}

/// Mostly short; some as long as a row may be.
fn counts(random: &mut Random) -> [usize; 2] {
    match random.below(1000) {
        0 => [random.near(&[MOST_GLYPHS as u64 - 1], 1) as usize, random.below(4) as usize],
        1 => [random.below(4) as usize, random.near(&[MOST_GLYPHS as u64 - 1], 1) as usize],
        2 => [MOST_GLYPHS; 2],
        3..=40 => [random.below(90) as usize, random.below(90) as usize],
        _ => [random.below(6) as usize, 1 + random.below(9) as usize],
    }
}

/// A text with attached marks: often what is done ends in a base with marks of
/// the cursor glyph's id behind it.
pub fn calm_case(random: &mut Random, [before, after]: [usize; 2]) -> Case {
    let ligatures = Ligatures::draw(random);
    let draw_row = |random: &mut Random, count: usize| -> Vec<Glyph> {
        (0..count).map(|_| calm_glyph(random, &ligatures)).collect()
    };
    let (mut done, mut coming) = (draw_row(random, before), draw_row(random, after));
    let idx = cursor(random, after);
    if random.one_in(2) && !coming.is_empty() {
        let id = random.pick(&ligatures.ids).max(1) << 24;
        let attach = |random: &mut Random, g: &mut Glyph| {
            g[3] = id | random.pick(&ligatures.components).max(1) << 16 | g[3] & 0xFFFF;
        };
        let behind = (random.below(3) as usize).min(done.len());
        let base = done.len() - behind;
        done[base..].iter_mut().for_each(|g| attach(random, g));
        if let (Some(base), false) = (base.checked_sub(1), random.one_in(6)) {
            done[base][3] = id | done[base][3] & 0xFFFF;
            if random.one_in(2) {
                done[base][2] = done[base][2] & !0xF | 4;
            }
        }
        coming[idx.min(after - 1)..].iter_mut().take(2).for_each(|g| attach(random, g));
    }
    let case = Case::new(calm_setup(random), done, coming, idx);
    shortened(random, case)
}

/// Any words.
pub fn wild_case(random: &mut Random, [before, after]: [usize; 2]) -> Case {
    let (done, coming) = (draw::row(random, before), draw::row(random, after));
    let idx = cursor(random, after);
    let case = Case::new(draw::setup(random), done, coming, idx);
    shortened(random, case)
}

/// Now and then not the whole of a row counts.
fn shortened(random: &mut Random, case: Case) -> Case {
    let mut cut = |whole: usize| match random.one_in(6) {
        true => random.up_to(whole as u64) as usize,
        false => whole,
    };
    Case { d: cut(case.d), len: cut(case.len), ..case }
}

/// Mostly the first glyph, under GPOS something must stand before it.
fn cursor(random: &mut Random, len: usize) -> usize {
    match random.below(10) {
        0..=4 => 0,
        5 => len.saturating_sub(1),
        6 => len.min(1),
        _ => random.below(len.max(1) as u64) as usize,
    }
}

fn start(random: &mut Random, case: &Case) -> usize {
    match random.below(16) {
        0 => 0,
        1 => case.len,
        2 => case.idx.min(case.len),
        3 => case.len.saturating_sub(1),
        4..=8 => random.up_to(case.len as u64) as usize,
        _ => case.idx.saturating_add(1).min(case.len),
    }
}

/// The ids of the glyphs that a matcher may take, in their order, with a
/// stranger now and then.
fn values(random: &mut Random, case: &Case, call: Call, count: usize) -> Vec<u32> {
    let role = if call == Call::Input { Role::Input } else { Role::Context };
    let matcher = paper::matcher(&case.setup, role);
    let len = case.len.min(case.coming.len());
    let (row, places): (_, Vec<usize>) = match call {
        Call::Input => (1, (case.idx.saturating_add(1)..len).collect()),
        Call::Lookahead(start) => (1, (start..len).collect()),
        Call::Backtrack if case.setup.gpos => (1, (0..case.idx.min(len)).rev().collect()),
        Call::Backtrack => (0, (0..case.d.min(case.done.len())).rev().collect()),
    };
    let words = &case.words[row];
    let mut values = vec![];
    for place in places {
        if values.len() == count {
            break;
        }
        let test = original::terms::Test::Any;
        let skip = paper::judge(&matcher, words, place, test, 0).skip;
        if skip == May::No || (skip == May::Maybe && random.one_in(2)) {
            values.push(words[4 * place]);
        }
    }
    values.resize_with(count, || draw::id(random));
    if random.one_in(8) && count > 0 {
        let at = random.below(count as u64) as usize;
        values[at] = draw::id(random);
    }
    values
}

/// How many values: few, or as many as there may be glyphs.
fn how_many(random: &mut Random, case: &Case) -> usize {
    match random.below(12) {
        0 => 0,
        1 if case.len > 30 => random.pick(&[61, 62, 63, 64, 65]),
        2 => random.up_to(case.len.min(65) as u64) as usize,
        _ => 1 + random.below(3) as usize,
    }
}

pub fn draw_question(random: &mut Random, case: &Case, call: Call) -> Question {
    let count = how_many(random, case);
    let testing = random.pick(&[Testing::Equal, Testing::Equal, Testing::Any, Testing::Nothing]);
    let values = values(random, case, call, count);
    Question { call, testing, spare: random.next() as u8, values }
}

fn random_text(asker: &mut Asker, random: &mut Random) -> u64 {
    let counts = counts(random);
    let case = match random.one_in(3) {
        true => wild_case(random, counts),
        false => calm_case(random, counts),
    };
    let calls = [
        Call::Input,
        Call::Input,
        Call::Input,
        Call::Lookahead(start(random, &case)),
        Call::Lookahead(start(random, &case)),
        Call::Backtrack,
        Call::Backtrack,
    ];
    let asked = calls.map(|call| draw_question(random, &case, call));
    asker.ask_all("random texts", &case, &asked);
    asked.len() as u64
}

// ---- long matches

/// A text with `count` glyphs that may be taken on either side of the cursor,
/// others between that are passed over, and mostly a ligature rule that holds:
/// nothing is attached, or all to the same, or to the first, or what is done
/// ends in a base that may be skipped.
fn long_case(random: &mut Random, count: usize) -> Case {
    let attached = random.below(4);
    let id = (1 + random.below(7) as u32) << 24;
    let first = [0, id | 1 << 16, id | 1 << 16, id][attached as usize];
    let later = move |random: &mut Random| match attached {
        0 => random.pick(&[0, id, 1 << 16]),
        1 => id | 1 << 16,
        _ => random.pick(&[0, id | 1 << 16, id | 2 << 16]),
    };
    let one = |random: &mut Random| {
        let mut some = vec![];
        for _ in 0..random.below(3) {
            let mut passed = random.pick(&[MARK, MARK, IGNORABLE]);
            let [id, component] = [random.below(8) as u32, random.below(16) as u32];
            passed[3] = id << 24 | component << 16 | random.below(1 << 16) as u32;
            some.push(passed);
        }
        let later = later(random);
        // Of glyphs that are no ligatures the original holds no others.
        let counts =
            random.pick(&[0x0101, 0x0201, if later >> 16 & 0xFF != 0 { 0x0100 } else { 0x0101 }]);
        let props = random.pick(&[0, 2]);
        some.push(glyph(random.pick(&[5, 7, 9]), 0, props, later | counts));
        some
    };
    let mut side = || (0..count).flat_map(|_| one(random)).collect::<Vec<Glyph>>();
    let [mut before, after] = [side(), side()];
    let gpos = random.one_in(2);
    if attached == 2 {
        before.push(glyph(7, 0, 4, id | 0x0202));
    }
    let cursor = glyph(7, 0, 0, first | random.pick(&[0x0101, 0x0100, 0x0102, 0x0201]));
    let (idx, prefix) = if gpos { (before.len(), before.clone()) } else { (0, vec![]) };
    let coming = [prefix, vec![cursor], after].concat();
    Case::new(Setup { auto_zwj: random.one_in(2), ..plain(gpos, 0xC) }, before, coming, idx)
}

fn long_text(asker: &mut Asker, random: &mut Random) {
    let count = random.below(66) as usize;
    let case = long_case(random, count);
    let calls = [Call::Input, Call::Lookahead(case.idx + 1), Call::Backtrack];
    let asked = calls.map(|call| Question {
        call,
        testing: random.pick(&[Testing::Equal, Testing::Equal, Testing::Any, Testing::Nothing]),
        spare: random.next() as u8,
        values: values(random, &case, call, count),
    });
    asker.ask_all("long matches", &case, &asked);
}

// ---- damaged calls

/// A call with something wrong in it, or nearly so.
fn damaged(asker: &mut Asker, random: &mut Random, plenty: &[Glyph]) {
    let wrong: Vec<u64> = (0..1 + random.below(2)).map(|_| random.below(11)).collect();
    let is_wrong = |fault| wrong.contains(&fault);
    let size = |random: &mut Random, over: bool| match over {
        true => random.pick(&[MOST_GLYPHS + 1, MOST_GLYPHS + 2]),
        false => random.pick(&[0, 1, 2, 3, 12, 66, MOST_GLYPHS]),
    };
    let [before, after] = [size(random, is_wrong(0)), size(random, is_wrong(1)).max(1)];
    let past = |random: &mut Random, end: usize| match random.below(3) {
        0 => end + 1,
        1 => random.near(&[u64::MAX - 2, 1 << 62, 1 << 32], 2) as usize,
        _ => end + 1 + random.below(8) as usize,
    };
    let mut case = Case::new(
        draw::setup(random),
        plenty[..before].to_vec(),
        plenty[plenty.len() - after..].to_vec(),
        cursor(random, after),
    );
    if is_wrong(2) {
        case.d = past(random, before);
    }
    if is_wrong(3) {
        case.len = past(random, after);
    }
    if is_wrong(4) {
        case.idx = past(random, case.len.min(1 << 62) - 1);
    }
    if is_wrong(5) {
        case.setup.sets.push(random.below(3) as u16);
    }
    for (row, fault) in [(0, 6), (1, 7)] {
        if is_wrong(fault) {
            let more = 1 + random.below(3) as usize;
            case.words[row].extend([0; 3][..more].iter());
        }
    }
    let mut from = start(random, &case);
    if is_wrong(8) {
        from = past(random, case.len.min(1 << 62));
    }
    if is_wrong(9) {
        from = 0;
    }
    let asked = [Call::Input, Call::Lookahead(from), Call::Backtrack].map(|call| {
        let mut question = draw_question(random, &case, call);
        if is_wrong(10) {
            question.values.resize(random.pick(&[63, 64, 65, 66, 300]), 7);
        }
        question
    });
    for question in &asked {
        let faults = matchers::faults(&case.lent(), question.call);
        if let Some(&fault) = faults.first() {
            let several = faults.len() > 1;
            asker.summary.decided(if several { SEVERAL_FAULTS } else { matchers::FAULTS[fault] });
        }
    }
    asker.ask_all("damaged calls of matchers", &case, &asked);
}

pub fn comparison() -> Box<dyn Comparison> {
    Box::new(Asker::new(None))
}

impl Comparison for Asker {
    fn exhaust(&mut self) {
        every_text(self);
        every_number(self);
    }

    fn draw(&mut self, steps: u64, seed: u64) {
        let random = &mut Random::new(seed);
        let mut made = 0;
        while made < steps {
            made += random_text(self, random);
        }
        for _ in 0..steps / 150 {
            long_text(self, random);
        }
        let plenty = draw::row(random, MOST_GLYPHS + 3);
        for _ in 0..steps / 50 {
            damaged(self, random, &plenty);
        }
    }

    fn finish(mut self: Box<Self>) -> Summary {
        self.count_clauses();
        self.summary
    }
}
