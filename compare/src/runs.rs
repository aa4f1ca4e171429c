//! Nested lookups: the original behind its hooks, ours and the plain second
//! implementation of the paper. Calls that the paper refuses, and texts that the
//! original can't hold, are compared with the paper alone.
//!
//! Of an answer everything is compared: number, spent, d, idx, count, all 64
//! slots, and every word of both rows.
pub mod corners;
mod damage;
pub mod draw;
pub mod refusals;

use self::draw::{draw_book, draw_case, draw_setup, style, Style};
use crate::draw::glyphs;
use crate::kinds::Comparison;
use crate::ours::{self, CMatched, CRan};
use crate::paper::runs::{self, Asked, By, Ran, ROW, ROW_WORDS};
use crate::progress::grouped;
use crate::random::Random;
use crate::summary::Summary;
use crate::trials::Trial;
use damage::damage;
use original::glyphs::Glyph;
use original::hook::{Mode, PutBack};
use original::runs::{Book, Run};
use original::terms::Setup;

/// A run as it is asked for, with rows that lie between the calls: the cells in
/// neither part hold something, which must be gone after an accepted run.
#[derive(Clone)]
pub struct Case {
    pub setup: Setup,
    pub book: Vec<u16>,
    pub records: Vec<u16>,
    pub matched: CMatched,
    pub allowance: u32,
    pub depth: usize,
    pub d: usize,
    pub idx: usize,
    pub done: Vec<u32>,
    pub coming: Vec<u32>,
}

/// What stands in a cell that is in neither part.
pub const STALE: u32 = 0xDEAD_0001;

impl Case {
    /// Of a text; `places` counts from the cursor on, and so does `end`.
    pub fn new(
        setup: Setup,
        book: Vec<u16>,
        [done, coming]: [&[Glyph]; 2],
        records: Vec<u16>,
        places: &[usize],
        end: usize,
    ) -> Self {
        let (d, idx) = (done.len(), ROW - coming.len());
        let mut rows = [vec![STALE; ROW_WORDS], vec![STALE; ROW_WORDS]];
        rows[0][..4 * d].copy_from_slice(done.as_flattened());
        rows[1][4 * idx..].copy_from_slice(coming.as_flattened());
        let mut matched = CMatched { count: places.len(), ..CMatched::bare(0, idx + end) };
        // Slots past the count are never read.
        matched.positions = [0xABCD; 64];
        for (slot, place) in matched.positions.iter_mut().zip(places) {
            *slot = (idx + place) as u16;
        }
        let [done, coming] = rows;
        Self { setup, book, records, matched, allowance: 0, depth: 0, d, idx, done, coming }
    }

    /// The same with another word in the cells that are in neither part.
    pub fn filled(mut self, word: u32) -> Self {
        self.done[4 * self.d..].fill(word);
        self.coming[..4 * self.idx].fill(word);
        self
    }

    pub fn asked(&self) -> Asked<'_> {
        Asked {
            setup: &self.setup,
            done: &self.done,
            d: self.d,
            coming: &self.coming,
            idx: self.idx,
            book: &self.book,
            records: &self.records,
            number: self.matched.number,
            count: self.matched.count,
            positions: &self.matched.positions,
            end: self.matched.end,
            allowance: self.allowance,
            depth: self.depth,
        }
    }

    pub fn paper(&self, by: impl FnMut(By)) -> Result<Ran, u8> {
        runs::answer(&self.asked(), by)
    }

    /// The original's answer, if it holds the text; of cases that the paper
    /// doesn't refuse.
    pub fn original(&self, book: &Book, mode: Mode) -> Option<(original::runs::Ran, PutBack)> {
        book.run(Run {
            records: &self.records,
            allowance: self.allowance,
            depth: self.depth,
            positions: &self.matched.positions[..self.matched.count],
            end: self.matched.end,
            done: &glyphs(&self.done[..4 * self.d]),
            coming: &glyphs(&self.coming[4 * self.idx..]),
            mode,
        })
    }

    pub fn ours(&self) -> After {
        let (mut done, mut coming) = (self.done.clone(), self.coming.clone());
        let answer = ours::run(self, &mut done, &mut coming);
        After { answer, done, coming }
    }
}

/// What a call hands over, and both rows after it.
#[derive(Clone, PartialEq, Eq)]
pub struct After {
    pub answer: CRan,
    pub done: Vec<u32>,
    pub coming: Vec<u32>,
}

impl std::fmt::Debug for After {
    /// The glyphs that aren't 0, each with its place.
    fn fmt(&self, f: &mut std::fmt::Formatter) -> std::fmt::Result {
        write!(f, "{:?}", self.answer)?;
        for (name, row) in [("done", &self.done), ("coming", &self.coming)] {
            write!(f, ", {name}")?;
            let some = row.chunks(4).enumerate().filter(|(_, glyph)| *glyph != [0; 4]);
            for (place, glyph) in some.take(24) {
                write!(f, " {place}:{glyph:X?}")?;
            }
        }
        Ok(())
    }
}

impl After {
    /// Accepted: the text as two rows, and nothing else in them.
    fn of_text(
        number: u8,
        spent: u32,
        positions: &[usize],
        done: &[Glyph],
        coming: &[Glyph],
    ) -> Self {
        let (d, idx) = (done.len(), ROW.wrapping_sub(coming.len()));
        let mut rows = [vec![0; ROW_WORDS], vec![0; ROW_WORDS]];
        rows[0][..4 * d].copy_from_slice(done.as_flattened());
        rows[1][4 * idx..].copy_from_slice(coming.as_flattened());
        let mut slots = [0; 64];
        for (slot, &position) in slots.iter_mut().zip(positions) {
            *slot = position as u16;
        }
        let answer = CRan { number, spent, d, idx, count: positions.len(), positions: slots };
        let [done, coming] = rows;
        Self { answer, done, coming }
    }

    pub fn of_paper(case: &Case, paper: &Result<Ran, u8>) -> Self {
        match paper {
            Ok(ran) => {
                let (done, coming) = ran.text.split_at(ran.cursor);
                Self::of_text(ran.ending as u8, ran.spent, &ran.positions, done, coming)
            }
            // "Refused calls leave every word."
            Err(number) => Self {
                answer: CRan { number: *number, ..CRan::NOTHING },
                done: case.done.clone(),
                coming: case.coming.clone(),
            },
        }
    }

    pub fn of_original(ran: &original::runs::Ran) -> Self {
        let positions: Vec<usize> = ran.positions.iter().map(|&place| place as usize).collect();
        Self::of_text(ran.ending, ran.spent as u32, &positions, &ran.done, &ran.coming)
    }
}

/// Both answers in few words, for the expected differences: the original in a
/// mode, and ours.
pub fn both(case: &Case, mode: Mode) -> (String, String) {
    let ids = |done: &[Glyph], coming: &[Glyph]| {
        let list = |row: &[Glyph]| -> Vec<u32> { row.iter().map(|glyph| glyph[0]).collect() };
        match done.len() + coming.len() {
            0..=20 => format!("{:?} and {:?}", list(done), list(coming)),
            glyphs => format!("{glyphs} glyphs, {} done", done.len()),
        }
    };
    let book = Book::new(&case.setup, &case.book);
    let told = case.original(&book, mode).map_or("not held".to_string(), |(ran, _)| {
        let (ending, spent, positions) = (ran.ending, ran.spent, &ran.positions);
        let text = ids(&ran.done, &ran.coming);
        format!("{ending}, spent {spent}, positions {positions:?}, {text}")
    });
    let ours = case.ours();
    let CRan { number, spent, d, idx, count, positions } = ours.answer;
    if ![0, 8, 9, 10].contains(&number) {
        return (told, format!("{number}"));
    }
    let text = ids(&glyphs(&ours.done[..4 * d]), &glyphs(&ours.coming[4 * idx..]));
    let positions = &positions[..count];
    (told, format!("{number}, spent {spent}, positions {positions:?}, {text}"))
}

// ---- asking

pub struct Asker {
    pub summary: Summary,
    trial: Option<&'static Trial<Case, After>>,
    by: Vec<u64>,
    faults: [u64; runs::FAULTS.len()],
    with_original: u64,
    without_original: u64,
    put_back: PutBack,
    runs_put_back: u64,
    /// By the number of levels that stood in one another.
    levels: [u64; 66],
    spent: u64,
    most_spent: u32,
    longest: usize,
}

impl Asker {
    pub fn new(trial: Option<&'static Trial<Case, After>>) -> Self {
        let names = [runs::NAMES, &runs::FAULTS].concat();
        Self {
            trial,
            summary: Summary::new("runs", &names),
            by: vec![0; runs::NAMES.len()],
            faults: [0; runs::FAULTS.len()],
            with_original: 0,
            without_original: 0,
            put_back: PutBack::default(),
            runs_put_back: 0,
            levels: [0; 66],
            spent: 0,
            most_spent: 0,
            longest: 0,
        }
    }

    fn count_clauses(&mut self) {
        for (name, &times) in runs::NAMES.iter().zip(&self.by) {
            self.summary.decided_times(name, times);
        }
        for (name, &times) in runs::FAULTS.iter().zip(&self.faults) {
            self.summary.decided_times(name, times);
        }
        let deep: u64 = self.levels[6..].iter().sum();
        let deepest = self.levels.iter().rposition(|&count| count > 0).unwrap_or(0);
        for note in [
            format!("{} with three answers: the original's, ours and that of 01", grouped(self.with_original)),
            format!("{} accepted runs over texts that the original can't hold: compared with 01 alone", grouped(self.without_original)),
            format!("put back after the original in {} runs: {} written glyphs with other props or ligature numbers", grouped(self.runs_put_back), grouped(self.put_back.glyphs)),
            format!("put back among these: {} times kind 2 with two results or more on a ligature", grouped(self.put_back.on_ligatures)),
            format!("{} nested lookups tried, at most {} in a run; texts to {} glyphs", grouped(self.spent), self.most_spent, self.longest),
            format!("levels in one another: 1 to 5 in {:?} runs, 6 and more in {deep}, at most {deepest}", &self.levels[1..6]),
            "Short and Full rest on the hook round the original's lookups (original/src/asked/hook.rs), not on the Rust alone".to_string(),
        ] {
            self.summary.note(note);
        }
    }

    /// In a trial a wrong answer stands in for ours.
    fn ours(&self, case: &Case) -> After {
        match self.trial {
            None => case.ours(),
            Some(trial) => trial.answer(case, Case::ours),
        }
    }

    fn ask(&mut self, kind: &'static str, case: &Case, book: Option<&Book>) {
        self.summary.input(kind);
        let paper = case.paper(|by| self.by[by as usize] += 1);
        let ours = self.ours(case);
        let reads = ours::book_reads(&case.book);
        self.summary.compare_with_paper(&runs::reads(&case.book), &reads, || shown(case));
        let expected = After::of_paper(case, &paper);
        self.summary.compare_with_paper(&expected, &ours, || shown(case));
        let Ok(ran) = paper else {
            for (times, holds) in self.faults.iter_mut().zip(runs::faults(&case.asked())) {
                *times += u64::from(holds);
            }
            return;
        };
        self.levels[ran.levels.min(65)] += 1;
        self.spent += u64::from(ran.spent);
        self.most_spent = self.most_spent.max(ran.spent);
        self.longest = self.longest.max(ran.text.len());
        let made;
        let book = match book {
            Some(book) => book,
            None => {
                made = Book::new(&case.setup, &case.book);
                &made
            }
        };
        let Some((told, put_back)) = case.original(book, Mode::Hooked) else {
            self.without_original += 1;
            return;
        };
        self.with_original += 1;
        self.put_back.glyphs += put_back.glyphs;
        self.put_back.on_ligatures += put_back.on_ligatures;
        self.runs_put_back += u64::from(put_back.glyphs > 0);
        self.summary.compare(&After::of_original(&told), &ours, || None, || shown(case));
    }
}

fn shown(case: &Case) -> String {
    let Case { setup, book, records, matched, allowance, depth, d, idx, done, coming } = case;
    let cut = |row: &[u32]| format!("{:X?}", &row[..row.len().min(64)]);
    let places = &matched.positions[..matched.count.min(64)];
    format!(
        "run {setup:X?}, book {book:?}, records {records:?}, match {} end {} {places:?}, allowance {allowance}, depth {depth}, d {d}, idx {idx}, done {} words {}, coming {} words {}",
        matched.number,
        matched.end,
        done.len(),
        cut(&done[..(4 * d).min(done.len())]),
        coming.len(),
        cut(&coming[(4 * idx.min(&ROW)).min(coming.len())..]),
    )
}

// ---- random runs

const PLENTY: u32 = 60;

/// A book and several texts; each text under several allowances, round the
/// number spent, and depths.
fn random_runs(asker: &mut Asker, random: &mut Random) -> u64 {
    let setup = draw_setup(random);
    let style = style(random);
    let words = draw_book(random, &style);
    let book = Book::new(&setup, &words);
    let mut made = 0;
    for _ in 0..6 {
        let mut case = draw_case(random, &setup, style.few, style.lookups, &words);
        case.depth = random.pick(&[1, 2, 3, 4, 5, 6, 7, 8, 16, 64]);
        case.allowance = random.pick(&[PLENTY, PLENTY, 300, 8]);
        let spent = case.paper(|_| ()).map_or(0, |ran| ran.spent);
        asker.ask("random runs, with plenty", &case, Some(&book));
        made += 1;
        if spent == 0 {
            case.allowance = random.pick(&[0, 1, 0x7FFF_FFFF]);
            asker.ask("random runs, nothing spent", &case, Some(&book));
            made += 1;
            continue;
        }
        let others = [spent, spent - 1, spent + 1, random.below(u64::from(spent)) as u32];
        for allowance in others {
            case.allowance = allowance;
            asker.ask("random runs, round the number spent", &case, Some(&book));
            made += 1;
        }
        case.allowance = random.pick(&[PLENTY, 300, spent]);
        case.depth = random.below(case.depth as u64 + 1) as usize;
        asker.ask("random runs, another depth", &case, Some(&book));
        made += 1;
    }
    made
}

// ---- damaged calls

/// A run with something wrong in it, or nearly so.
fn damaged(asker: &mut Asker, random: &mut Random) {
    let setup = draw_setup(random);
    let style = Style { lookups: 4, ..style(random) };
    let words = draw_book(random, &style);
    let mut case = draw_case(random, &setup, style.few, style.lookups, &words);
    case.depth = random.pick(&[0, 1, 3, 64]);
    case.allowance = random.pick(&[0, 1, 5, 50, 0x7FFF_FFFF]).min(200);
    for _ in 0..1 + random.below(2) {
        damage(random, &mut case);
    }
    asker.ask("damaged runs", &case, None);
}

pub fn comparison() -> Box<dyn Comparison> {
    Box::new(Asker::new(None))
}

impl Comparison for Asker {
    fn exhaust(&mut self) {
        for case in corners::cards() {
            self.ask("cards K11 to K14", &case, None);
        }
        for case in corners::at_the_limit() {
            self.ask("texts that grow to the limit", &case, None);
        }
        for case in corners::chains() {
            self.ask("chains over each glyph of an alphabet", &case, None);
        }
        for case in corners::beside_the_text() {
            self.ask("cells beside the text that would match", &case.filled(1), None);
        }
        for case in refusals::accepted() {
            self.ask("runs that just aren't refused", &case, None);
        }
        for refused in refusals::refused() {
            self.ask("each way to be refused, and two numbers at once", &refused.case, None);
        }
    }

    fn draw(&mut self, steps: u64, seed: u64) {
        let random = &mut Random::new(seed);
        let mut made = 0;
        while made < steps {
            made += random_runs(self, random);
        }
        for _ in 0..steps / 20 {
            damaged(self, random);
        }
    }

    fn finish(mut self: Box<Self>) -> Summary {
        self.count_clauses();
        self.summary
    }
}
