//! Runs of records, without what it takes to copy the rows back between two of them.
use super::{line_by, time, PLAIN, SOUGHT};
use crate::ours;
use crate::paper::MOST_GLYPHS;
use crate::runs::Case;
use original::glyphs::Glyph;
use original::hook::Mode;
use original::runs::{Again, Book, Run};
use original::terms::Setup;
use std::hint::black_box;
use std::time::Duration;

pub fn run(rounds: u32) {
    println!("nanoseconds a run over so many glyphs, each record a chain");
    for spread in [1, 62] {
        Plan { glyphs: 1000, records: 16, spread, nested: true }.timed(rounds);
    }
    println!("nanoseconds a run over so many glyphs, each record one lookup");
    for records in [0, 1, 4, 16] {
        for glyphs in [100, 1000, 2000] {
            side_by_side_and_spread(rounds, records, glyphs);
        }
    }
    println!("nanoseconds a run over half the longest text, and over the longest");
    for glyphs in [MOST_GLYPHS / 2, MOST_GLYPHS] {
        side_by_side_and_spread(rounds, 16, glyphs);
    }
}

/// Side by side a run has as much to do in any text; over all the text it moves as
/// many glyphs as there are.
fn side_by_side_and_spread(rounds: u32, records: usize, glyphs: usize) {
    Plan { glyphs, records, spread: 1, nested: false }.timed(rounds);
    if records > 1 {
        Plan { glyphs, records, spread: glyphs / records, nested: false }.timed(rounds);
    }
}

/// So many runs, without what stands between them.
fn alone(n: u32, side: &mut impl Side) -> Duration {
    let one = |_| {
        side.copy_back();
        let run = &mut || {
            black_box(side.run());
        };
        time(1, run)
    };
    (0..n).map(one).sum()
}

/// A run that is made again and again, from rows that are copied back each time.
trait Side {
    fn copy_back(&mut self);
    /// Answers d and the count.
    fn run(&mut self) -> (usize, usize);
}

impl Side for Again<'_, '_> {
    fn copy_back(&mut self) {
        Again::copy_back(self);
    }
    fn run(&mut self) -> (usize, usize) {
        Again::run(self)
    }
}

struct Ours<'c> {
    case: &'c Case,
    done: Vec<u32>,
    coming: Vec<u32>,
}

impl Side for Ours<'_> {
    fn copy_back(&mut self) {
        self.done.copy_from_slice(&self.case.done);
        self.coming.copy_from_slice(&self.case.coming);
    }
    fn run(&mut self) -> (usize, usize) {
        let ran = ours::run(black_box(self.case), &mut self.done, &mut self.coming);
        assert_eq!(ran.number, 0, "ours finishes");
        (ran.d, ran.count)
    }
}

/// What a run is made of. Without records the match has one position.
struct Plan {
    glyphs: usize,
    records: usize,
    /// How far apart the records' places lie.
    spread: usize,
    /// Each record is a chain in which one grows or one of the next is lost; else
    /// it turns a glyph into another.
    nested: bool,
}

impl Plan {
    fn timed(&self, rounds: u32) {
        let places: Vec<usize> = (0..self.records.max(1)).map(|i| i * self.spread).collect();
        let mut text = vec![PLAIN; self.glyphs];
        places.iter().for_each(|&place| text[place][0] = SOUGHT);
        let case = self.case(&text, &places);
        let book = Book::new(&case.setup, &case.book);
        let run = Run {
            records: &case.records,
            allowance: case.allowance,
            depth: case.depth,
            positions: &case.matched.positions[..places.len()],
            end: case.matched.end,
            done: &[],
            coming: &text,
            mode: Mode::Raw,
        };
        let mut again = Again::new(&book, run).expect("the original holds this text");
        let mut ours = Ours { case: &case, done: case.done.clone(), coming: case.coming.clone() };
        again.copy_back();
        assert_eq!(again.run(), ours.run(), "both do the same");
        let spent = case.paper(|_| ()).expect("it is accepted").spent;
        line_by(&self.name(spent), rounds, 1, |n| alone(n, &mut again), |n| alone(n, &mut ours));
    }

    fn name(&self, spent: u32) -> String {
        let Self { glyphs, records, .. } = self;
        let far = if self.spread == 1 { "side by side" } else { "over all the text" };
        match (records, self.nested) {
            (0, _) => format!("{glyphs}, no records"),
            (1, _) => format!("{glyphs}, 1 record"),
            (_, false) => format!("{glyphs}, {records} records {far}"),
            (_, true) => format!("{glyphs}, {records} records {far}, {spent} tried"),
        }
    }

    fn case(&self, text: &[Glyph], places: &[usize]) -> Case {
        // 0: 7 into 8. 1: 7 into 7, 7. 2: 9 into nothing. 3: 7, 9 with (0, 1), (2, 2). 4: 7, 9 with (1, 2).
        let book = [
            &[1, 0, 0, 2, 7, 8][..],
            &[2, 0, 0, 4, 7, 2, 7, 7],
            &[2, 0, 0, 2, 9, 0],
            &[3, 0, 0, 10, 7, 0, 1, 9, 0, 2, 0, 1, 2, 2],
            &[3, 0, 0, 8, 7, 0, 1, 9, 0, 1, 1, 2],
        ]
        .concat();
        let lookup = |i: u16| if self.nested { 3 + i % 2 } else { 0 };
        // From the last place to the first, so that losses don't move what is to come.
        let records = (0..self.records as u16).rev().flat_map(|i| [i, lookup(i)]).collect();
        let setup = Setup { mask: 1, ..Setup::default() };
        let end = places[places.len() - 1] + 1;
        let case = Case::new(setup, book, [&[], text], records, places, end);
        Case { allowance: 1000, depth: 8, ..case }
    }
}
