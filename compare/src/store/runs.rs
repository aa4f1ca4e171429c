//! Runs of records over a text. All numbers are one word.
//!
//!     50  zwnj zwj syllables mask allowance depth idx end total
//!         positions sets book records done coming
//!         number spent d idx count positions done coming
//!     51  d words words before after matched 50 ...
//!     251 d words words before after matched 50 ...
//!
//! The six in the second line are lists, each a number of words and those words:
//! places in the row that comes, pairs of mark sets, the book, pairs of records,
//! the words of what is done and of what comes from the cursor on. So d is a
//! quarter of the fifth number and idx the row's limit less a quarter of the sixth. The
//! third line is the answer: 0, 8, 9 or 10; as many positions as the count says;
//! and the text after the run, as two such lists. Every other cell of both rows
//! holds 0, before the run and after it.
//!
//! 51 says more of the rows, in six words, and goes on as a line of 50: d, how
//! many words done's row has and how many the row that comes, what every cell
//! holds that the lists leave out, before the run and after it, and the match's
//! number. Done's list stands at its row's front, the other at its row's end. So
//! the rows of an accepted run can hold something in neither part, and a run can
//! have rows, a d and a match that are refused: 251 are those, by 1, 2, 12, 11 or
//! 7. After these the rows are as they were. Of a match with more than 64
//! positions those past the 64 slots are 0.
//!
//! The answers are the original's behind its hooks, on which Short and Full rest
//! (original/src/asked/hook.rs), and every text is one that the original can
//! hold. It has no refusals, so those of 251 are the second reading's (src/paper);
//! nor has it cells outside its text: that an accepted run leaves 0 there is 01's
//! sentence. Where the two differ (docs/DIFFERENCES.md) the operation is 150, in
//! the form of 50, with our answer.
use super::{Line, List};
use crate::differences;
use crate::ours::CRan;
use crate::paper::runs::{faults, By, FAULTS, NAMES, ROW};
use crate::random::Random;
use crate::runs::corners::{at_the_limit, beside_the_text, cards};
use crate::runs::draw::{draw_book, draw_case, draw_setup, style, Style};
use crate::runs::refusals::{accepted, refused, Refused};
use crate::runs::{After, Case, STALE};
use original::hook::Mode;
use original::runs::Book;
use std::collections::BTreeSet;

const SEED: u64 = 6;
/// Where the list ends, so that what follows finds room behind it.
const ENOUGH: usize = 1_220_000;
/// The longest line of those that are drawn, and of those that fill the list.
const LONGEST: usize = 1_500;
const SHORT: usize = 260;
/// A clause that has decided in fewer lines than this is worth another line.
const OFTEN: u64 = 25;

/// What was stored later is drawn from a seed of its own, so that the lines
/// before it stay as they were.
const LATER_SEED: u64 = 7;
const LATER_DRAWS: usize = 20_000;
/// The longest line of these.
const LATER_SHORT: usize = 120;
/// What cells in neither part hold there: an id and a mask that match.
const LIKELY: u32 = 1;

struct Writer<'l> {
    list: &'l mut List,
    by: Vec<u64>,
    faults: [u64; FAULTS.len()],
}

pub fn write(list: &mut List) {
    let random = &mut Random::new(SEED);
    let mut writer = Writer { list, by: vec![0; NAMES.len()], faults: [0; FAULTS.len()] };
    for case in cards().into_iter().chain(at_the_limit()) {
        assert!(writer.push(&case, |_, _| true), "a card is asked");
    }
    let rare = By::Finished as usize..By::Refused1 as usize;
    for draws in 0.. {
        let seldom = rare.clone().any(|why| writer.by[why] < OFTEN) && draws < 150_000;
        if writer.list.text.len() > ENOUGH - 9 * LONGEST {
            break;
        }
        draw(&mut writer, random, seldom);
    }
    for case in cards().into_iter().chain(beside_the_text()).chain(accepted()) {
        assert!(writer.push_filled(case), "a card is asked");
    }
    draw_filled(&mut writer);
    refused().iter().for_each(|refused| writer.push_refused(refused));
    assert!(!writer.faults.contains(&0), "a way to be refused isn't among the lines");
    for case in differences::runs() {
        let After { answer, done, coming } = case.ours();
        let (d, idx) = match answer.number {
            0 | 8..=10 => (answer.d, answer.idx),
            _ => (case.d, case.idx),
        };
        let text = [&done[..4 * d], &coming[4 * idx..]];
        writer.list.push(answered(question(150, &case), &answer, text));
    }
    println!("decided by, in lines of the list");
    let decided = NAMES.iter().zip(writer.by).chain(FAULTS.iter().zip(writer.faults));
    for (name, times) in decided.filter(|entry| entry.1 > 0) {
        println!("  {times:>9}  {name}");
    }
}

/// Draws a book and texts.
fn drawn(random: &mut Random) -> [Case; 4] {
    let setup = draw_setup(random);
    let style = Style { lookups: 2 + random.below(5), ..style(random) };
    let words = draw_book(random, &style);
    [(); 4].map(|()| {
        let mut case = draw_case(random, &setup, style.few, style.lookups, &words);
        case.depth = random.pick(&[0, 1, 2, 3, 4, 5, 6, 8]);
        case.allowance = 40;
        let spent = case.paper(|_| ()).map_or(0, |ran| ran.spent);
        case.allowance = match random.below(4) {
            0 => spent,
            1 => spent.saturating_sub(1),
            2 => random.up_to(spent.into()) as u32,
            _ => 40,
        };
        case
    })
}

/// While clauses are seldom met, only a run that meets one of them is written;
/// then short ones.
fn draw(writer: &mut Writer, random: &mut Random, seldom: bool) {
    for case in drawn(random) {
        writer.push(&case, |by, line| match seldom {
            true => by.iter().any(|&(why, before)| match line {
                _ if why >= By::Refused1 as usize => false,
                0..=SHORT => before < OFTEN,
                ..=LONGEST => before < 4,
                _ => false,
            }),
            false => line <= SHORT,
        });
    }
}

/// Short runs with something in the cells of neither part, one of each sort: by
/// the ending, by whether the text grew, and by whether more comes than did. In
/// each something is done and something comes after it too.
fn draw_filled(writer: &mut Writer) {
    let random = &mut Random::new(LATER_SEED);
    let mut met = BTreeSet::new();
    for _ in 0..LATER_DRAWS {
        for case in drawn(random) {
            let Ok(ran) = case.paper(|_| ()) else { continue };
            let [before, after] = [ROW - case.idx, ran.text.len() - ran.cursor];
            let length = ran.text.len().cmp(&(case.d + before));
            let sort = (ran.ending as u8, length, after.cmp(&before));
            let parted = ran.cursor > 0 && after > 0;
            if parted && about(&case) <= LATER_SHORT && !met.contains(&sort) {
                writer.push_filled(case).then(|| met.insert(sort));
            }
        }
    }
}

/// About how many words a line has.
fn about(case: &Case) -> usize {
    let glyphs = case.d + (ROW - case.idx);
    40 + case.book.len() + case.records.len() + case.matched.count + 8 * glyphs
}

fn question(operation: u32, case: &Case) -> Line {
    let text = [&case.done[..4 * case.d], &case.coming[4 * case.idx..]];
    question_on(operation, case, text)
}

fn question_on(operation: u32, case: &Case, [done, coming]: [&[u32]; 2]) -> Line {
    let Case { setup, matched, .. } = case;
    let mut positions = matched.positions.to_vec();
    positions.resize(matched.count, 0);
    Line::of(operation)
        .word(setup.auto_zwnj)
        .word(setup.auto_zwj)
        .word(setup.per_syllable)
        .words(&[setup.mask, case.allowance, case.depth as u32])
        .words(&[case.idx as u32, matched.end as u32, matched.total.into()])
        .narrow(&positions)
        .narrow(&setup.sets)
        .narrow(&case.book)
        .narrow(&case.records)
        .list(done)
        .list(coming)
}

/// What stands before a line of 50 that needs it.
fn rows(operation: u32, case: &Case, before: u32, after: u32) -> Line {
    let sizes = [case.d, case.done.len(), case.coming.len()];
    let line = Line::of(operation).words(&sizes.map(|size| size as u32));
    line.words(&[before, after]).word(case.matched.number)
}

/// The words that aren't the filler, from a row's front on and to a row's end.
fn unlike(filler: u32, done: &[u32], coming: &[u32]) -> [Vec<u32>; 2] {
    let other = |word: &u32| *word != filler;
    let last = done.iter().rposition(other).map_or(0, |place| place + 1);
    let first = coming.iter().position(other).unwrap_or(coming.len());
    [done[..last].to_vec(), coming[first..].to_vec()]
}

fn answered(line: Line, answer: &CRan, [done, coming]: [&[u32]; 2]) -> Line {
    line.word(answer.number)
        .words(&[answer.spent, answer.d as u32, answer.idx as u32])
        .narrow(&answer.positions[..answer.count])
        .list(done)
        .list(coming)
}

impl Writer<'_> {
    /// Writes the original's answer if `wanted` says so of what decided, each with
    /// how often it has, and of the number of words.
    fn push(&mut self, case: &Case, wanted: impl FnOnce(&[(usize, u64)], usize) -> bool) -> bool {
        let line = self.line(case, wanted);
        line.map(|line| self.list.push(line)).is_some()
    }

    /// The same with something in the cells of neither part.
    fn push_filled(&mut self, case: Case) -> bool {
        let case = case.filled(LIKELY);
        let line = self.line(&case, |_, _| true);
        line.map(|line| self.list.push(rows(51, &case, LIKELY, 0).line(line))).is_some()
    }

    fn line(
        &mut self,
        case: &Case,
        wanted: impl FnOnce(&[(usize, u64)], usize) -> bool,
    ) -> Option<Line> {
        let mut decided = vec![];
        case.paper(|by| decided.push(by as usize)).ok()?;
        decided.sort_unstable();
        decided.dedup();
        let by: Vec<(usize, u64)> = decided.iter().map(|&why| (why, self.by[why])).collect();
        if !wanted(&by, about(case)) {
            return None;
        }
        let book = Book::new(&case.setup, &case.book);
        let (ran, _) = case.original(&book, Mode::Hooked)?;
        decided.iter().for_each(|&why| self.by[why] += 1);
        let line = question(50, case)
            .word(ran.ending)
            .words(&[ran.spent as u32, ran.done.len() as u32, ran.idx as u32])
            .list(&ran.positions)
            .list(ran.done.as_flattened())
            .list(ran.coming.as_flattened());
        Some(line)
    }

    /// Writes the second reading's answer, which must be the refusal that is meant.
    fn push_refused(&mut self, Refused { number, several, case }: &Refused) {
        let mut decided = vec![];
        let paper = case.paper(|by| decided.push(by));
        assert_eq!(paper, Err(*number), "refused by another number");
        assert_eq!(decided.contains(&By::FirstOfSeveral), *several, "refused by {number} alone");
        decided.iter().for_each(|&why| self.by[why as usize] += 1);
        for (times, holds) in self.faults.iter_mut().zip(faults(&case.asked())) {
            *times += u64::from(holds);
        }
        let After { answer, done, coming } = After::of_paper(case, &paper);
        let [before, ahead] = unlike(STALE, &case.done, &case.coming);
        let line = question_on(50, case, [&before, &ahead]);
        let [before, ahead] = unlike(STALE, &done, &coming);
        let line = answered(line, &answer, [&before, &ahead]);
        self.list.push(rows(251, case, STALE, STALE).line(line));
    }
}
