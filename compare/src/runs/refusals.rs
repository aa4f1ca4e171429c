//! Runs that are refused: one for each way that 01's table names, and one for
//! each two numbers that follow one another in its order.
use super::corners::{glyphs, plain};
use super::{Case, STALE};
use crate::paper::runs::{ROW, ROW_WORDS};
use crate::paper::WORDS;

/// A run that is refused, by its number.
pub struct Refused {
    pub number: u8,
    /// A later number of the order would refuse it too.
    pub several: bool,
    pub case: Case,
}

/// Lengths of a row that aren't a run's: none, half as many words, which were a run's
/// before request Six, a glyph less, not whole glyphs, a glyph more.
const LENGTHS: [usize; 6] =
    [0, ROW_WORDS / 2, ROW_WORDS - WORDS, ROW_WORDS - 1, ROW_WORDS + 1, ROW_WORDS + WORDS];

/// What all of these are made of, and accepted: id 1 is done, 2 comes, and lookup 0
/// turns 2 into 4, so that a run that isn't refused shows in the text.
fn good() -> Case {
    over(&[2], vec![1, 0, 0, 2, 2, 4], vec![0, 0])
}

/// A run over 1 and what comes, of which all is matched.
fn over(coming: &[u32], book: Vec<u16>, records: Vec<u16>) -> Case {
    let places: Vec<usize> = (0..coming.len()).collect();
    let text = [&glyphs(&[1])[..], &glyphs(coming)];
    let case = Case::new(plain(), book, text, records, &places, places.len());
    Case { allowance: 1, depth: 1, ..case }
}

fn with(change: impl FnOnce(&mut Case)) -> Case {
    let mut case = good();
    change(&mut case);
    case
}

/// Accepted at limits that a refused run passes by one, and without what a run
/// may lack.
pub fn accepted() -> Vec<Case> {
    vec![
        good(),
        with(|case| (case.allowance, case.depth) = (0x7FFF_FFFF, 64)),
        with(|case| case.records = [0, 0].repeat(16)),
        with(|case| case.records.clear()),
        with(|case| case.book.clear()),
    ]
}

pub fn refused() -> Vec<Refused> {
    let by = |number, cases: Vec<Case>| {
        // Past the end no match begins, so that 7 holds there too.
        cases.into_iter().map(move |case| Refused { number, several: number == 2, case })
    };
    let alone = by(1, ill_shaped())
        .chain(by(2, past_the_end()))
        .chain(by(12, past_the_limits()))
        .chain(by(11, illegible()))
        .chain(by(7, ill_matched()));
    alone.chain(two_at_once()).collect()
}

fn ill_shaped() -> Vec<Case> {
    let done = LENGTHS.map(|words| {
        with(|case| {
            case.done.resize(words, STALE);
            case.d = case.d.min(words);
        })
    });
    let coming = LENGTHS.map(|words| {
        with(|case| {
            // What comes stays at its row's end.
            let text = case.coming.split_off(4 * case.idx);
            case.coming.resize(words.saturating_sub(text.len()), STALE);
            case.coming.extend(text);
            case.coming.truncate(words);
        })
    });
    let others = [
        with(|case| case.d = case.idx + 1),
        with(|case| case.d = ROW + 1),
        with(|case| case.setup.sets = vec![0]),
        with(|case| case.records.push(0)),
        with(|case| case.records = [0, 0].repeat(17)),
    ];
    done.into_iter().chain(coming).chain(others).collect()
}

fn past_the_end() -> Vec<Case> {
    [ROW, ROW + 1, u32::MAX as usize].map(|idx| with(|case| case.idx = idx)).into()
}

fn past_the_limits() -> Vec<Case> {
    vec![
        with(|case| case.allowance = 0x8000_0000),
        with(|case| case.allowance = u32::MAX),
        with(|case| case.depth = 65),
        with(|case| case.depth = u32::MAX as usize),
    ]
}

/// Books that are cut or have a word over, other kinds, bodies of another length
/// than their content's, and numbers past their limits.
fn illegible() -> Vec<Case> {
    let books = [
        vec![1, 0, 0],
        vec![1, 0, 0, 2, 2],
        vec![1, 0, 0, 2, 2, 4, 1],
        vec![0, 0, 0, 2, 2, 4],
        vec![4, 0, 0, 5, 2, 0, 0, 0, 0],
        vec![1, 0, 0, 1, 2],
        vec![1, 0, 0, 3, 2, 4, 4],
        vec![2, 0, 0, 3, 2, 2, 4],
        vec![2, 0, 0, 4, 2, 1, 4, 4],
        [&[2, 0, 0, 11, 2, 9][..], &[4; 9]].concat(),
        vec![3, 0, 0, 4, 2, 0, 0, 0],
        vec![3, 0, 0, 6, 2, 0, 0, 0, 0, 1],
        chain([65, 0, 0, 0]),
        chain([0, 64, 0, 0]),
        chain([0, 0, 65, 0]),
        chain([0, 0, 0, 17]),
    ];
    books.map(|book| with(|case| case.book = book)).into()
}

/// A chain with so many values before, in and behind its input, and records.
fn chain(numbers: [u16; 4]) -> Vec<u16> {
    let mut book = vec![3, 0, 0, 0, 2];
    for (number, by) in numbers.into_iter().zip([1, 1, 1, 2]) {
        book.push(number);
        book.extend(vec![3; by * usize::from(number)]);
    }
    book[3] = book.len() as u16 - 4;
    book
}

fn ill_matched() -> Vec<Case> {
    let both = over(&[2, 3], good().book, good().records);
    let idx = both.idx;
    let places = |places: &[usize], end: usize| {
        let mut case = both.clone();
        (case.matched.count, case.matched.end) = (places.len(), end);
        for (slot, &place) in case.matched.positions.iter_mut().zip(places) {
            *slot = place as u16;
        }
        case
    };
    let no_success = [1, 2, 3, 4, 5, 6].map(|number| with(|case| case.matched.number = number));
    let many: Vec<usize> = (ROW - 65..ROW).collect();
    let others = [
        // Empty slots are 0, which is the cursor here.
        Case { d: 0, idx: 0, ..places(&[], ROW) },
        Case { idx: many[0], ..places(&many, ROW) },
        places(&[idx + 1], ROW),
        places(&[idx - 1, idx], ROW),
        places(&[idx, idx], ROW),
        places(&[idx, idx + 1, idx], ROW),
        places(&[idx], idx),
        places(&[idx, idx + 1], idx + 1),
        places(&[idx, 0xFFFF], ROW),
        places(&[idx, idx + 1], ROW + 1),
        places(&[idx, idx + 1], u32::MAX as usize),
    ];
    no_success.into_iter().chain(others).collect()
}

/// Two numbers that follow one another: the first is the answer.
fn two_at_once() -> Vec<Refused> {
    type Change = fn(&mut Case);
    let cursor: Change = |case| case.idx = ROW + 1;
    let allowance: Change = |case| case.allowance = 0x8000_0000;
    let depth: Change = |case| case.depth = 65;
    let book: Change = |case| case.book.push(1);
    let lost: Change = |case| case.matched.number = 4;
    let nowhere: Change = |case| case.matched.count = 0;
    let both: [(u8, Change, Change); 12] = [
        (1, |case| case.done.truncate(ROW_WORDS - 4), cursor),
        (1, |case| drop(case.coming.drain(..4)), cursor),
        (1, |case| case.d = ROW + 1, cursor),
        (1, |case| case.setup.sets = vec![0], cursor),
        (1, |case| case.records.push(0), cursor),
        (1, |case| case.records = [0, 0].repeat(17), cursor),
        (2, cursor, allowance),
        (2, cursor, depth),
        (12, allowance, book),
        (12, depth, book),
        (11, book, lost),
        (11, book, nowhere),
    ];
    let refused = both.map(|(number, first, second)| {
        let mut case = good();
        first(&mut case);
        second(&mut case);
        Refused { number, several: true, case }
    });
    refused.into()
}
