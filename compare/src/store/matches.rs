//! The three matchers. All numbers are one word.
//!
//!     40  input      40 lookup test d len idx 0     sets values done coming  number end total count positions
//!     41  lookahead  41 lookup test d len idx start sets values done coming  number place
//!     42  backtrack  42 lookup test d len idx 0     sets values done coming  number place
//!
//! A lookup is gpos zwnj zwj syllables mask props; a test is 0 equal, 1 any, 2
//! none; sets, values, done and coming are each a number of words and those
//! words. The number is 0, 4, where the end or the place is the extent, or 5.
//! On 4 and 5 total and count are 0, on 5 the end too. The total is FFFFFFFF
//! where the original can't hold the counts that it is made of.
//!
//! Nothing is refused here by another number, every text is one that the
//! original can hold, no total passes 255 and no ignorable glyph has the props
//! bit 0x10 (docs/DIFFERENCES.md). Those differences have operations of 140 to
//! 142, in the same form, with our answer.
use super::{Line, List};
use crate::differences;
use crate::matches::{self, Case, Question, COMING, DONE, IGNORABLE, MARK, SOUGHT};
use crate::ours::Answer;
use crate::paper::matchers::{By, NAMES};
use crate::random::Random;
use original::matches::with_text;
use original::terms::{Call, Matched, Testing, TESTINGS};

const SEED: u64 = 4;
/// Where the list ends, so that the differences find room behind it.
const ENOUGH: usize = 940_000;
/// How many values, of those that lookahead and backtrack are asked.
const CONTEXT: [usize; 24] =
    [0, 1, 2, 3, 4, 5, 6, 7, 8, 9, 10, 11, 12, 13, 14, 15, 16, 24, 32, 40, 48, 56, 63, 64];
/// A clause that has decided less often than this is worth another line.
const OFTEN: u64 = 70;

pub fn write(list: &mut List) {
    let random = &mut Random::new(SEED);
    let mut by = [0; NAMES.len()];
    every_number(list, &mut by);
    every_base(list, random, &mut by);
    let mut turn = 0;
    while list.text.len() < ENOUGH {
        turn += 1;
        let call_of = |random: &mut Random, len: usize| match turn % 4 {
            0 => Call::Backtrack,
            1 => Call::Lookahead(1 + random.below(len.max(1) as u64) as usize),
            _ => Call::Input,
        };
        let [before, after] = if turn % 4 == 1 { [1, 5] } else { [4, 4] };
        let counts = [random.below(before) as usize, 1 + random.below(after) as usize];
        let mut case = matches::calm_case(random, counts);
        if case.setup.props & 0x10 == 0 {
            case.setup.sets.clear();
        }
        let call = call_of(random, case.len);
        let question = matches::draw_question(random, &case, call);
        push(list, &case, &question, &mut by);
    }
    for (case, question) in differences::questions() {
        let ours = question.ours(&case);
        list.push(line(100, &case, &question, ours, true));
    }
    println!("decided by, in the list");
    for (name, times) in NAMES.iter().zip(by).filter(|entry| entry.1 > 0) {
        println!("  {times:>9}  {name}");
    }
}

/// Asks the original; leaves out what it isn't asked.
fn push(list: &mut List, case: &Case, question: &Question, by: &mut [u64; NAMES.len()]) {
    let mut decided = vec![];
    let paper = question.paper(case, |why: By| decided.push(why as usize));
    let past = matches!(paper, Ok(Matched::Input { total: Some(total), .. }) if total > 255);
    if paper.is_err() || past {
        return;
    }
    let Some(matched) = with_text(case.text(), |held| question.original(held)) else {
        return;
    };
    decided.iter().for_each(|&why| by[why] += 1);
    let held = !matches!(matched, Matched::Input { total: None, .. });
    let answer = Answer::of(question.call, &Ok(matched));
    list.push(line(0, case, question, answer, held));
}

fn line(more: u32, case: &Case, question: &Question, answer: Answer, held: bool) -> Line {
    let (operation, start) = match question.call {
        Call::Input => (40, 0),
        Call::Lookahead(start) => (41, start),
        Call::Backtrack => (42, 0),
    };
    let test = match question.testing {
        Testing::Equal => 0u32,
        Testing::Any => 1,
        Testing::Nothing => 2,
    };
    let setup = &case.setup;
    let line = Line::of(more + operation)
        .word(setup.gpos)
        .word(setup.auto_zwnj)
        .word(setup.auto_zwj)
        .word(setup.per_syllable)
        .words(&[setup.mask, setup.props, test])
        .words(&[case.d as u32, case.len as u32, case.idx as u32, start as u32])
        .narrow(&setup.sets)
        .list(&question.values)
        .list(&case.words[0])
        .list(&case.words[1]);
    match answer {
        Answer::Context(placed) => line.word(placed.number).word(placed.place as u32),
        Answer::Input(matched) => {
            let total = if held { matched.total.into() } else { u32::MAX };
            let count = matched.count;
            let positions: Vec<u32> =
                matched.positions[..count].iter().map(|&p| p.into()).collect();
            line.word(matched.number)
                .words(&[matched.end as u32, total, count as u32])
                .words(&positions)
        }
    }
}

/// Each number of values that may be asked, by turns under GSUB and GPOS, with
/// each case of test, with and without glyphs that are passed over.
fn every_number(list: &mut List, by: &mut [u64; NAMES.len()]) {
    let between = [&[][..], &[MARK], &[IGNORABLE]];
    for n in 0..=63 {
        let case =
            matches::numbered(n % 2 == 1, n, SOUGHT, between[if n < 24 { n % 3 } else { 0 }]);
        // What was done plays no part here, nor what stands before the cursor.
        let coming = case.coming[case.idx..].to_vec();
        let case = Case::new(case.setup, vec![], coming, 0);
        push(list, &case, &asked(Call::Input, n), by);
    }
    for n in CONTEXT {
        for gpos in [false, true] {
            let case = matches::numbered(gpos, n, SOUGHT, between[if n < 16 { n % 3 } else { 0 }]);
            let coming = case.coming[case.idx..].to_vec();
            let ahead = Case::new(case.setup.clone(), vec![], coming, 0);
            push(list, &ahead, &asked(Call::Lookahead(1), n), by);
            let coming = case.coming[..=case.idx].to_vec();
            let done = if gpos { vec![] } else { case.done };
            let back = Case::new(case.setup, done, coming, case.idx);
            push(list, &back, &asked(Call::Backtrack, n), by);
        }
    }
}

/// With the value that is there, and each case of test in turn; with no test
/// the marks between are passed over too.
fn asked(call: Call, n: usize) -> Question {
    let testing = TESTINGS[n / 3 % 3];
    Question { call, testing, spare: 2, values: vec![7; n] }
}

fn pick<T: Copy>(random: &mut Random, of: &[T], n: u64) -> Vec<T> {
    (0..n).map(|_| random.pick(of)).collect()
}

/// Texts of the comparison's short ones, drawn until each clause of the
/// ligature rule has decided often.
fn every_base(list: &mut List, random: &mut Random, by: &mut [u64; NAMES.len()]) {
    let mut rule: Vec<usize> =
        (By::BothEqual as usize..=By::BaseHiddenByAnotherId as usize).collect();
    rule.push(By::LigatureLater as usize);
    for _ in 0..200_000 {
        if rule.iter().all(|&why| by[why] >= OFTEN) {
            break;
        }
        let (before, after) = (random.below(4), 2 + random.below(2));
        let (done, coming) = (pick(random, &DONE, before), pick(random, &COMING, after));
        let gpos = random.one_in(8);
        let case = Case::new(matches::plain(gpos, random.pick(&[4, 4, 0])), done, coming, 0);
        let testing = random.pick(&TESTINGS);
        let count = 1 + random.below(2);
        let values = pick(random, &[7, 7, 9], count);
        let question = Question { call: Call::Input, testing, spare: 2, values };
        let mut wanted = false;
        let answered = question.paper(&case, |why| {
            wanted |= rule.contains(&(why as usize)) && by[why as usize] < OFTEN;
        });
        if wanted && answered.is_ok() {
            push(list, &case, &question, by);
        }
    }
}
