//! What may be wrong in a run, or nearly so.
use super::Case;
use crate::paper::runs::{ROW, ROW_WORDS};
use crate::paper::WORDS;
use crate::random::Random;

/// Lengths of a row that aren't a run's.
const LENGTHS: [usize; 7] =
    [0, WORDS, ROW_WORDS - WORDS, ROW_WORDS - 1, ROW_WORDS + 1, ROW_WORDS + WORDS, 2 * ROW_WORDS];

pub fn damage(random: &mut Random, case: &mut Case) {
    let huge = random.near(&[u64::MAX - 2, 1 << 62, 1 << 32], 2) as usize;
    let matched = &mut case.matched;
    match random.below(20) {
        0 => case.done.resize(random.pick(&LENGTHS), 1),
        1 => case.coming.resize(random.pick(&LENGTHS), 1),
        2 => case.d = random.pick(&[case.idx, case.idx + 1, ROW, ROW + 1, huge]),
        3 => case.idx = random.pick(&[case.d, case.d.max(1) - 1, ROW - 1, ROW, ROW + 1, huge]),
        4 => case.setup.sets.push(1),
        5 => case.records.push(0),
        6 => case.records.resize(random.pick(&[30, 31, 32, 33, 34, 36]), 0),
        7 => case.allowance = random.pick(&[0x7FFF_FFFF, 0x8000_0000, u32::MAX]),
        8 => case.depth = random.pick(&[64, 65, huge]),
        9 => matched.number = random.pick(&[1, 2, 3, 4, 5, 7, 255]),
        10 => matched.count = random.pick(&[0, 65, huge]),
        11 => {
            // As many as there may be, rising or not.
            let first = matched.positions[0];
            matched.count = random.pick(&[63, 64]);
            for (slot, more) in matched.positions.iter_mut().zip(0..) {
                *slot = first.wrapping_add(more);
            }
        }
        12 => matched.positions[0] = random.near(&[matched.positions[0].into()], 1) as u16,
        13 => {
            let at = random.below(matched.count.clamp(1, 64) as u64) as usize;
            let end = ROW as u16;
            matched.positions[at] = random.pick(&[0, end - 1, end, 0xFFFF, matched.positions[0]]);
        }
        14 => {
            let last = matched.positions[matched.count.clamp(1, 64) - 1];
            let near = random.near(&[last.into(), ROW as u64], 1) as usize;
            matched.end = random.pick(&[near, 0, ROW, ROW + 1, huge]);
        }
        15 => {
            let at = random.below(case.book.len().max(1) as u64) as usize;
            if let Some(word) = case.book.get_mut(at) {
                *word =
                    random.pick(&[0, 1, 2, 3, 4, 8, 9, 16, 17, 63, 64, 65, word.wrapping_add(1)]);
            }
        }
        16 => {
            let most = case.book.len() as u64;
            case.book.truncate(random.up_to(most) as usize);
        }
        17 => case.book.push(random.below(4) as u16),
        18 => case.book = limit_book(random),
        _ => {
            // A body that is longer or shorter than its content.
            if let Some(length) = case.book.get_mut(3) {
                *length = random.near(&[(*length).into()], 1) as u16;
            }
        }
    }
}

/// Books at the limits of words, lookups, ids, values and records.
fn limit_book(random: &mut Random) -> Vec<u16> {
    let one = [1, 0, 0, 2, 1, 2];
    match random.below(4) {
        0 => one.repeat(random.pick(&[255, 256, 257])),
        1 => {
            // 4,096 words and so many more.
            let mut book = vec![];
            let whole = [
                &[3, 0, 0, 261 - 4, 1, 64][..],
                &[1; 64],
                &[63],
                &[1; 63],
                &[64],
                &[1; 64],
                &[16],
                &[0; 32],
            ];
            let mut whole = whole.concat();
            whole[3] = whole.len() as u16 - 4;
            while book.len() + whole.len() <= 4096 {
                book.extend(&whole);
            }
            let over = random.pick(&[4094, 4095, 4096, 4097, 4098]);
            while book.len() + 12 <= over {
                book.extend(one);
            }
            let left = over - book.len();
            if left >= 6 {
                let ids = vec![1; left - 6];
                book.extend([2, 0, 0, left as u16 - 4, 1, ids.len() as u16]);
                book.extend(ids);
            }
            book
        }
        2 => {
            let count = random.pick(&[7, 8, 9]);
            [&[2, 0, 0, 2 + count, 1, count][..], &vec![1; count.into()]].concat()
        }
        _ => {
            let which = random.below(5);
            let number = |at: u64, most: u16| if which == at { most + 1 } else { most };
            let mut book = vec![3, 0, 0, 0, 1];
            for (number, by) in
                [(number(0, 64), 1), (number(1, 63), 1), (number(2, 64), 1), (number(3, 16), 2)]
            {
                book.push(number);
                book.extend(vec![1; by * usize::from(number)]);
            }
            book[3] = book.len() as u16 - 4;
            book
        }
    }
}
