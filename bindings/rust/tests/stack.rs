//! The stack that a run takes at its greatest depth: a thread of 128 KB has enough. One that had too little would end the tests by a signal.
use conchibaru::*;

/// Where three glyphs that end a row begin.
const CURSOR: usize = LIMIT - 3;

/// Lookup 0 asks 1 before the cursor, 2 at it, 3 and 4 behind it, and then for itself: every matcher is asked on every level.
const NESTS_ITSELF: [u16; 14] = [3, 0, 0, 10, 2, 1, 1, 1, 3, 1, 4, 1, 0, 0];

fn deepest() {
    let (mut done, mut coming) = (vec![0; RUN_WORDS], vec![0; RUN_WORDS]);
    done[..WORDS].copy_from_slice(&Glyph::new(1).words());
    coming[WORDS * CURSOR..].copy_from_slice(&row(&[Glyph::new(2), Glyph::new(3), Glyph::new(4)]));
    let text = Text { done: &done, d: 1, idx: CURSOR, ..Text::coming(&coming) };
    let matched = match_input(&text, &Lookup::default(), &[], Test::Equal, &[3]);
    let (switches, depth) = (Switches::default(), MAX_NESTING_LEVEL);
    let given = Given { sets: &[], book: &NESTS_ITSELF, records: &[0, 0], matched, switches, allowance: MOST_ALLOWANCE, depth };
    let answer = run(&mut done, &mut coming, 1, CURSOR, &given);
    assert!(matches!(answer, RunAnswer::Ended(r) if r.ending == Ending::Deep && r.spent as usize == depth), "{answer:?}");
}

#[test]
fn the_greatest_depth_takes_less_than_128_kb() {
    std::thread::Builder::new().stack_size(128 << 10).spawn(deepest).unwrap().join().unwrap();
}
