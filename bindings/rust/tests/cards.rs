//! The bench cards of docs/01-scope.md, through the safe calls. include/cards.c has the same and more of the library itself.
use conchibaru::*;

fn glyph(id: u32) -> Glyph {
    Glyph::new(id)
}

/// ids 5, 9, 7 with this glyph in the place of 9.
fn around(nine: Glyph) -> Vec<u32> {
    row(&[glyph(5), nine, glyph(7)])
}

fn input(coming: &[u32], props: u32, values: &[u32]) -> InputMatch {
    match_input(&Text::coming(coming), &Lookup { props, ..Lookup::default() }, &[], Test::Equal, values)
}

/// A success with these positions, and 0 in every other slot.
fn matched(end: usize, total: u16, positions: &[u16]) -> InputMatch {
    let mut slots = [0; MAX_CONTEXT_LENGTH];
    slots[..positions.len()].copy_from_slice(positions);
    InputMatch::Matched(Match { end, total, count: positions.len(), slots })
}

#[test]
fn k1_to_k6_match_input() {
    assert_eq!(input(&row(&[glyph(5), glyph(7)]), 0, &[7]), matched(2, 2, &[0, 1]), "K1");
    let mark = around(Glyph { props: props::MARK, ..glyph(9) });
    assert_eq!(input(&mark, lookup_flags::IGNORE_MARKS, &[7]), matched(3, 2, &[0, 2]), "K2");
    assert_eq!(input(&mark, 0, &[7]), InputMatch::Lost(2), "K3");
    assert_eq!(input(&glyph(5).words(), 0, &[7]), InputMatch::Lost(1), "K4");
    let ignorable = around(Glyph { flags: flags::IGNORABLE, ..glyph(9) });
    assert_eq!(input(&ignorable, 0, &[7]), matched(3, 2, &[0, 2]), "K5");
    assert_eq!(input(&ignorable, 0, &[9]), matched(2, 2, &[0, 1]), "K5");
    let zwnj = around(Glyph { flags: flags::IGNORABLE | flags::ZWNJ, ..glyph(9) });
    assert_eq!(input(&zwnj, 0, &[7]), InputMatch::Lost(2), "K6");
}

#[test]
fn k7_k8_digests() {
    let mut digest = SetDigest::new();
    digest.add(4660);
    assert_eq!(digest.masks, [1 << 35, 1 << 52, 1 << 8]);
    assert!(digest.may_have(8756) && !digest.may_have(4661));
    digest.clear();
    assert!(digest.add_range(62, 65));
    assert_eq!(digest.masks, [0b11000, 3 << 62 | 3, 3]);

    let (mut five, mut six) = (SetDigest::new(), SetDigest::new());
    five.add_array(&[5]);
    six.add(6);
    assert!(!five.may_intersect(&six));
    six.union(&five);
    assert!(six.may_intersect(&five) && six.may_have(5));
    assert!(!SetDigest::full().add_range(1, 2));
    assert!(RuleSetDigest::full().is_full() && !RuleSetDigest::new().is_full());
}

#[test]
fn k10_allowances() {
    for (bytes, opens) in [(16_384, 4_194_304), (16_385, 4_194_560), (524_289, 134_217_728)] {
        assert_eq!(Budget::for_table_bytes(bytes).remaining(), (opens, opens));
    }
    let mut budget = Budget::new(1, 0);
    assert_eq!((budget.work(2), budget.work(0), budget.alloc(1, 1)), (Err(Exhausted), Ok(()), Err(Exhausted)));
    assert_eq!((budget.work(1), budget.remaining()), (Ok(()), (0, 0)));
}

#[test]
fn k15_numbers_of_values() {
    let long = row(&[glyph(7); 64]);
    assert!(matches!(input(&long, 0, &[7; 63]), InputMatch::Matched(m) if m.count == 64 && m.total == 64));
    assert_eq!(input(&long, 0, &[7; 64]), InputMatch::Refused(Refusal::Values));
    assert_eq!(input(&long, 0, &[]), matched(1, 1, &[0]));
}

/// Each field turns an answer, so none is handed over in another's place.
#[test]
fn each_field_of_a_lookup_is_read() {
    let skip = |flags: u8, role, lookup: Lookup| {
        may_skip(&Glyph { flags: flags | flags::IGNORABLE, ..glyph(9) }.words(), 0, &lookup, role, &[]).unwrap()
    };
    let off = Lookup::default();
    assert_eq!(skip(flags::ZWNJ, Role::Input, off), MaySkip::No);
    assert_eq!(skip(flags::ZWNJ, Role::Input, Lookup { table: Table::Gpos, ..off }), MaySkip::Maybe);
    assert_eq!(skip(flags::ZWNJ, Role::Input, Lookup { auto_zwnj: true, ..off }), MaySkip::No);
    assert_eq!(skip(flags::ZWNJ, Role::Context, Lookup { auto_zwnj: true, ..off }), MaySkip::Maybe);
    assert_eq!(skip(flags::ZWJ, Role::Input, off), MaySkip::No);
    assert_eq!(skip(flags::ZWJ, Role::Input, Lookup { auto_zwj: true, ..off }), MaySkip::Maybe);

    let mark = Glyph { props: props::MARK, ..glyph(9) }.words();
    let filtering = Lookup { props: lookup_flags::USE_FILTERING_SET | 3 << 16, ..off };
    assert_eq!(may_skip(&mark, 0, &filtering, Role::Input, &[3, 9]), Ok(MaySkip::No));
    assert_eq!(may_skip(&mark, 0, &filtering, Role::Input, &[3, 8]), Ok(MaySkip::Yes));
    assert_eq!(verdict(&mark, 0, &filtering, Role::Input, &Sought::id(8), &[3, 9]), Ok(Verdict::NotMatch));
    assert_eq!(verdict(&mark, 0, &filtering, Role::Input, &Sought::id(9), &[]), Ok(Verdict::Skip));
}

#[test]
fn each_field_of_what_is_sought_is_read() {
    let off = Lookup::default();
    let second = Glyph { syllable: 2, ..glyph(9) }.words();
    let ask = |lookup: Lookup, sought: Sought| may_match(&second, 0, &lookup, Role::Input, &sought).unwrap();
    let nine = Sought { syllable: 1, ..Sought::id(9) };
    assert_eq!(ask(off, nine), MayMatch::Yes);
    assert_eq!(ask(off, Sought { value: 8, ..nine }), MayMatch::No);
    assert_eq!(ask(off, Sought { value: 8, test: Test::Any, ..nine }), MayMatch::Yes);
    assert_eq!(ask(off, Sought { value: 8, test: Test::Nothing, ..nine }), MayMatch::Maybe);
    assert_eq!(ask(Lookup { per_syllable: true, ..off }, nine), MayMatch::No);
    assert_eq!(ask(Lookup { per_syllable: true, ..off }, Sought { syllable: 2, ..nine }), MayMatch::Yes);
    assert_eq!(ask(Lookup { mask: 2, ..off }, nine), MayMatch::No);
}

// ---- runs

/// Where three glyphs that end a row begin.
const CURSOR: usize = LIMIT - 3;
const DOUBLES: [u16; 8] = [2, 0, 0, 4, 2, 2, 2, 2];
const DELETES: [u16; 6] = [2, 0, 0, 2, 2, 0];

/// A glyph of the runs' text, with words that no other has.
fn sign(id: u32) -> Glyph {
    Glyph { mask: 1 | id << 8, syllable: id as u8, ..glyph(id) }
}

/// Rows in which signs 1, 2, 3 end `coming` and every other cell holds something.
fn laid_out() -> (Vec<u32>, Vec<u32>) {
    let (done, mut coming) = (vec![0xA5A5_A5A5; RUN_WORDS], vec![0xA5A5_A5A5; RUN_WORDS]);
    coming[WORDS * CURSOR..].copy_from_slice(&row(&[sign(1), sign(2), sign(3)]));
    (done, coming)
}

/// The rows of a text, 0 in every other cell.
fn rows(done: &[Glyph], coming: &[Glyph]) -> (Vec<u32>, Vec<u32>) {
    let (mut a, mut b) = (row(done), vec![0; RUN_WORDS - WORDS * coming.len()]);
    a.resize(RUN_WORDS, 0);
    b.extend(row(coming));
    (a, b)
}

fn three_matched(done: &[u32], coming: &[u32]) -> InputMatch {
    let text = Text { done, d: 0, coming, len: LIMIT, idx: CURSOR };
    match_input(&text, &Lookup::default(), &[], Test::Equal, &[2, 3])
}

/// Record (1, 0) of a book.
fn given(book: &[u16], matched: InputMatch, allowance: u32, depth: usize) -> Given<'_> {
    Given { sets: &[], book, records: &[1, 0], matched, switches: Switches::default(), allowance, depth }
}

/// Runs record (1, 0) of a book over signs 1, 2, 3, and compares the answer and every word of both rows.
fn run_card(book: &[u16], allowance: u32, depth: usize, wanted: Run, text: (&[Glyph], &[Glyph])) {
    let (mut done, mut coming) = laid_out();
    let matched = three_matched(&done, &coming);
    let answer = run(&mut done, &mut coming, 0, CURSOR, &given(book, matched, allowance, depth));
    assert_eq!(answer, RunAnswer::Ended(wanted));
    assert_eq!((done, coming), rows(text.0, text.1));
}

fn ran(ending: Ending, spent: u32, d: usize, idx: usize, count: usize) -> Run {
    let mut slots = [0; MAX_CONTEXT_LENGTH];
    (0..count).for_each(|i| slots[i] = i as u16);
    Run { ending, spent, d, idx, count, slots }
}

#[test]
fn k11_to_k14_runs() {
    let (one, two, three) = (sign(1), sign(2), sign(3));
    run_card(&DOUBLES, 1, 1, ran(Ending::Finished, 1, 4, LIMIT, 4), (&[one, two, two, three], &[]));
    run_card(&DOUBLES, 0, 1, ran(Ending::Short, 0, 3, LIMIT, 3), (&[one, two, three], &[]));
    run_card(&DELETES, 1, 1, ran(Ending::Finished, 1, 2, LIMIT, 2), (&[one, three], &[]));
    run_card(&DOUBLES, 1, 0, ran(Ending::Deep, 0, 1, CURSOR + 1, 3), (&[one], &[two, three]));
    run_card(&DOUBLES, 0, 0, ran(Ending::Short, 0, 3, LIMIT, 3), (&[one, two, three], &[]));
}

#[test]
fn full_writes_nothing_of_the_result() {
    // As many glyphs before the three as the limit leaves.
    let most = LIMIT - 3;
    let before: Vec<Glyph> = (0..most).map(|i| sign(10 + i as u32)).collect();
    let (_, mut coming) = laid_out();
    let mut done = rows(&before, &[]).0;
    let matched = three_matched(&done, &coming);
    let answer = run(&mut done, &mut coming, most, CURSOR, &given(&DOUBLES, matched, 1, 1));
    let positions = [most, most + 1, most + 2].map(|place| place as u16);
    assert!(matches!(answer, RunAnswer::Ended(r) if r.ending == Ending::Full && r.positions() == positions && r.spent == 1));
    let now = [&before[..], &[sign(1)]].concat();
    assert_eq!((done, coming), rows(&now, &[sign(2), sign(3)]));
}

// ---- refusals

#[test]
fn refused_runs_change_no_word() {
    let (mut done, mut coming) = laid_out();
    let (done_before, coming_before) = (done.clone(), coming.clone());
    let good = three_matched(&done, &coming);
    let given = given(&DOUBLES, good, 1, 1);
    let mut refused = |words: usize, idx: usize, given: Given| match run(&mut done[..words], &mut coming, 0, idx, &given) {
        RunAnswer::Refused(why) => why,
        other => panic!("{other:?}"),
    };
    // Wrong in everything; then one thing after another is put right.
    let mut bad = Given { records: &[1], matched: InputMatch::Lost(2), book: &DOUBLES[..7], depth: 65, ..given };
    assert_eq!(refused(RUN_WORDS - WORDS, LIMIT, bad).number(), 1);
    assert_eq!(refused(RUN_WORDS, LIMIT, bad), Refusal::Shape);
    bad.records = &[1, 0];
    assert_eq!(refused(RUN_WORDS, LIMIT, bad), Refusal::Cursor);
    assert_eq!(refused(RUN_WORDS, CURSOR, bad), Refusal::Limits);
    assert_eq!(refused(RUN_WORDS, CURSOR, Given { depth: 1, allowance: MOST_ALLOWANCE + 1, ..bad }), Refusal::Limits);
    bad.depth = MAX_NESTING_LEVEL;
    assert_eq!(refused(RUN_WORDS, CURSOR, bad), Refusal::Book);
    bad.book = &DOUBLES;
    assert_eq!(refused(RUN_WORDS, CURSOR, bad), Refusal::Match);
    assert_eq!(refused(RUN_WORDS, CURSOR, Given { matched: InputMatch::Ligature, ..given }), Refusal::Match);
    assert_eq!(refused(RUN_WORDS, CURSOR - 1, given), Refusal::Match);
    assert_eq!((done, coming), (done_before, coming_before));
}

#[test]
fn refused_matches() {
    let coming = around(glyph(9));
    let (text, lookup) = (Text::coming(&coming), Lookup::default());
    let shape = match_input(&Text { d: 1, ..text }, &lookup, &[], Test::Any, &[]);
    assert_eq!((shape, shape.number()), (InputMatch::Refused(Refusal::Shape), 1));
    assert_eq!(match_input(&text, &lookup, &[1], Test::Any, &[]), InputMatch::Refused(Refusal::Shape));
    assert_eq!(match_input(&Text { idx: 3, ..text }, &lookup, &[], Test::Any, &[]), InputMatch::Refused(Refusal::Cursor));
    assert_eq!(match_lookahead(&text, 0, &lookup, &[], Test::Any, &[1; 65]), ContextMatch::Refused(Refusal::Values));
    assert_eq!(match_lookahead(&text, 0, &lookup, &[], Test::Any, &[]).number(), 6);
    assert_eq!(match_backtrack(&text, &lookup, &[], Test::Any, &[1; 65]), ContextMatch::Refused(Refusal::Values));
    let attached = around(Glyph { ligature_id: 3, component: 1, ..glyph(9) });
    assert_eq!(input(&attached, 0, &[9]), InputMatch::Ligature);
    assert_eq!(input(&attached, 0, &[9]).number(), 5);
}
