//! Digests and allowances. A mask (m, o), an allowance (w, b), bytes, visits,
//! a count and a size are two words each; a glyph (g, a, b), a value v, n and
//! yes are one. Yes of a charge is 1 where it was taken, 0 where Exhausted.
//!
//!      0                     m m m      new           10               m        rule new
//!      1                     m m m      full          11               m        rule full
//!      2  m m m              m m m      clear         12  m v          m        rule add
//!      3  m m m  o o o       m m m      union         13  m            yes      rule is_full
//!      4  m m m  g           m m m      add           14  m v          yes      rule may_have
//!      5  m m m  n g1 .. gn  m m m      add_array     20  bytes             w b      for_table_bytes
//!      6  m m m  a b         m m m yes  add_range     21  w b  visits       yes w b  work
//!      7  m m m  g           yes        may_have      22  w b  count size   yes w b  alloc
//!      8  m m m  o o o       yes        may_intersect
use super::{Line, List};
use crate::allowances;
use crate::digests::{self, Asked, AskedRule, Known, RuleStep, Step};
use crate::random::Random;
use original::allowances::{left, SIZES};

const SEED: u64 = 2;
const DIGEST_STEPS: usize = 2400;
const RULE_STEPS: usize = 400;
const ALLOWANCE_STEPS: usize = 1200;
/// What the replaying program has room for in one array.
const LONGEST_ARRAY: usize = 8;

pub fn write(list: &mut List) {
    let random = &mut Random::new(SEED);
    digest_corners(list);
    let mut source = digests::Source::new(random);
    let kept = |asked: &Asked| !matches!(&asked.step, Step::AddArray(g) if g.len() > LONGEST_ARRAY);
    let steps = std::iter::repeat_with(|| source.next()).filter(kept);
    steps.take(DIGEST_STEPS).for_each(|asked| list.push(digest_line(&asked)));
    (0..RULE_STEPS).for_each(|_| list.push(rule_line(&source.next_rule())));
    allowance_corners(list);
    for _ in 0..ALLOWANCE_STEPS {
        let before = allowances::state(random);
        list.push(allowance_line(before, allowances::step(random, before)));
    }
}

fn digest_line(asked: &Asked) -> Line {
    let (before, after) = (&asked.before.masks, &asked.after.masks);
    let yes = asked.yes.unwrap_or(false);
    let on = |operation| Line::of(operation).wide(before);
    match &asked.step {
        Step::New => Line::of(0).wide(after),
        Step::Full => Line::of(1).wide(after),
        Step::Clear => on(2).wide(after),
        Step::Union(other) => on(3).wide(&other.masks).wide(after),
        Step::Add(g) => on(4).word(*g).wide(after),
        Step::AddArray(glyphs) => on(5).word(glyphs.len() as u32).words(glyphs).wide(after),
        Step::AddRange(a, b) => on(6).word(*a).word(*b).wide(after).word(yes),
        Step::MayHave(g) => on(7).word(*g).word(yes),
        Step::MayIntersect(other) => on(8).wide(&other.masks).word(yes),
    }
}

fn rule_line(asked: &AskedRule) -> Line {
    let (before, after) = (&[asked.before], &[asked.after]);
    let yes = asked.yes.unwrap_or(false);
    match asked.step {
        RuleStep::New => Line::of(10).wide(after),
        RuleStep::Full => Line::of(11).wide(after),
        RuleStep::Add(value) => Line::of(12).wide(before).word(value).wide(after),
        RuleStep::IsFull => Line::of(13).wide(before).word(yes),
        RuleStep::MayHave(value) => Line::of(14).wide(before).word(value).word(yes),
    }
}

fn allowance_line(before: [u64; 2], step: allowances::Step) -> Line {
    let taken = step.by_original(before).1;
    let after = &left(|| step.by_original(before).0);
    let on = |operation| Line::of(operation).wide(&before);
    match step {
        allowances::Step::ForTableBytes(size) => Line::of(20).wide(&[size]).wide(after),
        allowances::Step::Work(visits) => on(21).wide(&[visits]).word(taken).wide(after),
        allowances::Step::Alloc(count, size) => {
            on(22).wide(&[count, size.bytes]).word(taken).wide(after)
        }
    }
}

/// Ranges at each end point to itself, to its neighbours and to the end of
/// u32, and the digests that random steps seldom meet.
fn digest_corners(list: &mut List) {
    let points = digests::end_points();
    for start in digests::starts() {
        for pair in points.windows(2) {
            let [a, b] = [pair[0], pair[1]];
            for (a, b) in [(a, b), (b, a), (a, a), (a, u32::MAX), (u32::MAX, a)] {
                list.push(digest_line(&digests::ask(&start, Step::AddRange(a, b))));
            }
        }
        for other in digests::starts() {
            list.push(digest_line(&digests::ask(&start, Step::Union(other.clone()))));
            list.push(digest_line(&digests::ask(&start, Step::MayIntersect(other))));
        }
    }
    for step in [Step::New, Step::Full, Step::Clear, Step::AddArray(vec![])] {
        list.push(digest_line(&digests::ask(&Known::full(), step)));
    }
    digests::lacking().for_each(|asked| list.push(digest_line(&asked)));
    digests::lacking_rule().for_each(|asked| list.push(rule_line(&asked)));
}

/// Each corner charged where it is all that remains, one too much, one less,
/// and by each size, also where the product is round 2^64.
fn allowance_corners(list: &mut List) {
    for n in allowances::corners() {
        list.push(allowance_line([0; 2], allowances::Step::ForTableBytes(n)));
        for visits in [0, n, n.wrapping_add(1), n.wrapping_sub(1)] {
            list.push(allowance_line([n, 5], allowances::Step::Work(visits)));
        }
    }
    for &size in SIZES {
        let bytes = size.bytes.max(1);
        for have in [0, 1, 4 << 20, u64::MAX] {
            for count in [
                have / bytes,
                (have / bytes).wrapping_add(1),
                u64::MAX / bytes,
                (u64::MAX / bytes).wrapping_add(1),
            ] {
                list.push(allowance_line([5, have], allowances::Step::Alloc(count, size)));
            }
        }
    }
}
