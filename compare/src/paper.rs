//! A plain second implementation of the port's paper (01), written from its
//! sentences alone. What the original can't be asked is compared with it:
//! refusals, and words that it can't hold. It also says which sentence decided.
pub mod matchers;
pub mod runs;

use original::terms::{May, Role, Setup, Test, Verdict, Walked};

// ---- "A glyph in four words"

pub const WORDS: usize = 4;
pub const MOST_GLYPHS: usize = 2048;

// Both sides are asked for one limit.
const _: () = assert!(MOST_GLYPHS == original::hook::MOST_GLYPHS);

const IGNORABLE: u32 = 1;
const ZWNJ: u32 = 2;
const ZWJ: u32 = 4;
const HIDDEN: u32 = 8;

/// The classes that a lookup may ignore, as props and as lookup flags.
const CLASSES: u32 = 2 | 4 | 8;
const MARK: u32 = 8;
const USES_A_SET: u32 = 0x10;
const ATTACHMENT_CLASS: u32 = 0xFF00;

struct Glyph {
    id: u32,
    mask: u32,
    flags: u32,
    syllable: u32,
    props: u32,
    ligature_id: u32,
    component: u32,
    count: u32,
    count_in_ligation: u32,
}

fn glyph(row: &[u32], place: usize) -> Glyph {
    let words = &row[WORDS * place..WORDS * (place + 1)];
    Glyph {
        id: words[0],
        mask: words[1],
        flags: words[2] >> 24,
        syllable: words[2] >> 16 & 0xFF,
        props: words[2] & 0xFFFF,
        ligature_id: words[3] >> 24,
        component: words[3] >> 16 & 0xFF,
        count: words[3] >> 8 & 0xFF,
        count_in_ligation: words[3] & 0xFF,
    }
}

/// "A glyph above 65,535 is in no set."
fn in_set(sets: &[u16], set: u32, id: u32) -> bool {
    id <= 65_535
        && (0..sets.len() / 2)
            .any(|pair| u32::from(sets[2 * pair]) == set && u32::from(sets[2 * pair + 1]) == id)
}

// ---- "May skip, may match"

pub struct Matcher<'a> {
    mask: u32,
    props: u32,
    zwnj_ignored: bool,
    zwj_ignored: bool,
    hidden_ignored: bool,
    syllables_tested: bool,
    sets: &'a [u16],
}

pub fn matcher(setup: &Setup, role: Role) -> Matcher<'_> {
    let common = Matcher {
        mask: setup.mask,
        props: setup.props,
        zwnj_ignored: setup.gpos,
        zwj_ignored: setup.auto_zwj,
        hidden_ignored: setup.gpos,
        syllables_tested: !setup.gpos && setup.per_syllable,
        sets: &setup.sets,
    };
    match role {
        Role::Input => common,
        Role::Context => Matcher {
            mask: u32::MAX,
            zwnj_ignored: setup.gpos || setup.auto_zwnj,
            zwj_ignored: true,
            ..common
        },
    }
}

/// The sentences that decide may skip, by their places in `SKIP_BY`.
pub const SKIP_BY: [&str; 15] = [
    "may skip Yes: an ignored class, base",
    "may skip Yes: an ignored class, ligature",
    "may skip Yes: an ignored class, mark",
    "may skip Yes: a mark outside the named set",
    "may skip Yes: a mark outside the named set, above 65,535",
    "may skip Yes: a mark of another attachment class",
    "may skip Maybe: default ignorable, no ZWNJ, ZWJ or hidden",
    "may skip Maybe: ZWNJ is ignored",
    "may skip Maybe: ZWJ is ignored",
    "may skip Maybe: hidden is ignored",
    "may skip No: ZWNJ isn't ignored",
    "may skip No: ZWJ isn't ignored",
    "may skip No: hidden isn't ignored",
    "may skip No: a mark in the named set or of the class asked, not ignorable",
    "may skip No: any other glyph, not ignorable",
];

fn skip(matcher: &Matcher, g: &Glyph) -> (May, usize) {
    let ignored = matcher.props & g.props & CLASSES;
    if ignored != 0 {
        return (May::Yes, if ignored & 2 != 0 { 0 } else { 1 + usize::from(ignored & 4 == 0) });
    }
    let is_mark = g.props & MARK != 0;
    let asked = matcher.props & ATTACHMENT_CLASS;
    if is_mark && matcher.props & USES_A_SET != 0 {
        if !in_set(matcher.sets, matcher.props >> 16, g.id) {
            return (May::Yes, 3 + usize::from(g.id > 65_535));
        }
    } else if is_mark && asked != 0 && asked != g.props & ATTACHMENT_CLASS {
        return (May::Yes, 5);
    }
    if g.flags & IGNORABLE == 0 {
        let chosen = is_mark && (matcher.props & USES_A_SET != 0 || asked != 0);
        return (May::No, if chosen { 13 } else { 14 });
    }
    let kinds = [
        (ZWNJ, matcher.zwnj_ignored),
        (ZWJ, matcher.zwj_ignored),
        (HIDDEN, matcher.hidden_ignored),
    ];
    let is = |kind: u32| g.flags & kind != 0;
    if let Some(i) = kinds.iter().position(|&(kind, ignored)| is(kind) && !ignored) {
        return (May::No, 10 + i);
    }
    match kinds.iter().position(|&(kind, _)| is(kind)) {
        Some(i) => (May::Maybe, 7 + i),
        None => (May::Maybe, 6),
    }
}

pub const MATCH_BY: [&str; 9] = [
    "may match No: mask AND matcher mask is 0",
    "may match No: another syllable",
    "may match Yes: equal id",
    "may match Yes: equal id, syllables tested from a nonzero one",
    "may match Yes: equal id, syllables tested from 0",
    "may match No: another id",
    "may match Yes: any",
    "may match Maybe: no test",
    "may match Maybe: no test, syllables tested from a nonzero one",
];

fn matches(matcher: &Matcher, g: &Glyph, test: Test, syllable: u8) -> (May, usize) {
    let starting = u32::from(syllable);
    if g.mask & matcher.mask == 0 {
        return (May::No, 0);
    }
    let tested = matcher.syllables_tested;
    if tested && starting != 0 && starting != g.syllable {
        return (May::No, 1);
    }
    match test {
        Test::Equal(value) if g.id == value => {
            (May::Yes, if !tested { 2 } else { 3 + usize::from(starting == 0) })
        }
        Test::Equal(_) => (May::No, 5),
        Test::Any => (May::Yes, 6),
        Test::None => (May::Maybe, 7 + usize::from(tested && starting != 0)),
    }
}

pub const VERDICT_BY: [&str; 7] = [
    "verdict Skip: skip Yes",
    "verdict Match: match Yes under skip No",
    "verdict Match: match Yes under skip Maybe",
    "verdict Match: match Maybe under skip No",
    "verdict NotMatch: match No under skip No",
    "verdict Skip: match No under skip Maybe",
    "verdict Skip: match Maybe under skip Maybe",
];

/// "Skip Yes is passed over. Else Yes matches, and Maybe matches under skip
/// No. Else skip No stops and Maybe is passed over."
fn weigh(skip: May, matches: May) -> (Verdict, usize) {
    match (skip, matches) {
        (May::Yes, _) => (Verdict::Skip, 0),
        (May::No, May::Yes) => (Verdict::Match, 1),
        (May::Maybe, May::Yes) => (Verdict::Match, 2),
        (May::No, May::Maybe) => (Verdict::Match, 3),
        (May::No, May::No) => (Verdict::NotMatch, 4),
        (May::Maybe, May::No) => (Verdict::Skip, 5),
        (May::Maybe, May::Maybe) => (Verdict::Skip, 6),
    }
}

/// Everything about the glyph at a place, and which sentences decided.
pub struct Judged {
    pub skip: May,
    pub skip_by: usize,
    pub matches: May,
    pub match_by: usize,
    pub verdict: Verdict,
    pub verdict_by: usize,
}

pub fn judge(matcher: &Matcher, row: &[u32], place: usize, test: Test, syllable: u8) -> Judged {
    let g = glyph(row, place);
    let (skip, skip_by) = skip(matcher, &g);
    let (matches, match_by) = matches(matcher, &g, test, syllable);
    let (verdict, verdict_by) = weigh(skip, matches);
    Judged { skip, skip_by, matches, match_by, verdict, verdict_by }
}

// ---- "Walk"

/// "Forward from a place: the next glyph tested is one later. Stopped at p, or
/// run out with p the last place reached: extent p + 1."
pub fn forward(len: usize, place: usize, mut judge: impl FnMut(usize) -> Verdict) -> Walked {
    for p in place + 1..len {
        match judge(p) {
            Verdict::Match => return Walked::Found(p),
            Verdict::NotMatch => return Walked::Stopped(p + 1),
            Verdict::Skip => {}
        }
    }
    Walked::RanOut(place.max(len.saturating_sub(1)) + 1)
}

/// "Backward, stopped at p: max(p,1) - 1; run out: 0."
pub fn backward(place: usize, mut judge: impl FnMut(usize) -> Verdict) -> Walked {
    for p in (0..place).rev() {
        match judge(p) {
            Verdict::Match => return Walked::Found(p),
            Verdict::NotMatch => return Walked::Stopped(p.max(1) - 1),
            Verdict::Skip => {}
        }
    }
    Walked::RanOut(0)
}

// ---- "When the desk says no", number 1

pub const REFUSED_BY: [&str; 5] = [
    "refusal 1: row not whole glyphs",
    "refusal 1: row over the limit",
    "refusal 1: len past its row",
    "refusal 1: place past len, or past its row",
    "refusal 1: odd mark sets",
];

/// Everything in a call that makes it one that is refused by 1.
pub fn faults(row: &[u32], len: Option<usize>, place: Option<usize>, sets: &[u16]) -> Vec<usize> {
    let glyphs = row.len() / WORDS;
    let holds = [
        row.len() % WORDS != 0,
        row.len() > WORDS * MOST_GLYPHS,
        len.is_some_and(|len| len > glyphs),
        place.is_some_and(|place| place > len.unwrap_or(glyphs)),
        sets.len() % 2 != 0,
    ];
    (0..holds.len()).filter(|&i| holds[i]).collect()
}

/// A question needs a glyph, so its place may not be its row's end either.
pub fn refuses_question(row: &[u32], place: usize, sets: &[u16]) -> bool {
    place >= row.len() / WORDS || !faults(row, None, None, sets).is_empty()
}
