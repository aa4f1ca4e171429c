//! "Matchers", and what of "When the desk says no" concerns them.
use super::{backward, forward, glyph, judge, matcher, skip, Glyph, Matcher, MOST_GLYPHS, WORDS};
use original::terms::{Call, Matched, May, Role, Setup, Testing, Walked};

pub struct Text<'t> {
    pub setup: &'t Setup,
    pub done: &'t [u32],
    pub d: usize,
    pub coming: &'t [u32],
    pub len: usize,
    pub idx: usize,
}

/// The sentences that decide, by their places in `NAMES`.
#[derive(Clone, Copy, Debug, PartialEq, Eq)]
pub enum By {
    // A glyph that was taken is let through.
    BothEqual,
    OtherComponentBaseYes,
    OtherIdBaseYes,
    NotAttached,
    AttachedToTheFirst,
    // It isn't: refusal 5.
    FirstNotAttached,
    BaseMaybe,
    BaseNo,
    AnotherIdAtOnce,
    AnotherIdLater,
    DoneRanOut,
    NoDone,
    GposWithBase,
    Gpos,
    // The search.
    BaseAtOnce,
    BaseLater,
    BaseBeforeAnother,
    BaseHiddenByAnotherId,
    // How matches end.
    InputNone,
    InputOne,
    InputSome,
    InputMost,
    InputLostFirst,
    InputLostLater,
    LigatureFirst,
    LigatureLater,
    AheadNone,
    AheadMatched,
    AheadMost,
    AheadLostFirst,
    AheadLostLater,
    BackNoneGsub,
    BackNoneGpos,
    BackGsub,
    BackGpos,
    BackMost,
    BackLostFirst,
    BackLostLater,
    // Refusals.
    Shape,
    Cursor,
    TooManyInput,
    TooManyContext,
    StartNone,
    StartSome,
    ShapeFirst,
    CursorFirst,
    ValuesFirst,
}

pub const NAMES: [&str; 47] = [
    "ligature rule holds: the first is attached, the later one has both equal",
    "ligature rule holds: another component, a base that is skip Yes",
    "ligature rule holds: another id, a base that is skip Yes",
    "ligature rule holds: the first isn't attached, nor is the later one",
    "ligature rule holds: the first isn't attached, the later one to the first's id",
    "refusal 5: the first isn't attached, the later one to another id",
    "refusal 5: the base is skip Maybe",
    "refusal 5: the base is skip No",
    "refusal 5: no base, the last of done has another id",
    "refusal 5: no base, another id met after some of the same",
    "refusal 5: no base, done ran out after some of the same id",
    "refusal 5: no base, nothing is done",
    "refusal 5: GPOS searches nothing, though done has a base that is skip Yes",
    "refusal 5: GPOS searches nothing, and done has no such base",
    "search: the base is the last of done",
    "search: the base comes after glyphs of the same id",
    "search: the base found has another of its id before it",
    "search: a base of the id stands before a glyph of another",
    "input matched: no values",
    "input matched: 1 value",
    "input matched: 2 to 62 values",
    "input matched: 63 values",
    "refusal 4, input: at the first value",
    "refusal 4, input: at a later value",
    "refusal 5 at the first value",
    "refusal 5 at a later value",
    "lookahead matched: no values",
    "lookahead matched: 1 to 63 values",
    "lookahead matched: 64 values",
    "refusal 4, lookahead: at the first value",
    "refusal 4, lookahead: at a later value",
    "backtrack matched: no values, GSUB",
    "backtrack matched: no values, GPOS",
    "backtrack matched: 1 to 63 values, GSUB",
    "backtrack matched: 1 to 63 values, GPOS",
    "backtrack matched: 64 values",
    "refusal 4, backtrack: at the first value",
    "refusal 4, backtrack: at a later value",
    "refusal 1 of a matcher",
    "refusal 2: cursor at or past len",
    "refusal 3: over 63 input values",
    "refusal 3: over 64 context values",
    "refusal 6: lookahead start 0, no values",
    "refusal 6: lookahead start 0, some values",
    "order: 1, though 2, 3 or 6 would hold too",
    "order: 2, though 3 or 6 would hold too",
    "order: 3, though 6 would hold too",
];

const MOST_INPUT: usize = 63;
const MOST_CONTEXT: usize = 64;

pub const FAULTS: [&str; 8] = [
    "refusal 1: done not whole glyphs",
    "refusal 1: coming not whole glyphs",
    "refusal 1: done over the limit",
    "refusal 1: coming over the limit",
    "refusal 1: d past its row",
    "refusal 1: len past its row",
    "refusal 1: lookahead start past len",
    "refusal 1: odd mark sets, matchers",
];

/// Everything in a call that makes it one that is refused by 1.
pub fn faults(text: &Text, call: Call) -> Vec<usize> {
    let (done, coming) = (text.done.len(), text.coming.len());
    let holds = [
        done % WORDS != 0,
        coming % WORDS != 0,
        done > WORDS * MOST_GLYPHS,
        coming > WORDS * MOST_GLYPHS,
        text.d > done / WORDS,
        text.len > coming / WORDS,
        matches!(call, Call::Lookahead(start) if start > text.len),
        text.setup.sets.len() % 2 != 0,
    ];
    (0..holds.len()).filter(|&i| holds[i]).collect()
}

/// "Order: 1, 2, 12, 11, 3, 6, 7": the refusals that a matcher has before it
/// looks at a glyph.
fn refusal(text: &Text, call: Call, values: usize, by: &mut impl FnMut(By)) -> Option<u8> {
    let (most, too_many) = match call {
        Call::Input => (MOST_INPUT, By::TooManyInput),
        _ => (MOST_CONTEXT, By::TooManyContext),
    };
    let start_0 = if values == 0 { By::StartNone } else { By::StartSome };
    let all = [
        (1, !faults(text, call).is_empty(), By::Shape, Some(By::ShapeFirst)),
        (2, text.idx >= text.len, By::Cursor, Some(By::CursorFirst)),
        (3, values > most, too_many, Some(By::ValuesFirst)),
        (6, call == Call::Lookahead(0), start_0, None),
    ];
    let mut held = all.into_iter().filter(|entry| entry.1);
    let (number, _, why, first) = held.next()?;
    by(why);
    if let (Some(first), true) = (first, held.next().is_some()) {
        by(first);
    }
    Some(number)
}

/// What a matcher answers, or the number of its refusal; `No` is 5. Says to
/// `by` what decided.
pub fn answer(
    text: &Text,
    call: Call,
    testing: Testing,
    values: &[u32],
    mut by: impl FnMut(By),
) -> Result<Matched, u8> {
    if let Some(number) = refusal(text, call, values.len(), &mut by) {
        return Err(number);
    }
    Ok(match call {
        Call::Input => input(text, testing, values, by),
        Call::Lookahead(start) => lookahead(text, testing, values, start, by),
        Call::Backtrack => backtrack(text, testing, values, by),
    })
}

/// "The starting syllable is the cursor glyph's."
fn starting_syllable(text: &Text) -> u8 {
    glyph(text.coming, text.idx).syllable as u8
}

/// "The cursor glyph is never tested. End is the last position + 1; total is
/// the cursor glyph's count plus each later glyph's count in ligation."
fn input(text: &Text, testing: Testing, values: &[u32], mut by: impl FnMut(By)) -> Matched {
    let matcher = matcher(text.setup, Role::Input);
    let syllable = starting_syllable(text);
    let first = glyph(text.coming, text.idx);
    let mut positions = vec![text.idx];
    let mut total = first.count;
    let mut last = text.idx;
    for (i, &value) in values.iter().enumerate() {
        let judged = |p| judge(&matcher, text.coming, p, testing.of(value), syllable).verdict;
        match forward(text.len, last, judged) {
            Walked::Found(place) => last = place,
            Walked::Stopped(extent) | Walked::RanOut(extent) => {
                by(if i == 0 { By::InputLostFirst } else { By::InputLostLater });
                return Matched::Lost(extent);
            }
        }
        positions.push(last);
        let later = glyph(text.coming, last);
        if !ligature_rule(text, &matcher, &first, &later, &mut by) {
            by(if i == 0 { By::LigatureFirst } else { By::LigatureLater });
            return Matched::No;
        }
        total += later.count_in_ligation;
    }
    by(match values.len() {
        0 => By::InputNone,
        1 => By::InputOne,
        MOST_INPUT => By::InputMost,
        _ => By::InputSome,
    });
    Matched::Input { end: last + 1, total: Some(total), positions }
}

fn attached(g: &Glyph) -> bool {
    g.ligature_id != 0 && g.component != 0
}

/// "If the first has nonzero id and component, each later one needs both
/// equal, unless the search back over `done` (under GPOS over nothing) finds an
/// ignorable base. If not so attached, a later glyph with nonzero id and
/// component must share the first's id."
fn ligature_rule(
    text: &Text,
    matcher: &Matcher,
    first: &Glyph,
    later: &Glyph,
    by: &mut impl FnMut(By),
) -> bool {
    let same_id = later.ligature_id == first.ligature_id;
    if !attached(first) {
        let (holds, why) = match (attached(later), same_id) {
            (false, _) => (true, By::NotAttached),
            (true, true) => (true, By::AttachedToTheFirst),
            (true, false) => (false, By::FirstNotAttached),
        };
        by(why);
        return holds;
    }
    if same_id && later.component == first.component {
        by(By::BothEqual);
        return true;
    }
    let base = if text.setup.gpos { None } else { search(text, first.ligature_id, by) };
    let Some(base) = base else {
        if text.setup.gpos {
            let there = search(text, first.ligature_id, &mut |_| ());
            let ignorable = there.is_some_and(|base| skip(matcher, &base).0 == May::Yes);
            by(if ignorable { By::GposWithBase } else { By::Gpos });
        }
        return false;
    };
    let may = skip(matcher, &base).0;
    by(match may {
        May::Yes if same_id => By::OtherComponentBaseYes,
        May::Yes => By::OtherIdBaseYes,
        May::Maybe => By::BaseMaybe,
        May::No => By::BaseNo,
    });
    may == May::Yes
}

/// "That search ends at the first glyph of another id, or at component 0,
/// which is the base found."
fn search(text: &Text, id: u32, by: &mut impl FnMut(By)) -> Option<Glyph> {
    for place in (0..text.d).rev() {
        let g = glyph(text.done, place);
        let is_last = place + 1 == text.d;
        let mut before = (0..place).map(|p| glyph(text.done, p));
        let mut more = || before.any(|g| g.ligature_id == id && g.component == 0);
        if g.ligature_id != id {
            if more() {
                by(By::BaseHiddenByAnotherId);
            }
            by(if is_last { By::AnotherIdAtOnce } else { By::AnotherIdLater });
            return None;
        }
        if g.component == 0 {
            if more() {
                by(By::BaseBeforeAnother);
            }
            by(if is_last { By::BaseAtOnce } else { By::BaseLater });
            return Some(g);
        }
    }
    by(if text.d == 0 { By::NoDone } else { By::DoneRanOut });
    None
}

/// "Answering the last place + 1; with none, the start index."
fn lookahead(
    text: &Text,
    testing: Testing,
    values: &[u32],
    start: usize,
    mut by: impl FnMut(By),
) -> Matched {
    let matcher = matcher(text.setup, Role::Context);
    let syllable = starting_syllable(text);
    let mut end = start;
    for (i, &value) in values.iter().enumerate() {
        let judged = |p| judge(&matcher, text.coming, p, testing.of(value), syllable).verdict;
        match forward(text.len, end - 1, judged) {
            Walked::Found(place) => end = place + 1,
            Walked::Stopped(extent) | Walked::RanOut(extent) => {
                by(if i == 0 { By::AheadLostFirst } else { By::AheadLostLater });
                return Matched::Lost(extent);
            }
        }
    }
    by(match values.len() {
        0 => By::AheadNone,
        MOST_CONTEXT => By::AheadMost,
        _ => By::AheadMatched,
    });
    Matched::Context(end)
}

/// "The backward row is `done` for GSUB and, for GPOS, the records of `coming`
/// before the cursor. Answering the last place; with none, the backward row's
/// length."
fn backtrack(text: &Text, testing: Testing, values: &[u32], mut by: impl FnMut(By)) -> Matched {
    let gpos = text.setup.gpos;
    let (row, length) = if gpos { (text.coming, text.idx) } else { (text.done, text.d) };
    let matcher = matcher(text.setup, Role::Context);
    let syllable = starting_syllable(text);
    let mut last = length;
    for (i, &value) in values.iter().enumerate() {
        let judged = |p| judge(&matcher, row, p, testing.of(value), syllable).verdict;
        match backward(last, judged) {
            Walked::Found(place) => last = place,
            Walked::Stopped(extent) | Walked::RanOut(extent) => {
                by(if i == 0 { By::BackLostFirst } else { By::BackLostLater });
                return Matched::Lost(extent);
            }
        }
    }
    by(match (values.len(), gpos) {
        (0, false) => By::BackNoneGsub,
        (0, true) => By::BackNoneGpos,
        (MOST_CONTEXT, _) => By::BackMost,
        (_, false) => By::BackGsub,
        (_, true) => By::BackGpos,
    });
    Matched::Context(last)
}
