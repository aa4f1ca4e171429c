//! The original's two questions and its walks, over one row.
//!
//! The row stands in the buffer's `info`, and both ways of walking go over it:
//! as long as nothing has been written, that is also the original's backward
//! row. Behind it, past the buffer's length, stands one glyph more: the
//! cursor's, from which the original takes the starting syllable.
use super::glyphs::{info, info_of, Glyph, ORDINARY};
use super::terms::{May, Role, Setup, Test, Verdict, Walked};
use crate::buffer::{Buffer, GlyphInfo, UnicodeProps};
use crate::ot::apply::*;
use crate::ot::layout::LayoutTableKind;
use crate::ot::lookup::LookupCache;
use crate::ot::OtData;
use crate::{LayoutData, Scale};

/// A row that questions are put to.
pub struct Row<'r, 'a>(&'r mut ApplyContext<'a, 'a, 'a>);

type Judge = Box<dyn Fn(&mut GlyphInfo, u32) -> bool>;

fn judge(test: Test) -> Option<Judge> {
    match test {
        Test::Equal(value) => Some(Box::new(move |info, _| match_glyph(info, value))),
        Test::Any => Some(Box::new(match_always)),
        Test::None => None,
    }
}

/// Puts questions about `glyphs`, the first `len` of which a forward walk may
/// reach, to the original.
pub fn with_row<R>(
    setup: &Setup,
    glyphs: &[Glyph],
    len: usize,
    syllable: u8,
    ask: impl FnOnce(&mut Row) -> R,
) -> R {
    with_infos(setup, glyphs.iter().map(info).collect(), len, syllable, ask)
}

/// The same where every glyph, joiners too, has a category other than Cf.
pub fn with_ordinary_row<R>(
    setup: &Setup,
    glyphs: &[Glyph],
    len: usize,
    syllable: u8,
    ask: impl FnOnce(&mut Row) -> R,
) -> R {
    let infos = glyphs.iter().map(|glyph| info_of(glyph, ORDINARY)).collect();
    with_infos(setup, infos, len, syllable, ask)
}

fn with_infos<R>(
    setup: &Setup,
    mut infos: Vec<GlyphInfo>,
    len: usize,
    syllable: u8,
    ask: impl FnOnce(&mut Row) -> R,
) -> R {
    let ot = OtData { lookups: LookupCache::EMPTY, missing: None, mark_sets: &setup.sets };
    let mut buffer = Buffer::new();
    buffer.len = len;
    buffer.idx = infos.len();
    infos.push(info(&[0, 0, u32::from(syllable) << 16, 0]));
    buffer.info = infos;
    let kind = if setup.gpos { LayoutTableKind::Gpos } else { LayoutTableKind::Gsub };
    let mut ctx = ApplyContext::new(kind, LayoutData { ot: &ot }, Scale, &mut buffer);
    ctx.set_lookup_mask(setup.mask);
    ctx.lookup_props = setup.props;
    ctx.auto_zwnj = setup.auto_zwnj;
    ctx.auto_zwj = setup.auto_zwj;
    ctx.per_syllable = setup.per_syllable;
    ctx.update_matchers();
    ask(&mut Row(&mut ctx))
}

impl<'a> Row<'_, 'a> {
    fn walker(&mut self, role: Role, test: Test) -> SkippingIterator<'a, '_, Judge> {
        SkippingIterator::with_match_fn(self.0, role == Role::Context, judge(test))
    }

    pub fn may_skip(&mut self, role: Role, place: usize) -> May {
        let iter = SkippingIterator::new(self.0, role == Role::Context);
        match iter.may_skip(&iter.buffer.info[place]) {
            MaySkip::No => May::No,
            MaySkip::Yes => May::Yes,
            MaySkip::Maybe => May::Maybe,
        }
    }

    /// The original has no call that answers may match alone. It shows in two
    /// verdicts, on glyphs that differ from the one at `place` only in what
    /// may match doesn't look at: one may not be skipped, one maybe.
    pub fn may_match(&mut self, role: Role, place: usize, test: Test) -> May {
        let kept = self.0.buffer.info[place];
        let category = u16::from(ORDINARY.0);
        let [on_no, on_maybe] = [0, UnicodeProps::IGNORABLE.bits()].map(|ignorable| {
            let info = &mut self.0.buffer.info[place];
            info.set_glyph_props(0);
            info.set_unicode_props(category | ignorable);
            self.verdict(role, place, test)
        });
        self.0.buffer.info[place] = kept;
        match (on_no, on_maybe) {
            (Verdict::Match, Verdict::Match) => May::Yes,
            (Verdict::Match, Verdict::Skip) => May::Maybe,
            (Verdict::NotMatch, Verdict::Skip) => May::No,
            verdicts => panic!("no answer of may match gives {verdicts:?}"),
        }
    }

    pub fn verdict(&mut self, role: Role, place: usize, test: Test) -> Verdict {
        let mut iter = self.walker(role, test);
        iter.reset(place).expect("the cursor's glyph");
        verdict(iter.match_at(place))
    }

    pub fn forward(&mut self, role: Role, place: usize, test: Test) -> Walked {
        let mut iter = self.walker(role, test);
        iter.reset(place).expect("the cursor's glyph");
        let mut extent = usize::MAX;
        match iter.next(Some(&mut extent)) {
            true => Walked::Found(iter.index()),
            false => ended(&mut iter, place, extent),
        }
    }

    pub fn backward(&mut self, role: Role, place: usize, test: Test) -> Walked {
        let mut iter = self.walker(role, test);
        iter.reset_back(place).expect("the cursor's glyph");
        let mut extent = usize::MAX;
        match iter.prev(Some(&mut extent)) {
            true => Walked::Found(iter.index()),
            false => ended(&mut iter, place, extent),
        }
    }

    /// A walk for an equal id with nothing boxed and nothing asked besides,
    /// for timing: whether it found, and the place or the extent.
    #[inline(never)]
    pub fn bare_forward(&mut self, role: Role, place: usize, value: u32) -> (bool, usize) {
        let test = |info: &mut GlyphInfo, _| match_glyph(info, value);
        let mut iter = SkippingIterator::with_match_fn(self.0, role == Role::Context, Some(test));
        let mut extent = 0;
        iter.reset(place);
        match iter.next(Some(&mut extent)) {
            true => (true, iter.index()),
            false => (false, extent),
        }
    }

    #[inline(never)]
    pub fn bare_backward(&mut self, role: Role, place: usize, value: u32) -> (bool, usize) {
        let test = |info: &mut GlyphInfo, _| match_glyph(info, value);
        let mut iter = SkippingIterator::with_match_fn(self.0, role == Role::Context, Some(test));
        let mut extent = 0;
        iter.reset_back(place);
        match iter.prev(Some(&mut extent)) {
            true => (true, iter.index()),
            false => (false, extent),
        }
    }
}

/// The original says no more than the extent. It stopped if it moved at all
/// and the glyph where it stands, asked again, says so.
fn ended(iter: &mut SkippingIterator<Judge>, from: usize, extent: usize) -> Walked {
    let at = iter.index();
    match at != from && verdict(iter.match_at(at)) == Verdict::NotMatch {
        true => Walked::Stopped(extent),
        false => Walked::RanOut(extent),
    }
}

fn verdict(result: MatchResult) -> Verdict {
    match result {
        MatchResult::Match => Verdict::Match,
        MatchResult::NotMatch => Verdict::NotMatch,
        MatchResult::Skip => Verdict::Skip,
    }
}
