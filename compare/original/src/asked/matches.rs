//! The original's three matchers, over a text.
//!
//! `coming` stands in the buffer's `info`, its length is the buffer's. Under
//! GSUB `done` is the separate output, which the buffer keeps in `pos`, and the
//! output's length is d. Under GPOS there is no output.
use super::glyphs::{named_info, written_info, Glyph, Names};
use super::terms::{Call, Matched, Role, Setup, Testing};
use crate::buffer::{Buffer, GlyphInfo};
use crate::ot::apply::*;
use crate::ot::layout::LayoutTableKind;
use crate::ot::lookup::LookupCache;
use crate::ot::OtData;
use crate::{LayoutData, Scale};

#[derive(Clone, Copy)]
pub struct Text<'t> {
    pub setup: &'t Setup,
    pub done: &'t [Glyph],
    pub d: usize,
    pub coming: &'t [Glyph],
    pub len: usize,
    pub idx: usize,
}

/// A text that the original holds.
pub struct Held<'r, 'a> {
    ctx: &'r mut ApplyContext<'a, 'a, 'a>,
    /// For each glyph of `coming`, whether the original sees its count.
    counted: Vec<bool>,
}

/// Puts questions about a text to the original, if it can hold the text: the
/// first d and the first len glyphs are those that may be seen.
pub fn with_text<R>(text: Text, ask: impl FnOnce(&mut Held) -> R) -> Option<R> {
    let [d, len] = [text.d.min(text.done.len()), text.len.min(text.coming.len())];
    let names = Names::of(text.done[..d].iter().chain(&text.coming[..len]))?;
    let hold = |glyph| named_info(glyph, &names, false);
    let done = text.done.iter().map(|glyph| hold(glyph).0).collect();
    let mut coming: Vec<(GlyphInfo, bool)> = text.coming.iter().map(hold).collect();
    if let Some(cursor) = text.coming.get(text.idx) {
        coming[text.idx] = named_info(cursor, &names, true);
    }
    // With its assertions on, the original doesn't survive a total past 255.
    if cfg!(debug_assertions) && len > 17 {
        for ((info, counted), glyph) in coming.iter_mut().zip(text.coming) {
            *info = named_info(&[glyph[0], glyph[1], glyph[2] & !4, glyph[3]], &names, true).0;
            info.set_glyph_props(glyph[2] as u16);
            *counted = false;
        }
    }
    let (infos, counted) = coming.into_iter().unzip();
    Some(with_infos(text, done, infos, counted, ask))
}

/// The same with the ligature's numbers as the original would write them.
pub fn with_written_text<R>(text: Text, ask: impl FnOnce(&mut Held) -> R) -> R {
    let [done, coming] =
        [text.done, text.coming].map(|row| row.iter().map(written_info).collect::<Vec<_>>());
    let counted = vec![true; coming.len()];
    with_infos(text, done, coming, counted, ask)
}

fn with_infos<R>(
    text: Text,
    mut done: Vec<GlyphInfo>,
    mut coming: Vec<GlyphInfo>,
    counted: Vec<bool>,
    ask: impl FnOnce(&mut Held) -> R,
) -> R {
    let setup = text.setup;
    let ot = OtData { lookups: LookupCache::EMPTY, missing: None, mark_sets: &setup.sets };
    let mut buffer = Buffer::new();
    let room = done.len().max(coming.len());
    if !setup.gpos {
        done.resize(room, GlyphInfo::default());
        coming.resize(room, GlyphInfo::default());
        buffer.have_output = true;
        buffer.have_separate_output = true;
        buffer.out_len = text.d;
        buffer.pos = bytemuck::cast_vec(done);
    }
    buffer.info = coming;
    buffer.len = text.len;
    buffer.idx = text.idx;
    let kind = if setup.gpos { LayoutTableKind::Gpos } else { LayoutTableKind::Gsub };
    let mut ctx = ApplyContext::new(kind, LayoutData { ot: &ot }, Scale, &mut buffer);
    ctx.set_lookup_mask(setup.mask);
    ctx.lookup_props = setup.props;
    ctx.auto_zwnj = setup.auto_zwnj;
    ctx.auto_zwj = setup.auto_zwj;
    ctx.per_syllable = setup.per_syllable;
    ctx.update_matchers();
    ask(&mut Held { ctx: &mut ctx, counted })
}

/// Beside its props for Unicode, a word of a glyph in which matching keeps
/// nothing: whether the glyph may not be skipped.
const NOT_SKIPPED: u32 = 1 << 16;

impl Held<'_, '_> {
    pub fn ask(&mut self, call: Call, testing: Testing, values: &[u32]) -> Matched {
        if testing == Testing::Nothing {
            let role = if call == Call::Input { Role::Input } else { Role::Context };
            self.note_skips(role);
        }
        let test = move |info: &mut GlyphInfo, i: u32| match testing {
            Testing::Equal => match_glyph(info, values[i as usize]),
            Testing::Any => match_always(info, 0),
            Testing::Nothing => info.vars[1] & NOT_SKIPPED != 0,
        };
        let n = values.len() as u16;
        match call {
            Call::Input => self.input(n, test),
            Call::Lookahead(start) => {
                let mut end = usize::MAX;
                context(match_lookahead(self.ctx, n, test, start, &mut end), end)
            }
            Call::Backtrack => {
                let mut start = usize::MAX;
                context(match_backtrack(self.ctx, n, test, &mut start), start)
            }
        }
    }

    /// The original's matchers always have a test. That with no test a glyph
    /// matches exactly if it may not be skipped is what its walks do (and the
    /// comparison of walks asks); here a test stands in for none, and says yes
    /// to the glyphs on which the original's own may skip says No.
    fn note_skips(&mut self, role: Role) {
        let iter = SkippingIterator::new(self.ctx, role == Role::Context);
        let skips = |info: &GlyphInfo| iter.may_skip(info) != MaySkip::No;
        let ahead: Vec<bool> = iter.buffer.info.iter().map(skips).collect();
        let behind: Vec<bool> = iter.buffer.out_info().iter().map(skips).collect();
        let note = |infos: &mut [GlyphInfo], skips: &[bool]| {
            for (info, &skips) in infos.iter_mut().zip(skips) {
                info.vars[1] = info.vars[1] & !NOT_SKIPPED | if skips { 0 } else { NOT_SKIPPED };
            }
        };
        note(&mut self.ctx.buffer.info, &ahead);
        note(self.ctx.buffer.out_info_mut(), &behind);
    }

    fn input(&mut self, n: u16, test: impl Fn(&mut GlyphInfo, u32) -> bool) -> Matched {
        let (mut end, mut total) = (usize::MAX, 0);
        match match_input(self.ctx, n, test, &mut end, Some(&mut total)) {
            Some(true) => {
                let used = &self.ctx.match_positions[..self.ctx.match_positions_len];
                let positions: Vec<usize> = used.iter().map(|&p| p as usize).collect();
                let counted = positions.iter().all(|&p| self.counted[p]);
                Matched::Input { end, total: counted.then_some(total.into()), positions }
            }
            // It sets no end where the ligature rule says no, and for over 63 values.
            _ if end == usize::MAX => Matched::No,
            _ => Matched::Lost(end),
        }
    }

    // For timing: nothing is asked besides.

    #[inline(never)]
    pub fn bare_input(&mut self, values: &[u32]) -> (Option<bool>, usize, u8) {
        let (mut end, mut total) = (0, 0);
        let test = |info: &mut GlyphInfo, i: u32| match_glyph(info, values[i as usize]);
        let n = values.len() as u16;
        (match_input(self.ctx, n, test, &mut end, Some(&mut total)), end, total)
    }

    #[inline(never)]
    pub fn bare_lookahead(&mut self, start: usize, values: &[u32]) -> (bool, usize) {
        let mut end = 0;
        let test = |info: &mut GlyphInfo, i: u32| match_glyph(info, values[i as usize]);
        (match_lookahead(self.ctx, values.len() as u16, test, start, &mut end), end)
    }

    #[inline(never)]
    pub fn bare_backtrack(&mut self, values: &[u32]) -> (bool, usize) {
        let mut start = 0;
        let test = |info: &mut GlyphInfo, i: u32| match_glyph(info, values[i as usize]);
        (match_backtrack(self.ctx, values.len() as u16, test, &mut start), start)
    }
}

fn context(matched: bool, place: usize) -> Matched {
    match matched {
        true => Matched::Context(place),
        false => Matched::Lost(place),
    }
}
