//! The original's nested lookups: `apply_lookup` and `recurse`, over a text and
//! a book of the port's, between the hooks of hook.rs.
//!
//! The text stands as in matches.rs. All clusters are equal, at the level that
//! merges nothing, so that no mask is changed. A glyph carries where it came
//! from in a half word that matching doesn't read; what is written takes its
//! word 1 along, and words 2 and 3 are those of the glyph that it came from.
use super::glyphs::{named_info, Glyph, Names};
use super::hook::{Mode, PutBack, DEEP_ENOUGH, HOOK, MANY, MOST_GLYPHS as ROW};
use super::terms::Setup;
use crate::budget::Budget;
use crate::buffer::{Buffer, GlyphInfo, HB_BUFFER_CLUSTER_LEVEL_CHARACTERS};
use crate::ot::apply::*;
use crate::ot::layout::LayoutTableKind;
use crate::ot::lookup::{cache_lookup, LookupCache};
use crate::ot::OtData;
use crate::{LayoutData, Scale};
use read_fonts::model::Tables;
use read_fonts::tables::layout::SequenceLookupRecord;
use std::rc::Rc;
use std::sync::Arc;

/// Props that mean something to the original alone.
const ITS_OWN: u32 = 0x70;

#[derive(Clone, Debug)]
pub enum Lookup {
    One {
        props: u32,
        from: u16,
        to: u16,
    },
    Two {
        props: u32,
        from: u16,
        ids: Vec<u16>,
    },
    Three {
        props: u32,
        first: u16,
        back: Vec<u16>,
        input: Vec<u16>,
        ahead: Vec<u16>,
        records: Vec<u16>,
    },
}

/// The lookups of a book that reads.
pub fn lookups(book: &[u16]) -> Vec<Lookup> {
    let mut rest = book;
    let mut all = vec![];
    while let [kind, low, high, length, tail @ ..] = rest {
        let (body, more) = tail.split_at(usize::from(*length));
        rest = more;
        let props = u32::from(*high) << 16 | u32::from(*low);
        all.push(match kind {
            1 => Lookup::One { props, from: body[0], to: body[1] },
            2 => Lookup::Two { props, from: body[0], ids: body[2..].to_vec() },
            _ => {
                let mut body = &body[1..];
                let mut list = |by: usize| {
                    let (these, others) = body[1..].split_at(by * usize::from(body[0]));
                    body = others;
                    these.to_vec()
                };
                let (back, input, ahead, records) = (list(1), list(1), list(1), list(2));
                Lookup::Three { props, first: tail[0], back, input, ahead, records }
            }
        });
    }
    all
}

/// A lookup as a subtable of OpenType: props, kind, bytes.
fn subtable(lookup: &Lookup) -> (u32, u16, Vec<u8>) {
    let (props, kind, from, mut words) = match lookup {
        Lookup::One { props, from, to } => (*props, 1, *from, vec![2, 0, 1, *to]),
        Lookup::Two { props, from, ids } => {
            let words = [&[1, 0, 1, 8, ids.len() as u16][..], ids].concat();
            (*props, 2, *from, words)
        }
        Lookup::Three { props, first, back, input, ahead, records } => {
            let mut words = vec![1, 0, 1, 8, 1, 4]; // a rule set of one rule
            let lists = [(back, 0), (input, 1), (ahead, 0)];
            for (values, more) in lists {
                words.push(values.len() as u16 + more);
                words.extend(values);
            }
            words.push(records.len() as u16 / 2);
            words.extend(records);
            (*props, 3, *first, words)
        }
    };
    words[1] = 2 * words.len() as u16; // the coverage comes last
    words.extend([1, 1, from]);
    (props, kind, words.iter().flat_map(|word| word.to_be_bytes()).collect())
}

/// A run over a text: `done` and what comes from the cursor on, which is the
/// end of a row of 1,024 glyphs.
#[derive(Clone, Copy)]
pub struct Run<'r> {
    pub records: &'r [u16],
    pub allowance: u32,
    pub depth: usize,
    /// Places in the row that comes.
    pub positions: &'r [u16],
    pub end: usize,
    pub done: &'r [Glyph],
    pub coming: &'r [Glyph],
    pub mode: Mode,
}

#[derive(Clone, Debug, PartialEq, Eq)]
pub struct Ran {
    /// 0 Finished, 8 Short, 9 Deep, 10 Full; in raw mode 0, or 1 for the
    /// original's own no.
    pub ending: u8,
    pub spent: u64,
    pub idx: usize,
    pub positions: Vec<u32>,
    pub done: Vec<Glyph>,
    pub coming: Vec<Glyph>,
}

/// A book in the original's hands.
pub struct Book<'a> {
    setup: &'a Setup,
    lookups: Rc<Vec<Lookup>>,
    ot: OtData<'a>,
}

impl<'a> Book<'a> {
    /// The words of a book that reads.
    pub fn new(setup: &'a Setup, words: &[u16]) -> Self {
        let lookups = Rc::new(lookups(words));
        let budget = Arc::new(Budget::for_table_bytes(1 << 20));
        let tables = Arc::new(Tables(lookups.iter().map(subtable).collect()));
        let nothing = Arc::new(Tables(vec![(0, 0, vec![])]));
        let ot = OtData {
            lookups: LookupCache::new(Some(tables), true, budget.clone()),
            missing: cache_lookup(nothing, true, 0, &budget),
            mark_sets: &setup.sets,
        };
        Self { setup, lookups, ot }
    }

    /// Nothing if the original can't hold the text.
    pub fn run(&self, run: Run) -> Option<(Ran, PutBack)> {
        let origin: Vec<Glyph> = run.done.iter().chain(run.coming).copied().collect();
        let names = Names::of(origin.iter())?;
        let info = |(place, glyph): (usize, &Glyph)| {
            let [id, mask, word2, word3] = *glyph;
            let mut info = named_info(&[id, mask, word2 & !ITS_OWN, word3], &names, false).0;
            info.vars[1] = info.vars[1] & 0xFFFF | (place as u32) << 16;
            info
        };
        let infos: Vec<GlyphInfo> = origin.iter().enumerate().map(info).collect();
        let (d, idx) = (run.done.len(), ROW - run.coming.len());
        let raw = run.mode == Mode::Raw;
        let mut buffer = Buffer::new();
        buffer.cluster_level = HB_BUFFER_CLUSTER_LEVEL_CHARACTERS;
        buffer.info = vec![GlyphInfo::default(); ROW];
        buffer.info[idx..].copy_from_slice(&infos[d..]);
        buffer.len = ROW;
        let mut out = vec![GlyphInfo::default(); ROW];
        out[..d].copy_from_slice(&infos[..d]);
        buffer.pos = bytemuck::cast_vec(out);
        buffer.have_output = true;
        buffer.have_separate_output = true;
        buffer.idx = idx;
        buffer.out_len = d;
        buffer.max_ops = if raw { run.allowance as i32 } else { MANY };
        HOOK.with_borrow_mut(|hook| {
            hook.mode = run.mode;
            hook.allowance = run.allowance.into();
            hook.tries = 0;
            hook.full = false;
            hook.put_back = PutBack::default();
            hook.book = self.lookups.clone();
        });
        let mut ctx = ApplyContext::new(
            LayoutTableKind::Gsub,
            LayoutData { ot: &self.ot },
            Scale,
            &mut buffer,
        );
        ctx.set_lookup_mask(self.setup.mask);
        ctx.auto_zwnj = self.setup.auto_zwnj;
        ctx.auto_zwj = self.setup.auto_zwj;
        ctx.per_syllable = self.setup.per_syllable;
        ctx.lookup_props = 0;
        ctx.update_matchers();
        ctx.nesting_level_left = run.depth;
        if !raw && run.allowance == 0 {
            ctx.nesting_level_left += DEEP_ENOUGH;
        }
        ctx.match_positions = run.positions.iter().map(|&position| position.into()).collect();
        ctx.match_positions_len = run.positions.len();
        let pair = |pair: &[u16]| SequenceLookupRecord {
            sequence_index: pair[0].into(),
            lookup_list_index: pair[1].into(),
        };
        let records: Vec<SequenceLookupRecord> = run.records.chunks(2).map(pair).collect();

        apply_lookup(&mut ctx, run.positions.len() - 1, run.end, &records);

        let positions = ctx.match_positions[..ctx.match_positions_len].to_vec();
        let (tries, full, put_back) =
            HOOK.with_borrow(|hook| (hook.tries, hook.full, hook.put_back));
        let allowed = u64::from(run.allowance);
        let ending = match () {
            _ if full => 10,
            _ if raw => u8::from(!buffer.successful),
            _ if tries > allowed => 8,
            _ if !buffer.successful => 9,
            _ => 0,
        };
        let back = |info: &GlyphInfo| {
            let [_, mask, word2, word3] = origin[(info.vars[1] >> 16) as usize];
            assert!(info.mask == mask, "a mask was changed");
            [info.glyph_id, mask, word2, word3]
        };
        let ran = Ran {
            ending,
            spent: if raw { tries } else { tries.min(allowed) },
            idx: (buffer.idx + ROW).wrapping_sub(buffer.len),
            positions,
            done: buffer.out_info()[..buffer.out_len].iter().map(back).collect(),
            coming: buffer.info[buffer.idx..buffer.len].iter().map(back).collect(),
        };
        Some((ran, put_back))
    }
}

/// For timing: a run that is made again and again, from a text that is copied
/// back before each. The hooks only count.
pub struct Again<'b, 'a> {
    book: &'b Book<'a>,
    infos: Vec<GlyphInfo>,
    out: Vec<GlyphInfo>,
    buffer: Buffer,
    d: usize,
    idx: usize,
    positions: Vec<u32>,
    end: usize,
    depth: usize,
    records: Vec<SequenceLookupRecord>,
}

impl<'b, 'a> Again<'b, 'a> {
    pub fn new(book: &'b Book<'a>, run: Run) -> Option<Self> {
        let names = Names::of(run.done.iter().chain(run.coming))?;
        let (d, idx) = (run.done.len(), ROW - run.coming.len());
        let mut infos = vec![GlyphInfo::default(); ROW];
        let mut out = infos.clone();
        for (info, glyph) in infos[idx..].iter_mut().zip(run.coming) {
            *info = named_info(glyph, &names, false).0;
        }
        for (info, glyph) in out.iter_mut().zip(run.done) {
            *info = named_info(glyph, &names, false).0;
        }
        let mut buffer = Buffer::new();
        buffer.cluster_level = HB_BUFFER_CLUSTER_LEVEL_CHARACTERS;
        buffer.info = infos.clone();
        buffer.pos = bytemuck::cast_vec(out.clone());
        let pair = |pair: &[u16]| SequenceLookupRecord {
            sequence_index: pair[0].into(),
            lookup_list_index: pair[1].into(),
        };
        HOOK.with_borrow_mut(|hook| {
            hook.mode = Mode::Raw;
            hook.book = book.lookups.clone();
        });
        Some(Self {
            book,
            infos,
            out,
            buffer,
            d,
            idx,
            positions: run.positions.iter().map(|&position| position.into()).collect(),
            end: run.end,
            depth: run.depth,
            records: run.records.chunks(2).map(pair).collect(),
        })
    }

    /// The text as it was.
    pub fn copy_back(&mut self) {
        let buffer = &mut self.buffer;
        buffer.info[..ROW].copy_from_slice(&self.infos);
        buffer.have_output = true;
        buffer.have_separate_output = true;
        buffer.len = ROW;
        buffer.idx = self.idx;
        buffer.out_len = self.d;
        buffer.out_info_mut()[..ROW].copy_from_slice(&self.out);
    }

    /// Answers d and the count.
    #[inline(never)]
    pub fn run(&mut self) -> (usize, usize) {
        let buffer = &mut self.buffer;
        buffer.max_ops = MANY;
        buffer.successful = true;
        let setup = self.book.setup;
        let layout = LayoutData { ot: &self.book.ot };
        let mut ctx = ApplyContext::new(LayoutTableKind::Gsub, layout, Scale, buffer);
        ctx.set_lookup_mask(setup.mask);
        ctx.lookup_props = 0;
        ctx.update_matchers();
        ctx.nesting_level_left = self.depth;
        ctx.match_positions = self.positions.iter().copied().collect();
        ctx.match_positions_len = self.positions.len();
        apply_lookup(&mut ctx, self.positions.len() - 1, self.end, &self.records);
        let count = ctx.match_positions_len;
        (buffer.out_len, count)
    }
}
