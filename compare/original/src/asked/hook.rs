//! Called round every lookup that the original's `recurse` tries.
//!
//! The original has no allowance of tries: its max_ops also pays for moves. And
//! it has no ending Full. So the hook
//! - counts the tries and gives back what moves took from max_ops;
//! - once the allowance is used up, tries nothing more and keeps depth from
//!   counting (Short comes before Deep), so that every level runs to its end
//!   without acting;
//! - refuses a kind 2 result that is too long;
//! - puts back SUBSTITUTED, MULTIPLIED, class guesses and component numbers on
//!   what was written.
//! What Short and Full look like therefore rests on this file.
use super::runs::Lookup;
use crate::ot::apply::ApplyContext;
use std::cell::RefCell;
use std::rc::Rc;

#[derive(Clone, Copy, Debug, Default, PartialEq, Eq)]
pub enum Mode {
    /// All of the above.
    #[default]
    Hooked,
    /// Nothing is put back.
    Loud,
    /// None of it: the allowance is max_ops.
    Raw,
}

/// How often something was put back.
#[derive(Clone, Copy, Debug, Default)]
pub struct PutBack {
    /// Glyphs that were written with other props or ligature numbers.
    pub glyphs: u64,
    /// Kind 2 with two results or more on a ligature.
    pub on_ligatures: u64,
}

#[derive(Default)]
pub(crate) struct Hook {
    pub mode: Mode,
    pub allowance: u64,
    pub tries: u64,
    pub full: bool,
    pub book: Rc<Vec<Lookup>>,
    pub put_back: PutBack,
}

thread_local! {
    pub(crate) static HOOK: RefCell<Hook> = RefCell::new(Hook::default());
}

pub const MANY: i32 = 1 << 30;
pub const DEEP_ENOUGH: usize = 1 << 20;
/// The limit of a text, which the original hasn't.
pub const MOST_GLYPHS: usize = 2048;
const LIGATURE: u32 = 4;

pub struct Before {
    vars: u32,
    out_len: usize,
}

pub fn before(ctx: &mut ApplyContext) -> Option<Before> {
    HOOK.with_borrow_mut(|hook| {
        hook.tries += 1;
        let cur = *ctx.buffer.cur(0)?;
        let before = Before { vars: cur.vars[0], out_len: ctx.buffer.out_len };
        if hook.mode == Mode::Raw {
            return Some(before);
        }
        ctx.buffer.max_ops = MANY;
        if hook.tries == hook.allowance {
            ctx.nesting_level_left += DEEP_ENOUGH;
        }
        if hook.tries > hook.allowance {
            return None;
        }
        if let Some(Lookup::Two { from, ids, .. }) = hook.book.get(usize::from(ctx.lookup_index)) {
            let len = ctx.buffer.backtrack_len() + ctx.buffer.lookahead_len();
            if cur.glyph_id == u32::from(*from) && len - 1 + ids.len() > MOST_GLYPHS {
                hook.full = true;
                ctx.buffer.successful = false;
                return None;
            }
        }
        Some(before)
    })
}

pub fn after(ctx: &mut ApplyContext, before: Before, applied: bool) {
    HOOK.with_borrow_mut(|hook| {
        let Hook { mode, book, put_back, .. } = &mut *hook;
        let results = match book.get(usize::from(ctx.lookup_index)) {
            Some(Lookup::One { .. }) => 1,
            Some(Lookup::Two { ids, .. }) => ids.len(),
            _ => return,
        };
        if *mode != Mode::Hooked || !applied {
            return;
        }
        if results > 1 && before.vars & LIGATURE != 0 {
            put_back.on_ligatures += 1;
        }
        let out_len = ctx.buffer.out_len;
        for info in &mut ctx.buffer.out_info_mut()[before.out_len..out_len] {
            put_back.glyphs += u64::from(info.vars[0] != before.vars);
            info.vars[0] = before.vars;
        }
    });
}
