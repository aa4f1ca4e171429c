//! The proved library's calls, as C sees them (c.rs, which is that of the Rust
//! crate, bindings/rust), and safe covers for them. Of an answer every field and
//! every slot is compared.
use crate::c;
pub use crate::c::{Matched as CMatched, Placed as CPlaced, Ran as CRan, Said as CSaid};
use crate::paper::matchers::Text;
use crate::runs::Case;
use original::terms::{Call, Matched, May, Role, Setup, Test, Testing, Verdict, Walked};

/// A walk's answer as it is handed over: 0 found, 4 stopped or ran out, 1
/// refused.
#[derive(Clone, Copy, Debug, PartialEq, Eq)]
pub struct CWalked {
    pub number: u8,
    /// 0 or 1, but read as a number: what is handed over isn't trusted.
    pub ran_out: u8,
    pub place: usize,
}

impl From<c::Step> for CWalked {
    fn from(step: c::Step) -> Self {
        let ran_out = unsafe { (&raw const step.ranout).cast::<u8>().read() };
        Self { number: step.number, ran_out, place: step.place }
    }
}

// Every call below is sound: the library reads and writes only what the
// pointers' types name, and a slice's pointer goes with its length.

/// The three masks, of shifts 4, 0, 6.
#[derive(Clone, Copy, Debug, PartialEq, Eq)]
pub struct Digest(pub [u64; 3]);

impl Digest {
    /// What was there before must not matter.
    pub fn new(mut before: [u64; 3]) -> Self {
        unsafe { c::cb_digest_new(&mut before) };
        Self(before)
    }
    pub fn full(mut before: [u64; 3]) -> Self {
        unsafe { c::cb_digest_full(&mut before) };
        Self(before)
    }
    pub fn clear(&mut self) {
        unsafe { c::cb_digest_clear(&mut self.0) }
    }
    pub fn union(&mut self, other: [u64; 3]) {
        unsafe { c::cb_digest_union(&mut self.0, &other) }
    }
    pub fn add(&mut self, g: u32) {
        unsafe { c::cb_digest_add(&mut self.0, g) }
    }
    pub fn add_array(&mut self, glyphs: &[u32]) {
        unsafe { c::cb_digest_add_array(&mut self.0, glyphs.as_ptr(), glyphs.len()) }
    }
    pub fn add_range(&mut self, a: u32, b: u32) -> bool {
        unsafe { c::cb_digest_add_range(&mut self.0, a, b) }
    }
    pub fn may_have(&self, g: u32) -> bool {
        unsafe { c::cb_digest_may_have(&self.0, g) }
    }
    pub fn may_intersect(&self, other: &[u64; 3]) -> bool {
        unsafe { c::cb_digest_may_intersect(&self.0, other) }
    }
}

pub struct RuleDigest(pub u64);

impl RuleDigest {
    pub fn new() -> Self {
        Self(unsafe { c::cb_rule_set_digest_new() })
    }
    pub fn full() -> Self {
        Self(unsafe { c::cb_rule_set_digest_full() })
    }
    pub fn add(&mut self, value: u32) {
        self.0 = unsafe { c::cb_rule_set_digest_add(self.0, value) };
    }
    pub fn is_full(&self) -> bool {
        unsafe { c::cb_rule_set_digest_is_full(self.0) }
    }
    pub fn may_have(&self, value: u32) -> bool {
        unsafe { c::cb_rule_set_digest_may_have(self.0, value) }
    }
}

/// What is left of work and of bytes.
#[derive(Clone, Copy, Debug, PartialEq, Eq)]
pub struct Allowance(pub [u64; 2]);

impl Allowance {
    pub fn for_table_bytes(bytes: u64) -> Self {
        let mut left = [u64::MAX; 2];
        unsafe { c::cb_budget_for_table_bytes(&mut left, bytes) };
        Self(left)
    }
    pub fn new(work: u64, bytes: u64) -> Self {
        let mut left = [u64::MAX; 2];
        unsafe { c::cb_budget_new(&mut left, work, bytes) };
        Self(left)
    }
    /// Taken (true) or Exhausted.
    pub fn work(&mut self, visits: u64) -> bool {
        unsafe { c::cb_budget_work(&mut self.0, visits) }
    }
    /// Taken (true) or Exhausted.
    pub fn alloc(&mut self, count: u64, size: u64) -> bool {
        unsafe { c::cb_budget_alloc(&mut self.0, count, size) }
    }
}

fn lookup(setup: &Setup) -> c::Lookup {
    c::Lookup {
        gpos: setup.gpos,
        zwnj: setup.auto_zwnj,
        zwj: setup.auto_zwj,
        syllables: setup.per_syllable,
        mask: setup.mask,
        props: setup.props,
    }
}

/// A test with what stands for it in a call: which of the many numbers that
/// mean no test, and the value where none is looked at. Neither may matter.
#[derive(Clone, Copy, Debug)]
pub struct Sign {
    pub test: Test,
    pub syllable: u8,
    pub spare: u32,
}

impl Sign {
    pub fn number(self) -> u8 {
        match self.test {
            Test::Equal(_) => 0,
            Test::Any => 1,
            Test::None => (self.spare as u8).max(2),
        }
    }
    pub fn value(self) -> u32 {
        match self.test {
            Test::Equal(value) => value,
            Test::Any | Test::None => self.spare,
        }
    }
    fn in_c(self) -> c::Sought {
        c::Sought { test: self.number(), syllable: self.syllable, value: self.value() }
    }
}

impl CWalked {
    /// What must be handed over; nothing is for refusal 1.
    pub fn of(walked: Option<Walked>) -> Self {
        let (number, ran_out, place) = match walked {
            Some(Walked::Found(place)) => (0, 0, place),
            Some(Walked::Stopped(extent)) => (4, 0, extent),
            Some(Walked::RanOut(extent)) => (4, 1, extent),
            None => (1, 0, 0),
        };
        Self { number, ran_out, place }
    }
}

impl CSaid {
    const REFUSED: Self = Self { number: 1, said: 0 };

    pub fn of_may(may: Option<May>) -> Self {
        may.map_or(Self::REFUSED, |may| Self { number: 0, said: may as u8 })
    }
    pub fn of_verdict(verdict: Option<Verdict>) -> Self {
        verdict.map_or(Self::REFUSED, |verdict| Self { number: 0, said: verdict as u8 })
    }
}

fn is_context(role: Role) -> bool {
    role == Role::Context
}

/// A row lent to the library.
pub struct Row<'a> {
    pub setup: &'a Setup,
    pub words: &'a [u32],
}

impl Row<'_> {
    pub fn may_skip(&self, role: Role, place: usize) -> CSaid {
        let (row, sets) = (self.words, &self.setup.sets);
        let lookup = lookup(self.setup);
        let context = is_context(role);
        unsafe {
            c::cb_may_skip(
                row.as_ptr(),
                row.len(),
                place,
                lookup,
                context,
                sets.as_ptr(),
                sets.len(),
            )
        }
    }

    pub fn may_match(&self, role: Role, place: usize, sign: Sign) -> CSaid {
        let row = self.words;
        let lookup = lookup(self.setup);
        let context = is_context(role);
        unsafe { c::cb_may_match(row.as_ptr(), row.len(), place, lookup, context, sign.in_c()) }
    }

    pub fn verdict(&self, role: Role, place: usize, sign: Sign) -> CSaid {
        let (row, sets) = (self.words, &self.setup.sets);
        let (p, words, q, n) = (row.as_ptr(), row.len(), sets.as_ptr(), sets.len());
        let lookup = lookup(self.setup);
        let context = is_context(role);
        unsafe { c::cb_verdict(p, words, place, lookup, context, sign.in_c(), q, n) }
    }

    pub fn forward(&self, role: Role, len: usize, place: usize, sign: Sign) -> CWalked {
        let (row, sets) = (self.words, &self.setup.sets);
        let (p, words, q, n) = (row.as_ptr(), row.len(), sets.as_ptr(), sets.len());
        let lookup = lookup(self.setup);
        let context = is_context(role);
        unsafe { c::cb_forward(p, words, len, place, lookup, context, sign.in_c(), q, n) }.into()
    }

    pub fn backward(&self, role: Role, place: usize, sign: Sign) -> CWalked {
        let (row, sets) = (self.words, &self.setup.sets);
        let (p, words, q, n) = (row.as_ptr(), row.len(), sets.as_ptr(), sets.len());
        let lookup = lookup(self.setup);
        let context = is_context(role);
        unsafe { c::cb_backward(p, words, place, lookup, context, sign.in_c(), q, n) }.into()
    }
}

/// What a matcher hands over.
#[derive(Clone, Copy, PartialEq, Eq)]
pub enum Answer {
    Input(CMatched),
    Context(CPlaced),
}

impl std::fmt::Debug for Answer {
    /// Of the slots, those up to the last that isn't 0, or up to the count.
    fn fmt(&self, f: &mut std::fmt::Formatter) -> std::fmt::Result {
        match self {
            Self::Context(CPlaced { number, place }) => write!(f, "{number}, place {place}"),
            Self::Input(CMatched { number, total, end, count, positions }) => {
                let used = positions.iter().rposition(|&slot| slot != 0).map_or(0, |i| i + 1);
                let slots = &positions[..used.max((*count).min(64))];
                write!(f, "{number}, end {end}, total {total}, count {count}, {slots:?}")
            }
        }
    }
}

impl Answer {
    /// What must be handed over. A total that isn't known is left 0.
    pub fn of(call: Call, answer: &Result<Matched, u8>) -> Self {
        let bare = |number, place| match call {
            Call::Input => Self::Input(CMatched::bare(number, place)),
            _ => Self::Context(CPlaced { number, place }),
        };
        match answer {
            Ok(Matched::Input { end, total, positions }) => {
                let mut slots = [0; 64];
                for (slot, &position) in slots.iter_mut().zip(positions) {
                    *slot = position as u16;
                }
                Self::Input(CMatched {
                    number: 0,
                    total: total.unwrap_or(0) as u16,
                    end: *end,
                    count: positions.len(),
                    positions: slots,
                })
            }
            Ok(Matched::Context(place)) => bare(0, *place),
            Ok(Matched::Lost(extent)) => bare(4, *extent),
            Ok(Matched::No) => bare(5, 0),
            Err(number) => bare(*number, 0),
        }
    }
}

impl CMatched {
    pub fn bare(number: u8, end: usize) -> Self {
        Self { number, total: 0, end, count: 0, positions: [0; 64] }
    }
}

/// A case of test with the number that stands for it. Several numbers mean no
/// test: `spare` is one of them, and the answer must be the same for each.
pub fn test_number(testing: Testing, spare: u8) -> u8 {
    match testing {
        Testing::Equal => 0,
        Testing::Any => 1,
        Testing::Nothing => spare.max(2),
    }
}

pub fn matched(text: &Text, call: Call, test: u8, values: &[u32]) -> Answer {
    match call {
        Call::Input => {
            let mut answer = CMatched::bare(u8::MAX, 0);
            match_input(text, test, values, &mut answer);
            Answer::Input(answer)
        }
        Call::Lookahead(start) => Answer::Context(match_lookahead(text, start, test, values)),
        Call::Backtrack => Answer::Context(match_backtrack(text, test, values)),
    }
}

/// Calls one of the matchers on a text, with what goes between its cursor and
/// the lookup.
macro_rules! call {
    ($name:ident, $text:expr, [$($start:expr)?], $test:expr, $values:expr) => {{
        let Text { setup, done, d, coming, len, idx } = *$text;
        unsafe {
            c::$name(
                done.as_ptr(),
                done.len(),
                d,
                coming.as_ptr(),
                coming.len(),
                len,
                idx,
                $($start,)?
                lookup(setup),
                setup.sets.as_ptr(),
                setup.sets.len(),
                $test,
                $values.as_ptr(),
                $values.len(),
            )
        }
    }};
}

pub fn match_input(text: &Text, test: u8, values: &[u32], answer: &mut CMatched) {
    *answer = call!(cb_match_input, text, [], test, values);
}

pub fn match_lookahead(text: &Text, start: usize, test: u8, values: &[u32]) -> CPlaced {
    call!(cb_match_lookahead, text, [start], test, values)
}

pub fn match_backtrack(text: &Text, test: u8, values: &[u32]) -> CPlaced {
    call!(cb_match_backtrack, text, [], test, values)
}

// ---- runs

impl CRan {
    pub const NOTHING: Self =
        Self { number: 0, spent: 0, d: 0, idx: 0, count: 0, positions: [0; 64] };
}

impl std::fmt::Debug for CRan {
    /// Of the slots, those up to the last that isn't 0, or up to the count.
    fn fmt(&self, f: &mut std::fmt::Formatter) -> std::fmt::Result {
        let Self { number, spent, d, idx, count, positions } = self;
        let used = positions.iter().rposition(|&slot| slot != 0).map_or(0, |i| i + 1);
        let slots = &positions[..used.max((*count).min(64))];
        write!(f, "{number}, spent {spent}, d {d}, idx {idx}, count {count}, {slots:?}")
    }
}

pub fn book_reads(book: &[u16]) -> bool {
    unsafe { c::cb_book_reads(book.as_ptr(), book.len()) }
}

/// Runs over the rows that are lent.
pub fn run(case: &Case, done: &mut [u32], coming: &mut [u32]) -> CRan {
    let Case { setup, book, records, matched, allowance, depth, d, idx, .. } = case;
    let switches = c::Switches {
        zwnj: setup.auto_zwnj,
        zwj: setup.auto_zwj,
        syllables: setup.per_syllable,
        mask: setup.mask,
    };
    unsafe {
        c::cb_run(
            done.as_mut_ptr(),
            done.len(),
            coming.as_mut_ptr(),
            coming.len(),
            *d,
            *idx,
            setup.sets.as_ptr(),
            setup.sets.len(),
            book.as_ptr(),
            book.len(),
            records.as_ptr(),
            records.len(),
            *matched,
            switches,
            *allowance,
            *depth,
        )
    }
}
