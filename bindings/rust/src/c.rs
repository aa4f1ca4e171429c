//! The library's calls as C sees them: the same declarations as include/conchibaru.h, in the same words, which link/drift.rs
//! checks. Every pointer stands beside its length, or has an array's type.
//!
//! The declarations are whole, so that they can be compared: of what the crate writes as a constant only its tests ask the library.
//!
//! A call is sound where its pointers come from slices and arrays with those lengths, and where what it writes to is lent as
//! `&mut`: it is proved to stay within them, and keeps none.
#![cfg_attr(not(test), allow(dead_code))]

#[repr(C)]
#[derive(Clone, Copy)]
pub struct Lookup {
    pub gpos: bool,
    pub zwnj: bool,
    pub zwj: bool,
    pub syllables: bool,
    pub mask: u32,
    pub props: u32,
}

#[repr(C)]
#[derive(Clone, Copy)]
pub struct Sought {
    pub test: u8,
    pub syllable: u8,
    pub value: u32,
}

#[repr(C)]
#[derive(Clone, Copy, Debug, PartialEq, Eq)]
pub struct Said {
    pub number: u8,
    pub said: u8,
}

#[repr(C)]
#[derive(Clone, Copy)]
pub struct Step {
    pub number: u8,
    pub ranout: bool,
    pub place: usize,
}

#[repr(C)]
#[derive(Clone, Copy, PartialEq, Eq)]
pub struct Matched {
    pub number: u8,
    pub total: u16,
    pub end: usize,
    pub count: usize,
    pub positions: [u16; 64],
}

#[repr(C)]
#[derive(Clone, Copy, Debug, PartialEq, Eq)]
pub struct Placed {
    pub number: u8,
    pub place: usize,
}

#[repr(C)]
#[derive(Clone, Copy)]
pub struct Switches {
    pub zwnj: bool,
    pub zwj: bool,
    pub syllables: bool,
    pub mask: u32,
}

#[repr(C)]
#[derive(Clone, Copy, PartialEq, Eq)]
pub struct Ran {
    pub number: u8,
    pub spent: u32,
    pub d: usize,
    pub idx: usize,
    pub count: usize,
    pub positions: [u16; 64],
}

extern "C" {
    pub fn cb_digest_new(masks: *mut [u64; 3]);
    pub fn cb_digest_full(masks: *mut [u64; 3]);
    pub fn cb_digest_clear(masks: *mut [u64; 3]);
    pub fn cb_digest_union(masks: *mut [u64; 3], other: *const [u64; 3]);
    pub fn cb_digest_add(masks: *mut [u64; 3], g: u32);
    pub fn cb_digest_add_array(masks: *mut [u64; 3], glyphs: *const u32, glyphs_len: usize);
    pub fn cb_digest_add_range(masks: *mut [u64; 3], a: u32, b: u32) -> bool;
    pub fn cb_digest_may_have(masks: *const [u64; 3], g: u32) -> bool;
    pub fn cb_digest_may_intersect(masks: *const [u64; 3], other: *const [u64; 3]) -> bool;

    pub fn cb_rule_set_digest_new() -> u64;
    pub fn cb_rule_set_digest_full() -> u64;
    pub fn cb_rule_set_digest_add(mask: u64, value: u32) -> u64;
    pub fn cb_rule_set_digest_is_full(mask: u64) -> bool;
    pub fn cb_rule_set_digest_may_have(mask: u64, value: u32) -> bool;

    pub fn cb_budget_for_table_bytes(left: *mut [u64; 2], bytes: u64);
    pub fn cb_budget_new(left: *mut [u64; 2], work: u64, bytes: u64);
    pub fn cb_budget_work(left: *mut [u64; 2], visits: u64) -> bool;
    pub fn cb_budget_alloc(left: *mut [u64; 2], count: u64, size: u64) -> bool;

    pub fn cb_may_skip(
        row: *const u32,
        row_len: usize,
        place: usize,
        lookup: Lookup,
        context: bool,
        sets: *const u16,
        sets_len: usize,
    ) -> Said;
    pub fn cb_may_match(row: *const u32, row_len: usize, place: usize, lookup: Lookup, context: bool, sought: Sought) -> Said;
    pub fn cb_verdict(
        row: *const u32,
        row_len: usize,
        place: usize,
        lookup: Lookup,
        context: bool,
        sought: Sought,
        sets: *const u16,
        sets_len: usize,
    ) -> Said;

    pub fn cb_forward(
        row: *const u32,
        row_len: usize,
        len: usize,
        place: usize,
        lookup: Lookup,
        context: bool,
        sought: Sought,
        sets: *const u16,
        sets_len: usize,
    ) -> Step;
    pub fn cb_backward(
        row: *const u32,
        row_len: usize,
        place: usize,
        lookup: Lookup,
        context: bool,
        sought: Sought,
        sets: *const u16,
        sets_len: usize,
    ) -> Step;

    pub fn cb_match_input(
        done: *const u32,
        done_len: usize,
        d: usize,
        coming: *const u32,
        coming_len: usize,
        len: usize,
        idx: usize,
        lookup: Lookup,
        sets: *const u16,
        sets_len: usize,
        test: u8,
        values: *const u32,
        values_len: usize,
    ) -> Matched;
    pub fn cb_match_lookahead(
        done: *const u32,
        done_len: usize,
        d: usize,
        coming: *const u32,
        coming_len: usize,
        len: usize,
        idx: usize,
        start: usize,
        lookup: Lookup,
        sets: *const u16,
        sets_len: usize,
        test: u8,
        values: *const u32,
        values_len: usize,
    ) -> Placed;
    pub fn cb_match_backtrack(
        done: *const u32,
        done_len: usize,
        d: usize,
        coming: *const u32,
        coming_len: usize,
        len: usize,
        idx: usize,
        lookup: Lookup,
        sets: *const u16,
        sets_len: usize,
        test: u8,
        values: *const u32,
        values_len: usize,
    ) -> Placed;

    pub fn cb_book_reads(book: *const u16, book_len: usize) -> bool;
    pub fn cb_run(
        done: *mut u32,
        done_len: usize,
        coming: *mut u32,
        coming_len: usize,
        d: usize,
        idx: usize,
        sets: *const u16,
        sets_len: usize,
        book: *const u16,
        book_len: usize,
        records: *const u16,
        records_len: usize,
        matched: Matched,
        switches: Switches,
        allowance: u32,
        depth: usize,
    ) -> Ran;
}
