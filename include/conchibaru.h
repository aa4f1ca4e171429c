/* conchibaru.h: what libdesk.a offers, for C99 and C++ on x86-64 Linux.
 *
 *     (cd crates/desk && rt lib)                         proves the library and writes crates/desk/out/libdesk.a
 *     cc -Iinclude mine.c crates/desk/out/libdesk.a      links it; it needs no other library
 *
 * Document 01 (docs/01-scope.md) has the rules, and its words are used here. Every call ends, any words may be handed in, and what
 * isn't accepted is refused by its number. No call keeps a pointer, allocates, or has anything of its own that lasts, so calls
 * from several threads don't meet. include/cards.c is a program that uses every call. link/run checks that this file says the
 * same as crates/desk/src, where the calls and what is proved of them stand.
 *
 * A SLICE is a pointer and then a length, which counts elements: `row` and `row_len`. It may be NULL where the length is 0.
 *
 * What no proof can see to, and the caller must: a pointer is aligned for its type and has as many elements as its length says
 * (`uint64_t masks[3]` has three); and what a call writes to lies apart from everything else that it is handed.
 */
#ifndef CONCHIBARU_H
#define CONCHIBARU_H

/* The second number moves where a user must change something, the third where not; docs/landings says what. */
#define CB_VERSION "0.4.0"

#include <stddef.h>
#include <stdint.h>
#ifndef __cplusplus
#include <stdbool.h>
#endif

#ifdef __cplusplus
extern "C" {
#endif

/* ---- glyphs, rows, texts
 *
 * A row is a slice of words, four to a glyph, of at most CB_LIMIT glyphs. Any four words are a legal glyph:
 *
 *     uint32_t word[4] = {id, mask, CB_WORD_2(flags, syllable, props), CB_WORD_3(ligature id, component, count, count in ligation)};
 *
 * Places count glyphs, lengths of slices count words. Mark sets (`sets`) are 16-bit words in pairs, set and glyph.
 *
 * A text is two rows: of `done` the first `d` glyphs, and `coming`, of which `len` glyphs count, with the cursor `idx`.
 */
enum {
    CB_WORDS = 4,         /* words a glyph */
    CB_LIMIT = 2048,      /* glyphs a row, at most */
    CB_RUN_WORDS = 8192,  /* words of each row of a run, just as many */
    CB_SLOTS = 64,        /* positions of a match, at most: MAX_CONTEXT_LENGTH */
    CB_MAX_DEPTH = 64,    /* depth of a run, at most: MAX_NESTING_LEVEL */
    CB_MAX_ALLOWANCE = 2147483647
};

enum { CB_FLAG_IGNORABLE = 1, CB_FLAG_ZWNJ = 2, CB_FLAG_ZWJ = 4, CB_FLAG_HIDDEN = 8 };

enum { CB_PROPS_BASE = 2, CB_PROPS_LIGATURE = 4, CB_PROPS_MARK = 8 }; /* and the mark attachment class in the high byte */

/* A lookup's props: these, the attachment class asked in 0xFF00, and the index of the filtering set in the high half. */
enum { CB_IGNORE_BASES = 2, CB_IGNORE_LIGATURES = 4, CB_IGNORE_MARKS = 8, CB_USE_FILTERING_SET = 16 };

/* A glyph's last two words, from their parts, in constants too. Of each part only the bits that it has in the word are taken, so that none reaches
 * its neighbour: 8 bits, of props 16. */
#ifdef __cplusplus
#define CB_PART(value, bits, shift) ((static_cast<uint32_t>(value) & bits) << shift)
#else
#define CB_PART(value, bits, shift) (((uint32_t)(value) & bits) << shift)
#endif
#define CB_WORD_2(flags, syllable, props) (CB_PART(flags, 0xFFu, 24) | CB_PART(syllable, 0xFFu, 16) | CB_PART(props, 0xFFFFu, 0))
#define CB_WORD_3(id, component, count, in_ligation) \
    (CB_PART(id, 0xFFu, 24) | CB_PART(component, 0xFFu, 16) | CB_PART(count, 0xFFu, 8) | CB_PART(in_ligation, 0xFFu, 0))

/* ---- numbers
 *
 * Each struct that comes back has a `number`: 0, or document 01's. Where it refuses, every other field is 0.
 */
enum {
    CB_REFUSAL_SHAPE = 1,   /* a row, d, len, a place, a start, mark sets, records */
    CB_REFUSAL_CURSOR = 2,  /* the cursor is at or past len */
    CB_REFUSAL_VALUES = 3,  /* over 63 input values, or over 64 of context */
    CB_REFUSAL_START = 6,   /* a lookahead start of 0 */
    CB_REFUSAL_MATCH = 7,   /* a run was handed a match that isn't one */
    CB_REFUSAL_BOOK = 11,   /* the book doesn't read */
    CB_REFUSAL_LIMITS = 12  /* an allowance over CB_MAX_ALLOWANCE, a depth over CB_MAX_DEPTH */
};

enum { CB_MATCHED = 0, CB_LOST = 4, CB_LIGATURE = 5 }; /* a match or walk: done; stopped or ran out; the ligature rule */

enum { CB_ENDING_FINISHED = 0, CB_ENDING_SHORT = 8, CB_ENDING_DEEP = 9, CB_ENDING_FULL = 10 }; /* a run */

enum { CB_MAY_SKIP_NO = 0, CB_MAY_SKIP_YES = 1, CB_MAY_SKIP_MAYBE = 2 };
enum { CB_MAY_MATCH_NO = 0, CB_MAY_MATCH_YES = 1, CB_MAY_MATCH_MAYBE = 2 };
enum { CB_VERDICT_MATCH = 0, CB_VERDICT_NOT_MATCH = 1, CB_VERDICT_SKIP = 2 };

enum { CB_TEST_EQUAL = 0, CB_TEST_ANY = 1, CB_TEST_NOTHING = 2 }; /* how a value is tested; any other number is Nothing too */

/* ---- structs */

/* What a lookup asks of a text: its table (GSUB, or GPOS where `gpos`), auto-ZWNJ, auto-ZWJ, whether syllables are tested, its mask
 * and its props. */
typedef struct {
    bool gpos;
    bool zwnj;
    bool zwj;
    bool syllables;
    uint32_t mask;
    uint32_t props;
} cb_lookup;

/* What a question or a walk seeks: how it tests (CB_TEST_...), the starting syllable, the value. */
typedef struct {
    uint8_t test;
    uint8_t syllable;
    uint32_t value;
} cb_sought;

/* A question's answer: number 0, and what is said (CB_MAY_SKIP_..., CB_MAY_MATCH_..., CB_VERDICT_...); or number 1. */
typedef struct {
    uint8_t number;
    uint8_t said;
} cb_said;

/* A walk's answer: number 0 and the place found; number 4, the extent in `place`, and whether no glyph was left; or number 1. */
typedef struct {
    uint8_t number;
    bool ranout;
    size_t place;
} cb_step;

/* An input match: number 0 with end, total, and the positions that are counted; number 4 with the extent in `end`; or a number
 * alone: 5, or a refusal's. Slots that aren't counted are 0. */
typedef struct {
    uint8_t number;
    uint16_t total;
    size_t end;
    size_t count;
    uint16_t positions[64];
} cb_matched;

/* A lookahead or backtrack match: number 0 and the place; number 4 and the extent; or a refusal's number. */
typedef struct {
    uint8_t number;
    size_t place;
} cb_placed;

/* A run's switches: auto-ZWNJ, auto-ZWJ, whether syllables are tested, and the one lookup mask. A run is GSUB. */
typedef struct {
    bool zwnj;
    bool zwj;
    bool syllables;
    uint32_t mask;
} cb_switches;

/* A run's answer: its ending (CB_ENDING_...) with the lookups tried, where the text is parted, and the first level's positions; or
 * a refusal's number alone. */
typedef struct {
    uint8_t number;
    uint32_t spent;
    size_t d;
    size_t idx;
    size_t count;
    uint16_t positions[64];
} cb_ran;

/* ---- digests of glyph sets: three masks, at the shifts 4, 0 and 6, that the caller keeps. None of these refuses anything. */

/* Writes the digest of no glyph. What was there doesn't matter.
 *     uint64_t m[3];  cb_digest_new(m);                                        m is 0, 0, 0 */
void cb_digest_new(uint64_t masks[3]);

/* Writes the digest that admits every glyph.
 *     cb_digest_full(m);                                                       each mask is UINT64_MAX */
void cb_digest_full(uint64_t masks[3]);

/* Empties a digest, as cb_digest_new does.
 *     cb_digest_clear(m);                                                      m is 0, 0, 0 */
void cb_digest_clear(uint64_t masks[3]);

/* Adds all that `other` admits.
 *     cb_digest_union(m, o);                                                   m[0] |= o[0], and so on */
void cb_digest_union(uint64_t masks[3], const uint64_t other[3]);

/* Adds a glyph.
 *     cb_digest_add(m, 4660);                                                  sets bits 35, 52, 8 (card K7) */
void cb_digest_add(uint64_t masks[3], uint32_t g);

/* Adds each glyph of a slice.
 *     uint32_t ids[2] = {5, 7};  cb_digest_add_array(m, ids, 2);               as cb_digest_add of 5, then of 7 */
void cb_digest_add_array(uint64_t masks[3], const uint32_t *glyphs, size_t glyphs_len);

/* Adds the range from a to b. Back: false where all masks were full before, or where the range fills all three; else true.
 *     cb_digest_add_range(m, 62, 65);                                          true; sets 3, 4; 62, 63, 0, 1; 0, 1 (K8) */
bool cb_digest_add_range(uint64_t masks[3], uint32_t a, uint32_t b);

/* Whether the glyph may be in the set: false only if it was never added.
 *     cb_digest_add(m, 4660);  cb_digest_may_have(m, 8756);                    true, though it wasn't added (K7) */
bool cb_digest_may_have(const uint64_t masks[3], uint32_t g);

/* Whether the two may have a glyph in common: false only if no glyph is admitted by both.
 *     cb_digest_add(m, 5);  cb_digest_add(o, 6);  cb_digest_may_intersect(m, o);   false */
bool cb_digest_may_intersect(const uint64_t masks[3], const uint64_t other[3]);

/* ---- digests of rules' values: one mask, on the value mod 64. None refuses anything. */

/* The digest of no value.
 *     uint64_t r = cb_rule_set_digest_new();                                   0 */
uint64_t cb_rule_set_digest_new(void);

/* The digest that admits every value.
 *     r = cb_rule_set_digest_full();                                           UINT64_MAX */
uint64_t cb_rule_set_digest_full(void);

/* The mask with a value added.
 *     cb_rule_set_digest_add(0, 65);                                           2: bit 1 */
uint64_t cb_rule_set_digest_add(uint64_t mask, uint32_t value);

/* Whether every bit is set.
 *     cb_rule_set_digest_is_full(UINT64_MAX);                                  true */
bool cb_rule_set_digest_is_full(uint64_t mask);

/* Whether the value may have been added.
 *     cb_rule_set_digest_may_have(2, 129);                                     true: 129 mod 64 is 1 */
bool cb_rule_set_digest_may_have(uint64_t mask, uint32_t value);

/* ---- allowances: two numbers that the caller keeps, what is left of the work and of the bytes. None refuses anything. */

/* Opens an allowance for a table of so many bytes: each number is bytes * 256, from 4,194,304 to 134,217,728.
 *     uint64_t left[2];  cb_budget_for_table_bytes(left, 16385);               4194560, 4194560 (K10) */
void cb_budget_for_table_bytes(uint64_t left[2], uint64_t bytes);

/* Opens an allowance of these two numbers.
 *     cb_budget_new(left, 10, 100);                                            10, 100 */
void cb_budget_new(uint64_t left[2], uint64_t work, uint64_t bytes);

/* Takes visits from the work. Back: false where that is more than is left (Exhausted), and nothing is taken; else true.
 *     cb_budget_work(left, 11);                                                false, and left stays 10, 100 */
bool cb_budget_work(uint64_t left[2], uint64_t visits);

/* Takes count times size from the bytes. Back: false where the product passes 64 bits or what is left, and nothing is taken.
 *     cb_budget_alloc(left, 25, 4);                                            true, and left is 10, 0 */
bool cb_budget_alloc(uint64_t left[2], uint64_t count, uint64_t size);

/* ---- questions on the glyph at a place of a row
 *
 * `context` chooses the context matcher, else it is the input matcher. Refused by 1 where the row isn't whole glyphs or is over
 * CB_LIMIT, where the place isn't in it, and where mark sets are odd.
 */

/* May the glyph be skipped?
 *     uint32_t row[4] = {9, 1, CB_WORD_2(0, 0, CB_PROPS_MARK), 257};  cb_lookup l = {false, false, false, false, 1, CB_IGNORE_MARKS};
 *     cb_may_skip(row, 4, 0, l, false, NULL, 0);                               {0, CB_MAY_SKIP_YES} */
cb_said cb_may_skip(const uint32_t *row, size_t row_len, size_t place, cb_lookup lookup, bool context, const uint16_t *sets,
                    size_t sets_len);

/* May it match what is sought?
 *     cb_sought s = {CB_TEST_EQUAL, 0, 9};  cb_may_match(row, 4, 0, l, false, s);   {0, CB_MAY_MATCH_YES} */
cb_said cb_may_match(const uint32_t *row, size_t row_len, size_t place, cb_lookup lookup, bool context, cb_sought sought);

/* What follows from both: it matches, it stops a walk (CB_VERDICT_NOT_MATCH), or it is passed over (CB_VERDICT_SKIP).
 *     cb_verdict(row, 4, 0, l, false, s, NULL, 0);                             {0, CB_VERDICT_SKIP} */
cb_said cb_verdict(const uint32_t *row, size_t row_len, size_t place, cb_lookup lookup, bool context, cb_sought sought,
                   const uint16_t *sets, size_t sets_len);

/* ---- walks */

/* The next glyph after a place, among the first len, that isn't passed over: found, or 4 with the extent, the last place reached + 1.
 * Refused by 1 as a question is, where len is past the row, and where the place is past len.
 *     row has ids 5, 9, 7, of which 9 is a mark, and s seeks 7
 *     cb_forward(row, 12, 3, 0, l, false, s, NULL, 0);                         {0, false, 2} */
cb_step cb_forward(const uint32_t *row, size_t row_len, size_t len, size_t place, cb_lookup lookup, bool context, cb_sought sought,
                   const uint16_t *sets, size_t sets_len);

/* The nearest glyph before a place that isn't passed over: found, or 4 with the extent: stopped at p, max(p, 1) - 1; run out, 0.
 * Refused by 1 as a question is, but the place may be the row's end.
 *     the same row, and s seeks 5
 *     cb_backward(row, 12, 2, l, false, s, NULL, 0);                           {0, false, 0} */
cb_step cb_backward(const uint32_t *row, size_t row_len, size_t place, cb_lookup lookup, bool context, cb_sought sought,
                    const uint16_t *sets, size_t sets_len);

/* ---- matchers
 *
 * `test` says how each value is tested (CB_TEST_...). Refused, in this order: 1 (a row, d or len past its row, a start past len, odd
 * mark sets), 2, 3, 6; then 4, or for input 5, as the walk meets them.
 */

/* Up to 63 values after the cursor, whose own glyph isn't tested. Back: the end (last position + 1), the total of component counts,
 * and the positions, of which the first is the cursor.
 *     coming has ids 5, 7, and v is {7}
 *     cb_match_input(NULL, 0, 0, coming, 8, 2, 0, l, NULL, 0, CB_TEST_EQUAL, v, 1);
 *                                                                              number 0, end 2, count 2, positions 0, 1 (K1) */
cb_matched cb_match_input(const uint32_t *done, size_t done_len, size_t d, const uint32_t *coming, size_t coming_len, size_t len,
                          size_t idx, cb_lookup lookup, const uint16_t *sets, size_t sets_len, uint8_t test,
                          const uint32_t *values, size_t values_len);

/* Up to 64 values from the glyph at `start` on. Back: the last place + 1, or with no values the start. A start of 0 is 6.
 *     cb_match_lookahead(NULL, 0, 0, coming, 8, 2, 0, 1, l, NULL, 0, CB_TEST_EQUAL, v, 1);                  {0, 2} */
cb_placed cb_match_lookahead(const uint32_t *done, size_t done_len, size_t d, const uint32_t *coming, size_t coming_len, size_t len,
                             size_t idx, size_t start, cb_lookup lookup, const uint16_t *sets, size_t sets_len, uint8_t test,
                             const uint32_t *values, size_t values_len);

/* Up to 64 values, the nearest first, backward over `done` (under GPOS over coming before the cursor). Back: the last place, or with
 * no values that row's length.
 *     done has id 7, and v is {7}
 *     cb_match_backtrack(done, 4, 1, coming, 8, 2, 0, l, NULL, 0, CB_TEST_EQUAL, v, 1);                     {0, 0} */
cb_placed cb_match_backtrack(const uint32_t *done, size_t done_len, size_t d, const uint32_t *coming, size_t coming_len, size_t len,
                             size_t idx, cb_lookup lookup, const uint16_t *sets, size_t sets_len, uint8_t test,
                             const uint32_t *values, size_t values_len);

/* ---- runs of records over a text
 *
 * A book is 16-bit words: lookup after lookup, each its kind, its props (low half, high half), its body's length, its body.
 *     1  from, to                                                      one glyph becomes another
 *     2  from, n, n ids                                                one glyph becomes n, of 0 to 8
 *     3  first id; backtrack, input and lookahead values, each list after its number; the number of records, the pairs
 * Records are pairs too: a sequence index and a lookup index, at most 16 of them.
 */

/* Whether a book reads. Refuses nothing.
 *     uint16_t book[8] = {2, 0, 0, 4, 2, 2, 2, 2};  cb_book_reads(book, 8);    true: lookup 0 turns 2 into 2, 2 */
bool cb_book_reads(const uint16_t *book, size_t book_len);

/* Applies records to a text. Both rows have CB_RUN_WORDS words: of `done` the first d glyphs count, of `coming` those from idx to its
 * end. The match is one that cb_match_input made over the same rows, with len CB_LIMIT. At most `allowance` nested lookups are tried,
 * at most `depth` deep. Refused, with no word changed: 1, 2, 12, 11, 7, in this order. Else the ending: Finished; Short, a record was
 * due at allowance 0; Deep, at depth 0; Full, a result would pass CB_LIMIT glyphs. Then both rows hold the text and 0 elsewhere, and
 * positions count from the text's first glyph. On x86-64 it takes 1.2 KB of stack for each level of depth, 81 KB for all 64: measured
 * by link/stack.c, which link/run runs, and not promised.
 *     ids 1, 2, 3 end coming, m matched them whole, and records are {1, 0}
 *     cb_run(done, CB_RUN_WORDS, coming, CB_RUN_WORDS, 0, CB_LIMIT - 3, NULL, 0, book, 8, records, 2, m, switches, 1, 1);
 *                                           number 0, spent 1, d 4, count 4, positions 0, 1, 2, 3; done has ids 1, 2, 2, 3 (K11) */
cb_ran cb_run(uint32_t *done, size_t done_len, uint32_t *coming, size_t coming_len, size_t d, size_t idx, const uint16_t *sets,
              size_t sets_len, const uint16_t *book, size_t book_len, const uint16_t *records, size_t records_len,
              cb_matched matched, cb_switches switches, uint32_t allowance, size_t depth);

#ifdef __cplusplus
}
#endif

#endif
