/* The bench cards of docs/01-scope.md that the calls can show, every refusal, and every call of conchibaru.h at least once, against
 * libdesk.a. Prints a line a card and ends with 1 if one of them was wrong. C99, and C++ too. */
#include "conchibaru.h"

#include <stdio.h>

static bool right = true;
static int cards, wrong;

static void expect(bool fact, const char *text, int line) {
    if (!fact) printf("      line %d: not so: %s\n", line, text);
    right = right && fact;
}
#define EXPECT(fact) expect((fact), #fact, __LINE__)

/* Ends a card: what it says, and whether everything expected since the last one was so. */
static void card(const char *name, const char *says) {
    printf("%s %-4s %s\n", right ? "ok   " : "WRONG", name, says);
    cards += 1;
    wrong += !right;
    right = true;
}

/* ---- texts */

/* Numbers go by the header's names, so that a card stays as it is where they change. */
enum {
    ROW_3 = CB_WORDS * 3, /* words of three glyphs */
    CURSOR = CB_LIMIT - 3 /* where three glyphs that end a row begin */
};

static const uint32_t MARK = CB_WORD_2(0, 0, CB_PROPS_MARK);
static const uint32_t IGNORABLE = CB_WORD_2(CB_FLAG_IGNORABLE, 0, 0);
static const uint32_t ZWNJ = CB_WORD_2(CB_FLAG_IGNORABLE | CB_FLAG_ZWNJ, 0, 0);
static const uint32_t ZWJ = CB_WORD_2(CB_FLAG_IGNORABLE | CB_FLAG_ZWJ, 0, 0);
static const uint32_t ONE = CB_WORD_3(0, 0, 1, 1);

/* the glyph at a place becomes these words, and 0 in any other */
static void put(uint32_t *row, size_t place, uint32_t id, uint32_t mask, uint32_t word_2, uint32_t word_3) {
    uint32_t *glyph = row + CB_WORDS * place;
    for (size_t i = 0; i < CB_WORDS; i++) glyph[i] = 0;
    glyph[0] = id;
    glyph[1] = mask;
    glyph[2] = word_2;
    glyph[3] = word_3;
}

/* ids 5, 9, 7, of which 9 has this word 2 */
static uint32_t coming_3[ROW_3];
static void five_nine_seven(uint32_t word_2) {
    put(coming_3, 0, 5, 1, 0, ONE);
    put(coming_3, 1, 9, 1, word_2, ONE);
    put(coming_3, 2, 7, 1, 0, ONE);
}

static cb_lookup plain(uint32_t props) {
    cb_lookup lookup = {false, false, false, false, 1, 0};
    lookup.props = props;
    return lookup;
}

static cb_sought sought(uint8_t test, uint8_t syllable, uint32_t value) {
    cb_sought what = {0, 0, 0};
    what.test = test;
    what.syllable = syllable;
    what.value = value;
    return what;
}

/* ---- the words of a glyph */

static void word_card(void) {
    static const uint32_t wide = CB_WORD_2(0x1A5, 0x1C3, 0xFEDCBA98), narrow = CB_WORD_3(0x1E1, 0x1D2, 0x1C3, 0x1B4);
    uint64_t much = 0x123456789ABCDEF;
    signed char minus = -1;
    EXPECT(wide == 0xA5C3BA98 && narrow == 0xE1D2C3B4);
    EXPECT(CB_WORD_2(0, 0, 0x10008) == MARK && CB_WORD_2(much, 0, much) == 0xEF00CDEF);
    EXPECT(CB_WORD_2(0, minus, 0) == 0xFF0000 && CB_WORD_3(0, 0, 0, minus) == 0xFF);
    card("-", "a part of a glyph's word that is handed in too wide leaves its neighbours alone");
}

/* ---- input matching: K1 to K6, K15 */

/* with done empty, the cursor at 0 and one value */
static cb_matched input(const uint32_t *coming, size_t glyphs, uint32_t props, uint32_t value) {
    return cb_match_input(NULL, 0, 0, coming, CB_WORDS * glyphs, glyphs, 0, plain(props), NULL, 0, CB_TEST_EQUAL, &value, 1);
}

/* a success with these positions, the cursor's 0 first, and nothing in the other slots */
static bool is_matched(cb_matched m, size_t end, uint16_t total, size_t count, const uint16_t *positions) {
    bool same = m.number == CB_MATCHED && m.end == end && m.total == total && m.count == count;
    for (size_t i = 0; i < CB_SLOTS; i++) same = same && m.positions[i] == (i < count ? positions[i] : 0);
    return same;
}

/* this number, this end or extent, and 0 everywhere else */
static bool is_bare(cb_matched m, uint8_t number, size_t end) {
    bool same = m.number == number && m.end == end && m.total == 0 && m.count == 0;
    for (size_t i = 0; i < CB_SLOTS; i++) same = same && m.positions[i] == 0;
    return same;
}

static void input_cards(void) {
    static const uint16_t at_0_1[2] = {0, 1}, at_0_2[2] = {0, 2};
    uint32_t two[CB_WORDS * 2];
    put(two, 0, 5, 1, 0, ONE);
    put(two, 1, 7, 1, 0, ONE);
    EXPECT(is_matched(input(two, 2, 0, 7), 2, 2, 2, at_0_1));
    card("K1", "ids 5, 7, values 7: positions 0, 1, end 2");

    five_nine_seven(MARK);
    EXPECT(is_matched(input(coming_3, 3, CB_IGNORE_MARKS, 7), 3, 2, 2, at_0_2));
    card("K2", "ids 5, 9, 7, 9 a mark, flag 8, values 7: positions 0, 2, end 3");
    EXPECT(is_bare(input(coming_3, 3, 0, 7), CB_LOST, 2));
    card("K3", "the same with flag 0: extent 2");
    EXPECT(is_bare(input(two, 1, 0, 7), CB_LOST, 1));
    card("K4", "id 5 alone: extent 1");

    five_nine_seven(IGNORABLE);
    EXPECT(is_matched(input(coming_3, 3, 0, 7), 3, 2, 2, at_0_2));
    EXPECT(is_matched(input(coming_3, 3, 0, 9), 2, 2, 2, at_0_1));
    card("K5", "ids 5, 9, 7, 9 default ignorable: values 7 give 0, 2; values 9 give 0, 1");
    five_nine_seven(ZWNJ);
    EXPECT(is_bare(input(coming_3, 3, 0, 7), CB_LOST, 2));
    card("K6", "9 also ZWNJ, values 7: extent 2");
}

static void value_card(void) {
    uint32_t coming[CB_WORDS * 64], values[64];
    uint16_t positions[CB_SLOTS];
    for (uint16_t i = 0; i < 64; i++) {
        put(coming, i, 7, 1, 0, ONE);
        values[i] = 7;
        positions[i] = i;
    }
    cb_lookup l = plain(0);
    EXPECT(is_matched(cb_match_input(NULL, 0, 0, coming, CB_WORDS * 64, 64, 0, l, NULL, 0, CB_TEST_EQUAL, values, 63), 64, 64, 64, positions));
    EXPECT(is_bare(cb_match_input(NULL, 0, 0, coming, CB_WORDS * 64, 1, 0, l, NULL, 0, CB_TEST_EQUAL, values, 63), CB_LOST, 1));
    EXPECT(is_bare(cb_match_input(NULL, 0, 0, coming, CB_WORDS * 64, 64, 0, l, NULL, 0, CB_TEST_EQUAL, values, 64), CB_REFUSAL_VALUES, 0));
    EXPECT(is_matched(cb_match_input(NULL, 0, 0, coming, CB_WORDS * 64, 64, 0, plain(0), NULL, 0, CB_TEST_EQUAL, NULL, 0), 1, 1, 1, positions));
    card("K15", "63 values pass the test of their number, 64 give 3; no values succeed untested");
}

/* ---- digests and allowances: K7, K8, K10 */

static bool is_masks(const uint64_t *m, uint64_t a, uint64_t b, uint64_t c) { return m[0] == a && m[1] == b && m[2] == c; }
static uint64_t bit(int place) {
    const uint64_t one = 1;
    return one << place;
}

static void digest_cards(void) {
    uint64_t m[3] = {1, 2, 3}, o[3] = {4, 5, 6};
    cb_digest_new(m);
    EXPECT(is_masks(m, 0, 0, 0));
    cb_digest_add(m, 4660);
    EXPECT(is_masks(m, bit(35), bit(52), bit(8)));
    EXPECT(cb_digest_may_have(m, 4660) && cb_digest_may_have(m, 8756) && !cb_digest_may_have(m, 4661));
    card("K7", "glyph 4,660 sets bits 35, 52, 8; 8,756 is then also admitted");

    cb_digest_clear(m);
    EXPECT(is_masks(m, 0, 0, 0));
    EXPECT(cb_digest_add_range(m, 62, 65));
    EXPECT(is_masks(m, bit(3) | bit(4), bit(62) | bit(63) | bit(0) | bit(1), bit(0) | bit(1)));
    card("K8", "the range 62 to 65 sets 3, 4; 62, 63, 0, 1; 0, 1");

    static const uint32_t ids[2] = {5, 7};
    cb_digest_new(m);
    cb_digest_add_array(m, ids, 2);
    EXPECT(is_masks(m, 1, bit(5) | bit(7), 1));
    cb_digest_new(o);
    cb_digest_add(o, 6);
    EXPECT(!cb_digest_may_intersect(m, o));
    cb_digest_union(o, m);
    EXPECT(is_masks(o, 1, bit(5) | bit(6) | bit(7), 1) && cb_digest_may_intersect(m, o));
    cb_digest_full(o);
    EXPECT(is_masks(o, UINT64_MAX, UINT64_MAX, UINT64_MAX) && !cb_digest_add_range(o, 1, 2));
    EXPECT(cb_rule_set_digest_new() == 0 && cb_rule_set_digest_full() == UINT64_MAX);
    EXPECT(cb_rule_set_digest_add(0, 65) == 2 && cb_rule_set_digest_may_have(2, 129) && !cb_rule_set_digest_may_have(2, 2));
    EXPECT(cb_rule_set_digest_is_full(UINT64_MAX) && !cb_rule_set_digest_is_full(UINT64_MAX - 1));
    card("-", "the other calls on digests");
}

static bool is_left(const uint64_t *left, uint64_t work, uint64_t bytes) { return left[0] == work && left[1] == bytes; }

static void allowance_cards(void) {
    static const uint64_t bytes[3] = {16384, 16385, 524289}, opens[3] = {4194304, 4194560, 134217728};
    uint64_t left[2];
    for (int i = 0; i < 3; i++) {
        cb_budget_for_table_bytes(left, bytes[i]);
        EXPECT(is_left(left, opens[i], opens[i]));
    }
    card("K10", "sizes 16,384, 16,385, 524,289 open 4,194,304, 4,194,560, 134,217,728");

    cb_budget_new(left, 10, 100);
    EXPECT(!cb_budget_work(left, 11) && is_left(left, 10, 100));
    EXPECT(cb_budget_work(left, 10) && cb_budget_work(left, 0) && is_left(left, 0, 100));
    EXPECT(!cb_budget_alloc(left, UINT64_MAX, 2) && !cb_budget_alloc(left, 51, 2) && is_left(left, 0, 100));
    EXPECT(cb_budget_alloc(left, 25, 4) && is_left(left, 0, 0));
    card("-", "taking more than is left takes nothing");
}

/* ---- questions, walks, lookahead, backtrack */

static bool is_said(cb_said s, uint8_t number, uint8_t said) { return s.number == number && s.said == said; }
static bool is_step(cb_step s, uint8_t number, bool ranout, size_t place) { return s.number == number && s.ranout == ranout && s.place == place; }
static bool is_placed(cb_placed p, uint8_t number, size_t place) { return p.number == number && p.place == place; }

/* each field of a lookup, of what is sought, and the mark sets, where it turns an answer */
static void question_card(void) {
    static const uint16_t in_set_3[2] = {3, 9};
    cb_lookup l = plain(0);
    uint32_t row[CB_WORDS];
    put(row, 0, 9, 1, ZWNJ, ONE);
    EXPECT(is_said(cb_may_skip(row, CB_WORDS, 0, l, false, NULL, 0), 0, CB_MAY_SKIP_NO));
    l.gpos = true;
    EXPECT(is_said(cb_may_skip(row, CB_WORDS, 0, l, false, NULL, 0), 0, CB_MAY_SKIP_MAYBE));
    l = plain(0);
    l.zwnj = true;
    EXPECT(is_said(cb_may_skip(row, CB_WORDS, 0, l, false, NULL, 0), 0, CB_MAY_SKIP_NO));
    EXPECT(is_said(cb_may_skip(row, CB_WORDS, 0, l, true, NULL, 0), 0, CB_MAY_SKIP_MAYBE));
    put(row, 0, 9, 1, ZWJ, ONE);
    EXPECT(is_said(cb_may_skip(row, CB_WORDS, 0, l, false, NULL, 0), 0, CB_MAY_SKIP_NO));
    l.zwj = true;
    EXPECT(is_said(cb_may_skip(row, CB_WORDS, 0, l, false, NULL, 0), 0, CB_MAY_SKIP_MAYBE));
    put(row, 0, 9, 1, MARK, ONE);
    l = plain(CB_USE_FILTERING_SET | 3 << 16);
    EXPECT(is_said(cb_may_skip(row, CB_WORDS, 0, l, false, in_set_3, 2), 0, CB_MAY_SKIP_NO));
    EXPECT(is_said(cb_may_skip(row, CB_WORDS, 0, l, false, NULL, 0), 0, CB_MAY_SKIP_YES));
    EXPECT(is_said(cb_verdict(row, CB_WORDS, 0, l, false, sought(CB_TEST_EQUAL, 0, 9), in_set_3, 2), 0, CB_VERDICT_MATCH));
    EXPECT(is_said(cb_verdict(row, CB_WORDS, 0, l, false, sought(CB_TEST_EQUAL, 0, 8), in_set_3, 2), 0, CB_VERDICT_NOT_MATCH));
    EXPECT(is_said(cb_verdict(row, CB_WORDS, 0, l, false, sought(CB_TEST_EQUAL, 0, 9), NULL, 0), 0, CB_VERDICT_SKIP));
    put(row, 0, 9, 1, CB_WORD_2(0, 2, 0), ONE);
    l = plain(0);
    EXPECT(is_said(cb_may_match(row, CB_WORDS, 0, l, false, sought(CB_TEST_EQUAL, 1, 9)), 0, CB_MAY_MATCH_YES));
    EXPECT(is_said(cb_may_match(row, CB_WORDS, 0, l, false, sought(CB_TEST_EQUAL, 1, 8)), 0, CB_MAY_MATCH_NO));
    EXPECT(is_said(cb_may_match(row, CB_WORDS, 0, l, false, sought(CB_TEST_ANY, 1, 8)), 0, CB_MAY_MATCH_YES));
    EXPECT(is_said(cb_may_match(row, CB_WORDS, 0, l, false, sought(CB_TEST_NOTHING, 1, 8)), 0, CB_MAY_MATCH_MAYBE));
    l.syllables = true;
    EXPECT(is_said(cb_may_match(row, CB_WORDS, 0, l, false, sought(CB_TEST_EQUAL, 1, 9)), 0, CB_MAY_MATCH_NO));
    EXPECT(is_said(cb_may_match(row, CB_WORDS, 0, l, false, sought(CB_TEST_EQUAL, 2, 9)), 0, CB_MAY_MATCH_YES));
    l = plain(0);
    l.mask = 2;
    EXPECT(is_said(cb_may_match(row, CB_WORDS, 0, l, false, sought(CB_TEST_EQUAL, 0, 9)), 0, CB_MAY_MATCH_NO));
    EXPECT(is_said(cb_may_match(row, CB_WORDS, 0, l, true, sought(CB_TEST_EQUAL, 0, 9)), 0, CB_MAY_MATCH_YES));
    card("-", "the questions; each field of a lookup and of what is sought turns an answer");
}

static void walk_card(void) {
    static const uint16_t in_set_3[2] = {3, 9};
    cb_lookup marks = plain(CB_IGNORE_MARKS), set = plain(CB_USE_FILTERING_SET | 3 << 16);
    cb_sought five = sought(CB_TEST_EQUAL, 0, 5), seven = sought(CB_TEST_EQUAL, 0, 7);
    five_nine_seven(MARK);
    EXPECT(is_step(cb_forward(coming_3, ROW_3, 3, 0, marks, false, seven, NULL, 0), 0, false, 2));
    EXPECT(is_step(cb_forward(coming_3, ROW_3, 3, 0, plain(0), false, seven, NULL, 0), CB_LOST, false, 2));
    EXPECT(is_step(cb_forward(coming_3, ROW_3, 2, 0, marks, false, seven, NULL, 0), CB_LOST, true, 2));
    EXPECT(is_step(cb_forward(coming_3, ROW_3, 3, 0, set, false, seven, in_set_3, 2), CB_LOST, false, 2));
    EXPECT(is_step(cb_backward(coming_3, ROW_3, 2, marks, true, five, NULL, 0), 0, false, 0));
    EXPECT(is_step(cb_backward(coming_3, ROW_3, 2, set, true, five, in_set_3, 2), CB_LOST, false, 0));
    EXPECT(is_step(cb_backward(coming_3, ROW_3, 0, marks, true, five, NULL, 0), CB_LOST, true, 0));
    card("-", "the walks: found, stopped, run out");

    cb_lookup l = plain(0);
    l.syllables = true;
    five_nine_seven(CB_WORD_2(0, 2, 0));
    for (uint8_t syllable = 1; syllable <= 2; syllable++) {
        uint8_t number = syllable == 2 ? CB_MATCHED : CB_LOST;
        EXPECT(cb_forward(coming_3, ROW_3, 3, 0, l, false, sought(CB_TEST_EQUAL, syllable, 9), NULL, 0).number == number);
        EXPECT(cb_backward(coming_3, ROW_3, 2, l, false, sought(CB_TEST_EQUAL, syllable, 9), NULL, 0).number == number);
        EXPECT(cb_forward(coming_3, ROW_3, 3, 0, l, false, sought(CB_TEST_ANY, syllable, 8), NULL, 0).number == number);
        EXPECT(cb_backward(coming_3, ROW_3, 2, l, false, sought(CB_TEST_ANY, syllable, 8), NULL, 0).number == number);
    }
    l.syllables = false;
    l.mask = 2;
    EXPECT(is_step(cb_forward(coming_3, ROW_3, 3, 0, l, true, sought(CB_TEST_EQUAL, 0, 9), NULL, 0), 0, false, 1));
    EXPECT(is_step(cb_forward(coming_3, ROW_3, 3, 0, l, false, sought(CB_TEST_EQUAL, 0, 9), NULL, 0), CB_LOST, false, 2));
    EXPECT(is_step(cb_backward(coming_3, ROW_3, 3, l, true, seven, NULL, 0), 0, false, 2));
    EXPECT(is_step(cb_backward(coming_3, ROW_3, 3, l, false, seven, NULL, 0), CB_LOST, false, 1));
    card("-", "the walks: the starting syllable, the kind of test, and the matcher turn an answer");
}

static void context_card(void) {
    static const uint32_t v[2] = {7, 5};
    static const uint16_t in_set_3[2] = {3, 9};
    cb_lookup marks = plain(CB_IGNORE_MARKS), set = plain(CB_USE_FILTERING_SET | 3 << 16), gpos = marks;
    uint32_t done[ROW_3];
    gpos.gpos = true;
    five_nine_seven(MARK);
    for (size_t i = 0; i < ROW_3; i++) done[i] = coming_3[i];
    EXPECT(is_placed(cb_match_lookahead(done, ROW_3, 3, coming_3, ROW_3, 3, 0, 1, marks, NULL, 0, CB_TEST_EQUAL, v, 1), 0, 3));
    EXPECT(is_placed(cb_match_lookahead(done, ROW_3, 3, coming_3, ROW_3, 3, 0, 2, marks, NULL, 0, CB_TEST_EQUAL, NULL, 0), 0, 2));
    EXPECT(is_placed(cb_match_lookahead(done, ROW_3, 3, coming_3, ROW_3, 3, 0, 1, set, in_set_3, 2, CB_TEST_EQUAL, v, 1), CB_LOST, 2));
    EXPECT(is_placed(cb_match_lookahead(done, ROW_3, 3, coming_3, ROW_3, 3, 0, 1, set, in_set_3, 2, CB_TEST_ANY, v, 1), 0, 2));
    EXPECT(is_placed(cb_match_backtrack(done, ROW_3, 3, coming_3, ROW_3, 3, 0, marks, NULL, 0, CB_TEST_EQUAL, v, 2), 0, 0));
    EXPECT(is_placed(cb_match_backtrack(done, ROW_3, 2, coming_3, ROW_3, 3, 0, marks, NULL, 0, CB_TEST_EQUAL, NULL, 0), 0, 2));
    EXPECT(is_placed(cb_match_backtrack(done, ROW_3, 2, coming_3, ROW_3, 3, 0, marks, NULL, 0, CB_TEST_EQUAL, v, 1), CB_LOST, 0));
    EXPECT(is_placed(cb_match_backtrack(done, ROW_3, 0, coming_3, ROW_3, 3, 2, gpos, NULL, 0, CB_TEST_EQUAL, v + 1, 1), 0, 0));
    card("-", "lookahead and backtrack");
}

/* whether 7 is matched behind a glyph with this word 2: as input, ahead and back */
static bool is_input(uint32_t word_2, cb_lookup l, uint8_t test) {
    static const uint32_t seven = 7;
    five_nine_seven(word_2);
    return cb_match_input(NULL, 0, 0, coming_3, ROW_3, 3, 0, l, NULL, 0, test, &seven, 1).number == CB_MATCHED;
}
static bool is_context(uint32_t word_2, cb_lookup l, uint8_t test) {
    static const uint32_t seven = 7, five = 5;
    five_nine_seven(word_2);
    bool ahead = cb_match_lookahead(NULL, 0, 0, coming_3, ROW_3, 3, 0, 1, l, NULL, 0, test, &seven, 1).number == CB_MATCHED;
    bool back = cb_match_backtrack(coming_3, ROW_3, 2, coming_3, ROW_3, 3, 2, l, NULL, 0, test, &five, 1).number == CB_MATCHED;
    EXPECT(ahead == back);
    return ahead;
}

static void matcher_card(void) {
    cb_lookup off = plain(0), l = off;
    const uint32_t nine = 9;
    EXPECT(is_input(IGNORABLE, off, CB_TEST_EQUAL) && !is_input(ZWJ, off, CB_TEST_EQUAL) && !is_input(ZWNJ, off, CB_TEST_EQUAL));
    EXPECT(is_context(IGNORABLE, off, CB_TEST_EQUAL) && is_context(ZWJ, off, CB_TEST_EQUAL) && !is_context(ZWNJ, off, CB_TEST_EQUAL));
    EXPECT(is_input(ZWJ, off, CB_TEST_ANY) && is_context(ZWNJ, off, CB_TEST_ANY) && !is_input(0, off, CB_TEST_EQUAL));
    l.zwj = true;
    EXPECT(is_input(ZWJ, l, CB_TEST_EQUAL) && !is_input(ZWNJ, l, CB_TEST_EQUAL) && !is_context(ZWNJ, l, CB_TEST_EQUAL));
    l = off;
    l.zwnj = true;
    EXPECT(!is_input(ZWJ, l, CB_TEST_EQUAL) && !is_input(ZWNJ, l, CB_TEST_EQUAL) && is_context(ZWNJ, l, CB_TEST_EQUAL));
    l = off;
    l.gpos = true;
    EXPECT(is_input(ZWNJ, l, CB_TEST_EQUAL) && is_context(ZWNJ, l, CB_TEST_EQUAL));
    l = off;
    l.mask = 2;
    EXPECT(!is_input(IGNORABLE, l, CB_TEST_EQUAL) && is_context(IGNORABLE, l, CB_TEST_EQUAL));
    EXPECT(!is_context(0, off, CB_TEST_EQUAL) && is_context(0, off, CB_TEST_NOTHING) && is_input(0, off, CB_TEST_NOTHING));
    l = plain(CB_IGNORE_MARKS);
    EXPECT(is_input(MARK, l, CB_TEST_EQUAL) && !is_input(MARK, off, CB_TEST_EQUAL) && is_context(MARK, l, CB_TEST_EQUAL));

    /* the glyphs on which the cursor stands are of syllable 1, and 9 is of none */
    five_nine_seven(IGNORABLE);
    coming_3[2] = coming_3[CB_WORDS * 2 + 2] = CB_WORD_2(0, 1, 0);
    for (int tested = 0; tested < 2; tested++) {
        uint8_t number = tested ? CB_LOST : CB_MATCHED;
        l = off;
        l.syllables = tested;
        EXPECT(cb_match_input(NULL, 0, 0, coming_3, ROW_3, 3, 0, l, NULL, 0, CB_TEST_EQUAL, &nine, 1).number == number);
        EXPECT(cb_match_lookahead(NULL, 0, 0, coming_3, ROW_3, 3, 0, 1, l, NULL, 0, CB_TEST_EQUAL, &nine, 1).number == number);
        EXPECT(cb_match_backtrack(coming_3, ROW_3, 2, coming_3, ROW_3, 3, 2, l, NULL, 0, CB_TEST_EQUAL, &nine, 1).number == number);
    }
    card("-", "each field of a lookup turns a matcher's answer");
}

/* ---- runs: K11 to K14 */

static uint32_t done[CB_RUN_WORDS], coming[CB_RUN_WORDS];
static uint32_t done_before[CB_RUN_WORDS], coming_before[CB_RUN_WORDS];
static const uint16_t doubles[8] = {2, 0, 0, 4, 2, 2, 2, 2}; /* lookup 0 turns 2 into 2, 2 */
static const uint16_t deletes[6] = {2, 0, 0, 2, 2, 0};       /* lookup 0 turns 2 into nothing */
static const uint16_t record_1_0[2] = {1, 0};

/* a glyph of the runs' text: id k + 1, and words 1 to 3 that no other has; where k + 1 passes a byte, the rest is in a part that no run here asks */
static void put_sign(uint32_t *row, size_t place, uint32_t k) {
    uint32_t id = k + 1, over = id / 256;
    put(row, place, id, 1 | id << 8, CB_WORD_2(0, id, CB_PROPS_BASE | over << 8), CB_WORD_3(0, 0, 1 + over, id));
}

/* d signs in done (0 to d - 1), and then signs 0, 1, 2, which end coming; every other cell holds something */
static void lay_out(size_t d) {
    for (size_t i = 0; i < CB_RUN_WORDS; i++) done[i] = coming[i] = 0xA5A5A5A5;
    for (uint32_t k = 0; k < d; k++) put_sign(done, k, k);
    for (uint32_t k = 0; k < 3; k++) put_sign(coming, CURSOR + k, k);
}

static void keep_rows(void) {
    for (size_t i = 0; i < CB_RUN_WORDS; i++) {
        done_before[i] = done[i];
        coming_before[i] = coming[i];
    }
}

static bool are_rows_kept(void) {
    for (size_t i = 0; i < CB_RUN_WORDS; i++) {
        if (done[i] != done_before[i] || coming[i] != coming_before[i]) return false;
    }
    return true;
}

/* every word of both rows: the text is the first d signs of done, then n glyphs, each with its id and the sign of which it has words
 * 1 to 3; `part` of all these stand in done, the others end coming, and every other cell is 0 */
static bool is_text(size_t d, size_t n, const uint32_t *ids, const uint32_t *signs, size_t part) {
    for (size_t i = 0; i < CB_RUN_WORDS; i++) done_before[i] = coming_before[i] = 0;
    for (uint32_t i = 0; i < d + n; i++) {
        uint32_t *row = i < part ? done_before : coming_before;
        size_t place = i < part ? i : CB_LIMIT - (d + n) + i;
        put_sign(row, place, i < d ? i : signs[i - d]);
        if (i >= d) row[CB_WORDS * place] = ids[i - d];
    }
    return are_rows_kept();
}

static cb_switches switches(void) {
    cb_switches s = {false, false, false, 1};
    return s;
}

/* signs 0, 1, 2 matched whole */
static cb_matched matched(size_t d) {
    static const uint32_t values[2] = {2, 3};
    return cb_match_input(done, CB_RUN_WORDS, d, coming, CB_RUN_WORDS, CB_LIMIT, CURSOR, plain(0), NULL, 0, CB_TEST_EQUAL, values, 2);
}

static cb_ran run(size_t d, const uint16_t *book, size_t book_len, uint32_t allowance, size_t depth) {
    return cb_run(done, CB_RUN_WORDS, coming, CB_RUN_WORDS, d, CURSOR, NULL, 0, book, book_len, record_1_0, 2, matched(d), switches(),
                  allowance, depth);
}

/* the answer, with positions from `first` on and nothing in the other slots */
static bool is_ran(cb_ran r, uint8_t number, uint32_t spent, size_t d, size_t idx, size_t count, size_t first) {
    bool same = r.number == number && r.spent == spent && r.d == d && r.idx == idx && r.count == count;
    for (size_t i = 0; i < CB_SLOTS; i++) same = same && r.positions[i] == (i < count ? first + i : 0);
    return same;
}

static const uint32_t ids_123[3] = {1, 2, 3}, ids_1223[4] = {1, 2, 2, 3}, ids_13[2] = {1, 3};
static const uint32_t of_012[3] = {0, 1, 2}, of_0112[4] = {0, 1, 1, 2}, of_02[2] = {0, 2};

static void run_cards(void) {
    lay_out(0);
    EXPECT(is_ran(run(0, doubles, 8, 1, 1), CB_ENDING_FINISHED, 1, 4, CB_LIMIT, 4, 0));
    EXPECT(is_text(0, 4, ids_1223, of_0112, 4));
    card("K11", "ids 1, 2, 3 matched whole, lookup 0 turns 2 into 2, 2: text 1, 2, 2, 3, positions 0 to 3, d 4, spent 1");
    lay_out(0);
    EXPECT(is_ran(run(0, doubles, 8, 0, 1), CB_ENDING_SHORT, 0, 3, CB_LIMIT, 3, 0));
    EXPECT(is_text(0, 3, ids_123, of_012, 3));
    card("K12", "as K11 with allowance 0: Short, text 1, 2, 3, d 3");
    lay_out(0);
    EXPECT(is_ran(run(0, deletes, 6, 1, 1), CB_ENDING_FINISHED, 1, 2, CB_LIMIT, 2, 0));
    EXPECT(is_text(0, 2, ids_13, of_02, 2));
    card("K13", "as K11, 2 into nothing: text 1, 3, positions 0, 1, d 2");
    lay_out(0);
    EXPECT(is_ran(run(0, doubles, 8, 1, 0), CB_ENDING_DEEP, 0, 1, CURSOR + 1, 3, 0));
    EXPECT(is_text(0, 3, ids_123, of_012, 1));
    lay_out(0);
    EXPECT(is_ran(run(0, doubles, 8, 0, 0), CB_ENDING_SHORT, 0, 3, CB_LIMIT, 3, 0));
    EXPECT(is_text(0, 3, ids_123, of_012, 3));
    card("K14", "as K11 with allowance 1, depth 0: Deep; 0 and 0: Short");
    const size_t most = CB_LIMIT - 3, fewer = most - 1;
    lay_out(most);
    EXPECT(is_ran(run(most, doubles, 8, 1, 1), CB_ENDING_FULL, 1, most + 1, CURSOR + 1, 3, most));
    EXPECT(is_text(most, 3, ids_123, of_012, most + 1));
    lay_out(fewer);
    EXPECT(is_ran(run(fewer, doubles, 8, 1, 1), CB_ENDING_FINISHED, 1, CB_LIMIT, CB_LIMIT, 4, fewer));
    EXPECT(is_text(fewer, 4, ids_1223, of_0112, CB_LIMIT));
    card("-", "as K11 behind as many glyphs as the limit leaves: Full, and nothing of the result is written; behind one fewer it fits");
}

/* over 1, 2, 3, of which 2 has this word 2: whether lookup 0, a chain, let its record turn the glyph at a place into 9 */
static bool is_chained(const uint16_t *book, size_t place, uint32_t word_2, cb_switches s) {
    static const uint16_t record_0_0[2] = {0, 0};
    lay_out(0);
    cb_matched m = matched(0);
    coming[CB_WORDS * (CURSOR + 1) + 2] = word_2;
    cb_ran r = cb_run(done, CB_RUN_WORDS, coming, CB_RUN_WORDS, 0, CURSOR, NULL, 0, book, 18, record_0_0, 2, m, s, 9, 9);
    bool chained = done[CB_WORDS * place] == 9;
    EXPECT(is_ran(r, CB_ENDING_FINISHED, chained ? 2 : 1, 3, CB_LIMIT, 3, 0));
    return chained;
}

static void chain_card(void) {
    /* lookup 0: first id 1; backtrack, input and lookahead values, each after their number; a record. Lookup 1: a glyph becomes 9. */
    static const uint16_t by_input[18] = {3, 0, 0, 8, 1, 0, 1, 3, 0, 1, 1, 1, 1, 0, 0, 2, 3, 9};
    static const uint16_t by_lookahead[18] = {3, 0, 0, 8, 1, 0, 0, 1, 3, 1, 0, 1, 1, 0, 0, 2, 1, 9};
    cb_switches s = switches();
    EXPECT(cb_book_reads(by_input, 18) && cb_book_reads(by_lookahead, 18) && !cb_book_reads(by_input, 17));
    EXPECT(is_chained(by_input, 2, IGNORABLE, s) && !is_chained(by_input, 2, ZWJ, s));
    s.zwj = true;
    EXPECT(is_chained(by_input, 2, ZWJ, s) && !is_chained(by_lookahead, 0, ZWNJ, s));
    s = switches();
    s.zwnj = true;
    EXPECT(is_chained(by_lookahead, 0, ZWNJ, s));
    s = switches();
    s.syllables = true;
    EXPECT(!is_chained(by_input, 2, IGNORABLE, s));
    s = switches();
    s.mask = 0x80000000;
    EXPECT(!is_chained(by_input, 2, IGNORABLE, s));
    card("-", "chains; each of a run's switches turns an answer");
}

/* ---- refusals: the numbers 1 to 12, and the order in which they come */

static void shape_card(void) {
    static const uint16_t odd[1] = {0};
    static uint32_t long_row[CB_RUN_WORDS + CB_WORDS];
    cb_lookup l = plain(0);
    cb_sought any = sought(CB_TEST_ANY, 0, 0);
    five_nine_seven(0);
    EXPECT(is_said(cb_may_skip(coming_3, ROW_3 - 1, 0, l, false, NULL, 0), CB_REFUSAL_SHAPE, 0));
    EXPECT(is_said(cb_may_skip(coming_3, ROW_3, 0, l, false, odd, 1), CB_REFUSAL_SHAPE, 0));
    EXPECT(is_said(cb_may_match(coming_3, ROW_3, 3, l, false, any), CB_REFUSAL_SHAPE, 0));
    EXPECT(is_said(cb_verdict(long_row, CB_RUN_WORDS + CB_WORDS, 0, l, false, any, NULL, 0), CB_REFUSAL_SHAPE, 0));
    EXPECT(is_step(cb_forward(coming_3, ROW_3, 4, 0, l, false, any, NULL, 0), CB_REFUSAL_SHAPE, false, 0));
    EXPECT(is_step(cb_forward(coming_3, ROW_3, 2, 3, l, false, any, NULL, 0), CB_REFUSAL_SHAPE, false, 0));
    EXPECT(is_step(cb_backward(coming_3, ROW_3, 4, l, false, any, NULL, 0), CB_REFUSAL_SHAPE, false, 0));
    EXPECT(is_bare(cb_match_input(coming_3, ROW_3, 4, coming_3, ROW_3, 3, 0, l, NULL, 0, CB_TEST_ANY, NULL, 0), CB_REFUSAL_SHAPE, 0));
    EXPECT(is_placed(cb_match_lookahead(NULL, 0, 0, coming_3, ROW_3, 3, 0, 4, l, NULL, 0, CB_TEST_ANY, NULL, 0), CB_REFUSAL_SHAPE, 0));
    EXPECT(is_placed(cb_match_backtrack(NULL, 0, 0, coming_3, ROW_3, 3, 0, l, odd, 1, CB_TEST_ANY, NULL, 0), CB_REFUSAL_SHAPE, 0));
    card("1", "rows, places, lengths and mark sets that are out of shape");
}

static void matcher_refusal_cards(void) {
    static uint32_t values[65];
    cb_lookup l = plain(0);
    EXPECT(is_bare(cb_match_input(NULL, 0, 0, coming_3, ROW_3, 3, 3, l, NULL, 0, CB_TEST_ANY, NULL, 0), CB_REFUSAL_CURSOR, 0));
    EXPECT(is_placed(cb_match_lookahead(NULL, 0, 0, coming_3, ROW_3, 3, 3, 0, l, NULL, 0, CB_TEST_ANY, NULL, 0), CB_REFUSAL_CURSOR, 0));
    EXPECT(is_placed(cb_match_backtrack(NULL, 0, 0, coming_3, ROW_3, 3, 3, l, NULL, 0, CB_TEST_ANY, NULL, 0), CB_REFUSAL_CURSOR, 0));
    card("2", "a cursor at the end, also with no values");
    EXPECT(is_placed(cb_match_lookahead(NULL, 0, 0, coming_3, ROW_3, 3, 0, 0, l, NULL, 0, CB_TEST_ANY, values, 65), CB_REFUSAL_VALUES, 0));
    EXPECT(is_placed(cb_match_lookahead(NULL, 0, 0, coming_3, ROW_3, 3, 0, 1, l, NULL, 0, CB_TEST_ANY, values, 64), CB_LOST, 3));
    EXPECT(is_placed(cb_match_backtrack(NULL, 0, 0, coming_3, ROW_3, 3, 0, l, NULL, 0, CB_TEST_ANY, values, 65), CB_REFUSAL_VALUES, 0));
    EXPECT(is_placed(cb_match_backtrack(NULL, 0, 0, coming_3, ROW_3, 3, 0, l, NULL, 0, CB_TEST_ANY, values, 64), CB_LOST, 0));
    card("3", "65 values of context; 64 are taken (4: the walks run out)");
    put(coming_3, 1, 9, 1, 0, CB_WORD_3(3, 1, 1, 1));
    EXPECT(is_bare(input(coming_3, 3, 0, 9), CB_LIGATURE, 0));
    put(coming_3, 0, 5, 1, 0, CB_WORD_3(3, 0, 1, 1));
    EXPECT(input(coming_3, 3, 0, 9).number == CB_MATCHED);
    card("5", "a glyph attached to another ligature; to the first one's own it joins");
    EXPECT(is_placed(cb_match_lookahead(NULL, 0, 0, coming_3, ROW_3, 3, 0, 0, l, NULL, 0, CB_TEST_ANY, NULL, 0), CB_REFUSAL_START, 0));
    card("6", "a lookahead start of 0, also with no values");
}

/* a refused run: the number alone, and no word changed */
static void refused_run(uint8_t number, size_t done_len, size_t idx, size_t book_len, size_t records_len, cb_matched m,
                        uint32_t allowance, size_t depth) {
    static const uint16_t records[34] = {1, 0};
    cb_ran r = cb_run(done, done_len, coming, CB_RUN_WORDS, 0, idx, NULL, 0, doubles, book_len, records, records_len, m, switches(),
                      allowance, depth);
    EXPECT(is_ran(r, number, 0, 0, 0, 0, 0));
    EXPECT(are_rows_kept());
}

static void run_refusal_cards(void) {
    lay_out(0);
    keep_rows();
    cb_matched good = matched(0), bad = good;
    bad.positions[2] = bad.positions[1];
    refused_run(CB_REFUSAL_SHAPE, CB_RUN_WORDS - CB_WORDS, CB_LIMIT, 7, 2, bad, 0x80000000, 1);
    refused_run(CB_REFUSAL_SHAPE, CB_RUN_WORDS, CB_LIMIT, 7, 3, bad, 0x80000000, 1);
    refused_run(CB_REFUSAL_SHAPE, CB_RUN_WORDS, CB_LIMIT, 7, 34, bad, 0x80000000, 1);
    refused_run(CB_REFUSAL_CURSOR, CB_RUN_WORDS, CB_LIMIT, 7, 2, bad, 0x80000000, 1);
    refused_run(CB_REFUSAL_LIMITS, CB_RUN_WORDS, CURSOR, 7, 2, bad, 0x80000000, 1);
    refused_run(CB_REFUSAL_LIMITS, CB_RUN_WORDS, CURSOR, 7, 2, bad, CB_MAX_ALLOWANCE, CB_MAX_DEPTH + 1);
    card("12", "runs that are wrong in everything: first 1, then 2, then 12; no word changed");
    refused_run(CB_REFUSAL_BOOK, CB_RUN_WORDS, CURSOR, 7, 2, bad, CB_MAX_ALLOWANCE, CB_MAX_DEPTH);
    card("11", "a book that doesn't read");
    refused_run(CB_REFUSAL_MATCH, CB_RUN_WORDS, CURSOR, 8, 2, bad, CB_MAX_ALLOWANCE, CB_MAX_DEPTH);
    bad = good;
    bad.number = CB_LOST;
    refused_run(CB_REFUSAL_MATCH, CB_RUN_WORDS, CURSOR, 8, 2, bad, 1, 1);
    bad = good;
    bad.end = CB_LIMIT - 1;
    refused_run(CB_REFUSAL_MATCH, CB_RUN_WORDS, CURSOR, 8, 2, bad, 1, 1);
    bad = good;
    bad.count = 65;
    refused_run(CB_REFUSAL_MATCH, CB_RUN_WORDS, CURSOR, 8, 2, bad, 1, 1);
    refused_run(CB_REFUSAL_MATCH, CB_RUN_WORDS, CURSOR - 1, 8, 2, good, 1, 1);
    card("7", "positions that don't rise, no success, an end before a position, 65 positions, another cursor");
    EXPECT(run(0, doubles, 8, CB_MAX_ALLOWANCE, CB_MAX_DEPTH).number == CB_ENDING_FINISHED);
    card("-", "the largest allowance and depth are taken");
}

/* ---- the examples that conchibaru.h gives, in its order */

static void digest_examples(void) {
    uint64_t m[3], o[3], r;
    uint32_t ids[2] = {5, 7};
    cb_digest_new(m);
    EXPECT(is_masks(m, 0, 0, 0));
    cb_digest_full(m);
    EXPECT(is_masks(m, UINT64_MAX, UINT64_MAX, UINT64_MAX));
    cb_digest_clear(m);
    EXPECT(is_masks(m, 0, 0, 0));
    cb_digest_new(o);
    cb_digest_add(o, 4660);
    cb_digest_add_array(m, ids, 2);
    cb_digest_union(m, o);
    EXPECT(is_masks(m, bit(0) | bit(35), bit(5) | bit(7) | bit(52), bit(0) | bit(8)));
    cb_digest_new(m);
    EXPECT(cb_digest_add_range(m, 62, 65));
    cb_digest_new(m);
    cb_digest_new(o);
    cb_digest_add(m, 5);
    cb_digest_add(o, 6);
    EXPECT(!cb_digest_may_intersect(m, o));
    r = cb_rule_set_digest_new();
    EXPECT(r == 0);
    r = cb_rule_set_digest_full();
    EXPECT(r == UINT64_MAX && cb_rule_set_digest_add(0, 65) == 2);
    EXPECT(cb_rule_set_digest_is_full(UINT64_MAX) && cb_rule_set_digest_may_have(2, 129));
}

static void other_examples(void) {
    uint64_t left[2];
    cb_budget_for_table_bytes(left, 16385);
    EXPECT(is_left(left, 4194560, 4194560));
    cb_budget_new(left, 10, 100);
    EXPECT(is_left(left, 10, 100) && !cb_budget_work(left, 11) && is_left(left, 10, 100));
    EXPECT(cb_budget_alloc(left, 25, 4) && is_left(left, 10, 0));

    uint32_t row[CB_WORDS] = {9, 1, CB_WORD_2(0, 0, CB_PROPS_MARK), ONE};
    cb_lookup l = {false, false, false, false, 1, CB_IGNORE_MARKS};
    cb_sought s = {CB_TEST_EQUAL, 0, 9};
    EXPECT(is_said(cb_may_skip(row, CB_WORDS, 0, l, false, NULL, 0), 0, CB_MAY_SKIP_YES));
    EXPECT(is_said(cb_may_match(row, CB_WORDS, 0, l, false, s), 0, CB_MAY_MATCH_YES));
    EXPECT(is_said(cb_verdict(row, CB_WORDS, 0, l, false, s, NULL, 0), 0, CB_VERDICT_SKIP));
    five_nine_seven(MARK);
    s.value = 7;
    EXPECT(is_step(cb_forward(coming_3, ROW_3, 3, 0, l, false, s, NULL, 0), 0, false, 2));
    s.value = 5;
    EXPECT(is_step(cb_backward(coming_3, ROW_3, 2, l, false, s, NULL, 0), 0, false, 0));

    uint32_t before[CB_WORDS], text[CB_WORDS * 2], v[1] = {7};
    static const uint16_t at_0_1[2] = {0, 1};
    put(before, 0, 7, 1, 0, ONE);
    put(text, 0, 5, 1, 0, ONE);
    put(text, 1, 7, 1, 0, ONE);
    EXPECT(is_matched(cb_match_input(NULL, 0, 0, text, CB_WORDS * 2, 2, 0, l, NULL, 0, CB_TEST_EQUAL, v, 1), 2, 2, 2, at_0_1));
    EXPECT(is_placed(cb_match_lookahead(NULL, 0, 0, text, CB_WORDS * 2, 2, 0, 1, l, NULL, 0, CB_TEST_EQUAL, v, 1), 0, 2));
    EXPECT(is_placed(cb_match_backtrack(before, CB_WORDS, 1, text, CB_WORDS * 2, 2, 0, l, NULL, 0, CB_TEST_EQUAL, v, 1), 0, 0));
    EXPECT(cb_book_reads(doubles, 8)); /* and cb_run's is K11 */
}

int main(void) {
    word_card();
    input_cards();
    digest_cards();
    allowance_cards();
    run_cards();
    value_card();
    question_card();
    walk_card();
    context_card();
    matcher_card();
    chain_card();
    shape_card();
    matcher_refusal_cards();
    run_refusal_cards();
    digest_examples();
    other_examples();
    card("-", "the examples in conchibaru.h");
    printf("%d cards, %d wrong\n", cards, wrong);
    return wrong != 0;
}
