/* How much stack cb_run takes: paints what lies below it, calls it, and looks how far down something was written. link/run prints what this
 * says of x86-64; nothing promises it. The book nests a chain in itself as deep as it may, with a value in each direction, so that every
 * matcher is asked on every level. */
#include <stdio.h>

#include "conchibaru.h"

enum { ROOM = 1 << 20, PAINT = 0xA5, CURSOR = CB_LIMIT - 3 }; /* the cursor stands at three glyphs that end the row */
static uint32_t done[CB_RUN_WORDS], coming[CB_RUN_WORDS];

/* Both have the same frame, in which the room lies below everything else; what is called between them comes to lie in it. */
static size_t room(bool paints) {
    volatile unsigned char below[ROOM];
    size_t i = 0;
    if (paints)
        for (; i < ROOM; i++) below[i] = PAINT;
    while (i < ROOM && below[i] == PAINT) i++;
    return ROOM - i;
}
static size_t (*volatile asked)(bool) = room;

static cb_ran run(size_t depth) {
    /* id 2 with 1 before it, 3 and 4 behind it: once more the same lookup */
    static const uint16_t book[14] = {3, 0, 0, 10, 2, 1, 1, 1, 3, 1, 4, 1, 0, 0}, records[2] = {0, 0};
    cb_matched matched = {0};
    cb_switches switches = {false, false, false, 1};
    for (size_t i = 0; i < CB_RUN_WORDS; i++) done[i] = coming[i] = 0;
    for (size_t i = 0; i < 4; i++) {
        uint32_t *glyph = i == 0 ? done : coming + CB_WORDS * (CURSOR + i - 1);
        glyph[0] = (uint32_t)i + 1;
        glyph[1] = 1;
        glyph[3] = 0x101;
    }
    matched.total = 2;
    matched.end = CURSOR + 2;
    matched.count = 2;
    matched.positions[0] = CURSOR;
    matched.positions[1] = CURSOR + 1;
    return cb_run(done, CB_RUN_WORDS, coming, CB_RUN_WORDS, 1, CURSOR, NULL, 0, book, 14, records, 2, matched, switches, 4096, depth);
}
static cb_ran (*volatile runs)(size_t) = run;

int main(void) {
    size_t depths[3] = {1, 2, 64}, taken[3];
    for (int k = 0; k < 3; k++) {
        asked(true);
        cb_ran ran = runs(depths[k]);
        taken[k] = asked(false);
        if (ran.number != CB_ENDING_DEEP || ran.spent != depths[k]) return 1;
    }
    printf("cb_run took %u bytes of stack with depth 1, %u with 2, %u with 64\n", (unsigned)taken[0], (unsigned)taken[1], (unsigned)taken[2]);
    return 0;
}
