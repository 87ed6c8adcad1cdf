/* Formula and trace words for the host's tests: from a readable line, and of full size. */
#ifndef WORDS_H
#define WORDS_H

#include <stdint.h>
#include <stdio.h>
#include <stdlib.h>

#include "mice.h"

struct words {
    size_t len;
    int16_t at[MICE_WORDS + 1];
};

static void put(struct words *w, long value) {
    if (w->len == MICE_WORDS + 1) abort();
    w->at[w->len++] = (int16_t)value;
}

/* Words from a line as `2 1 -3`; `1..64` stands for 1, 2 and so on to 64. */
static struct words *line(const char *text) {
    struct words *w = calloc(1, sizeof *w);
    if (!w) abort();
    for (char *end;; text = end) {
        long value = strtol(text, &end, 10);
        if (end == text) return w;
        put(w, value);
        if (end[0] != '.') continue;
        for (long last = strtol(end + 2, &end, 10); value < last;) put(w, ++value);
    }
}

static void put_line(struct words *w, const char *text) {
    struct words *more = line(text);
    for (size_t i = 0; i < more->len; i++) put(w, more->at[i]);
    free(more);
}

/* A check of full size: `trace` has 32,767 words (or as many whole claims as fit) and all its claims hold. */
struct full {
    const char *name;
    struct words *formula, *trace;
    uint64_t number, place, total;
};

/* 2,048 clauses over 240 variables, 32,767 formula words; long lists of clauses, and 1,023 claims with all of either. */
static struct full full_lists(void) {
    struct words *f = line("512 2048"), *t = line("1");
    for (int i = 0; i < 2048; i++) {
        int len = i < 2045 ? 15 : 14;
        put(f, len);
        for (int k = 0; k < len; k++) put(f, 1 + i % 16 + 34 * k);
    }
    size_t left = MICE_WORDS - (1 + 1 + 1 + 2049) - (2 + 241) - 1 - (1 + 4 + 1023 * 5);     /* words that the rest takes */
    put(t, 2 + (long)((left + 2048) / 2049));
    put_line(t, "0 2048 1..2048");
    while (left > 0) {                                  /* more lists fill the trace to its last word */
        long len = left > 2049 ? 2048 : (long)left - 1;
        put(t, len);
        for (long i = 1; i <= len; i++) put(t, i);
        left -= (size_t)len + 1;
    }
    put_line(t, "2 0 240");
    for (int k = 0; k < 15; k++)
        for (int i = 0; i < 16; i++) put(t, 1 + i + 34 * k);
    put_line(t, "0 1024 1 1 1 0");
    for (int k = 2; k <= 1024; k++) put_line(t, "4 2 2 1 1");
    return (struct full){"long lists", f, t, MICE_NOT_WHOLE, 1024, 0};
}

/* P1's composition with refutations of 1,024 steps, cited again and again. */
static struct full full_steps(void) {
    struct words *t = line("1 2 0 2 1 2 2 0 2 1 2 4");
    for (int r = 0; r < 4; r++) {
        put(t, 1024);
        for (int s = 1; s <= 1023; s++) put_line(t, "1 1 1 3 1 1 -2");
        put_line(t, "2 1 2 4 1023 0 4 1024");
    }
    size_t claims = 2 + (MICE_WORDS - t->len - 1 - 9) / 6;
    put(t, (long)claims);
    put_line(t, "1 1 1 0 4 2 2 1 1");
    for (size_t k = 3; k <= claims; k++) put_line(t, "2 2 1 2"), put(t, (long)(k % 4) + 1), put(t, 2);
    return (struct full){"long refutations", line("2 2 1 1 1 2"), t, MICE_ACCEPTED, 0, 1};
}

/* Every setting of six variables but one satisfies {1, .., 6}: compositions of 63 premises, again and again. */
static struct full full_premises(void) {
    struct words *t = line("1 2 0 1 1 65 0");
    for (int s = 0; s < 64; s++) {                      /* assumption s + 2 is setting s; bit v - 1 of s sets v */
        put(t, 6);
        for (int v = 1; v <= 6; v++) put(t, s >> (v - 1) & 1 ? v : -v);
    }
    /* The refutation resolves variable 6, then 5 and so on: node p of level v is what the first v variables as in p refute. */
    put_line(t, "1 63");
    int first = 1, before = 0;                          /* step numbers where this level and the one under it begin */
    for (int v = 5; v >= 0; before = first, first += 1 << v, v--)
        for (int p = 0; p < 1 << v; p++) {
            put(t, v + 1);
            for (int side = 0; side < 2; side++) {      /* left: v + 1 is false, so its clause has +(v + 1) */
                int below = p | side << v;
                if (v < 5) put(t, 4), put(t, before + below);
                else if (below == 0) put(t, 1), put(t, 1);
                else put(t, 3), put(t, below);
            }
            put(t, v);
            for (int u = 1; u <= v; u++) put(t, p >> (u - 1) & 1 ? -u : u);
        }
    put_line(t, "4 63");
    size_t claims = 64 + (MICE_WORDS - t->len - 1 - 4 - 63 * 5) / 68;
    put(t, (long)claims);
    put_line(t, "1 1 1 0");
    for (int s = 1; s < 64; s++) put_line(t, "4 2"), put(t, s + 2), put_line(t, "1 1");
    for (size_t k = 65; k <= claims; k++) put_line(t, "2 2 1 64 1 2..64");
    return (struct full){"many premises", line("6 1 6 1..6"), t, MICE_ACCEPTED, 0, 63};
}

#endif
