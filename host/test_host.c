/* Tests of the library as a C host sees it: whole lent blocks, empty slices, limits, little stack. See test.sh. */
#include <inttypes.h>
#include <pthread.h>
#include <string.h>

#include "lent.h"
#include "words.h"

#ifndef STACK_KIB
#define STACK_KIB 256
#endif

/* ---- the check */

/* Calls the check in both modes and compares everything it could touch. `counts`: those written, as a list of `held`. */
static void checks(const char *name, const struct words *f, const struct words *t, size_t room, size_t answer,
                   uint64_t number, uint64_t place, uint64_t total, const uint64_t *counts, size_t held) {
    uint64_t *fill = places(room > answer ? room : answer), result[3] = {number, place, total};
    for (enum mode mode = EXACT; mode <= GUARDED; mode++) {
        struct block fb = lend(mode, 2 * f->len, f->at), tb = lend(mode, 2 * t->len, t->at);
        struct block cb = lend(mode, 8 * room, fill), ab = lend(mode, 8 * answer, fill);
        uint64_t got = mice_check((int16_t *)fb.data, f->len, (int16_t *)tb.data, t->len, (uint64_t *)cb.data, room,
                                  (uint64_t *)ab.data, answer);
        calls++;
        expect(got == (answer < 3 ? 13 : number), name, "the returned number");
        take(fb, NULL, 0, name, "the formula was changed");
        take(tb, NULL, 0, name, "the trace was changed");
        take(cb, counts, answer < 3 ? 0 : 8 * held, name, "the count room");
        take(ab, result, answer < 3 ? 0 : 24, name, "the answer slice");
    }
    free(fill);
}

struct example {
    const char *name, *formula, *trace;
    uint64_t number, place, total;
    size_t held;
    uint64_t counts[9];
    size_t claims;
};

#define P1_TRACE(third, last) \
    "1 2 0 2 1 2 2 0 2 1 2 1 2 1 1 1 3 1 1 " third " 2 1 2 4 1 0 4 2 3 1 1 1 0 4 2 2 1 1 2 2 1 2 1 " last

/* P1 to P10 of the scope document. P5 and P9 hold but speak of an assumption, so they end in 29. */
static const struct example examples[] = {
    {"P1", "2 2 1 1 1 2", P1_TRACE("-2", "2"), 0, 0, 1, 3, {1, 1, 1}, 3},
    {"P2", "2 2 1 1 1 2", P1_TRACE("-2", "3"), 22, 3, 0, 2, {1, 1}, 3},
    {"P3", "2 2 1 1 1 2", P1_TRACE("2", "2"), 25, 3, 0, 2, {1, 1}, 3},
    /* claim 5: A = {-1, -4}, 3; claims 6 to 8: {1, 4}, {1, -4} and {-1, -4} over all clauses */
    {"P4", "4 2 3 1 2 3 2 1 -4",
     "1 3 0 1 1 2 1 2 8 0 3 -1 2 3 3 -1 2 -3 3 -1 -2 3 1 -1 2 1 4 2 1 -4 2 -1 -4 2 4 3 1 1 3 3 2 1 2 3 3 2 3 1 2 1 -2 2 4 1 "
     "4 2 1 1 1 4 3 2 -1 0 4 4 3 4 3 2 3 1 1 -1 4 3 3 1 2 1 1 1 4 2 4 1 0 4 3 9 1 1 1 0 4 2 2 1 1 4 2 3 1 1 4 2 4 1 1 "
     "2 2 5 4 1 2 3 4 4 3 6 1 1 4 3 7 1 1 4 3 8 1 5 2 3 1 4 2 6 7 8",
     0, 0, 11, 9, {1, 1, 1, 1, 3, 4, 4, 3, 11}, 9},
    {"P5", "4 2 3 1 2 3 2 1 -4", "1 4 0 1 1 1 2 2 1 2 2 0 1 1 0 4 1 1 1 0 4 2 2 1 1 4 3 2 1 1 3 4 2 2 2 3",
     29, 4, 0, 4, {1, 4, 2, 8}, 4},
    {"P6", "0 0", "1 1 0 1 0 0 1 1 1 1 0", 0, 0, 1, 1, {1}, 1},
    {"P7", "0 0", "1 1 0 1 0 0 0", 29, 0, 0, 0, {0}, 0},
    {"P8", "0 1 0", "1 1 1 1 1 0 1 0 1 1 1 2 1 1 1 1", 0, 0, 0, 1, {0}, 1},
    {"P9", "64 1 64 1..64", "1 2 0 1 1 2 0 1 1 0 2 1 1 1 0 4 2 2 1 1", 29, 2, 0, 2, {1, UINT64_C(9223372036854775808)}, 2},
    {"P10", "65 2 64 1..64 2 1 65", "1 2 0 2 1 2 2 0 1 1 0 2 1 1 1 0 4 2 2 1 1", 28, 2, 0, 1, {1}, 2},
};

static void examples_hold(void) {
    for (size_t i = 0; i < sizeof examples / sizeof *examples; i++) {
        const struct example *e = &examples[i];
        struct words *f = line(e->formula), *t = line(e->trace);
        for (size_t answer = 0; answer <= 5; answer++)
            for (size_t room = 0; room <= e->claims + 2; room++)
                if (room < e->claims) checks(e->name, f, t, room, answer, 13, e->claims, 0, NULL, 0);
                else checks(e->name, f, t, room, answer, e->number, e->place, e->total, e->counts, e->held);
        free(f), free(t);
    }
}

static void check_ends(void) {
    struct words *none = line(""), *f = line("0 0"), *t = line("1 1 0 1 0 0 1 1 1 1 0"), *bad = line("-1"), *many = line("");
    while (many->len < MICE_WORDS + 1) put(many, 9);
    uint64_t one = 1;
    checks("nothing lent", none, none, 0, 0, 13, 0, 0, NULL, 0);
    checks("no formula", none, none, 0, 3, 11, 0, 0, NULL, 0);
    checks("no trace", f, none, 0, 3, 12, 0, 0, NULL, 0);
    checks("formula over the limit", many, t, 1, 3, 11, MICE_WORDS, 0, NULL, 0);
    checks("trace over the limit", f, many, 1, 3, 12, MICE_WORDS, 0, NULL, 0);
    checks("formula malformed, trace over the limit", bad, many, 1, 3, 11, 0, 0, NULL, 0);
    checks("both over the limit, answer short", many, many, 1, 2, 13, 0, 0, NULL, 0);
    many->len = MICE_WORDS;
    checks("formula at the limit", many, t, 1, 3, 11, 4, 0, NULL, 0);      /* the second literal doesn't rise */
    checks("a long count room", f, t, 5000, 3, 0, 0, 1, &one, 1);
    for (size_t len = 0; len < t->len; len++) {                 /* every early end is at the length */
        struct words *cut = line("1 1 0 1 0 0 1 1 1 1 0");
        cut->len = len;
        checks("an early end", f, cut, 2, 4, 12, len, 0, NULL, 0);
        free(cut);
    }
    /* far over the limit, in memory that is really there */
    size_t huge = (size_t)1 << 20;
    int16_t *zeros = calloc(huge, 2);
    uint64_t a[3];
    if (!zeros) abort();
    expect(mice_check(zeros, huge, t->at, t->len, NULL, 0, a, 3) == 11 && a[1] == MICE_WORDS, "a huge formula", "the answer");
    expect(mice_check(f->at, f->len, zeros, huge, NULL, 0, a, 3) == 12 && a[1] == MICE_WORDS, "a huge trace", "the answer");
    expect(mice_read((uint8_t *)zeros, 2 * huge, NULL, 0, a, 3) == 1 && a[1] == MICE_TEXT_BYTES, "a huge text", "the answer");
    calls += 3;
    free(zeros);
    free(none), free(f), free(t), free(bad), free(many);
}

/* ---- the text */

static void reads(const char *name, const void *text, size_t text_len, size_t room, size_t answer, uint64_t number, uint64_t place,
                  const struct words *written) {
    size_t len = written ? written->len : 0;
    uint64_t *fill = places(answer), result[3] = {number, place, len};
    struct words *words = line("");
    while (words->len < MICE_WORDS) put(words, -21931);
    for (enum mode mode = EXACT; mode <= GUARDED; mode++) {
        struct block tb = lend(mode, text_len, text), rb = lend(mode, 2 * room, words->at), ab = lend(mode, 8 * answer, fill);
        uint64_t got = mice_read(tb.data, text_len, (int16_t *)rb.data, room, (uint64_t *)ab.data, answer);
        calls++;
        expect(got == (answer < 3 ? 13 : number), name, "the returned number");
        take(tb, NULL, 0, name, "the text was changed");
        take(rb, written ? written->at : NULL, answer < 3 ? 0 : 2 * len, name, "the room");
        take(ab, result, answer < 3 ? 0 : 24, name, "the answer slice");
    }
    free(fill), free(words);
}

static void texts(void) {
    const char *p1 = "p cnf 2 2\n1 0\n2 0\n";
    struct words *w = line("2 2 1 1 1 2");
    for (size_t answer = 0; answer <= 5; answer++)
        for (size_t room = 0; room <= w->len + 2; room++)
            if (room < w->len) reads("room too short", p1, strlen(p1), room, answer, 7, strlen(p1), NULL);
            else reads("P1's text", p1, strlen(p1), room, answer, 0, 0, w);
    for (size_t len = 0; len + 2 < strlen(p1); len++)           /* an early end: header absent or faulty, then clauses missing */
        reads("an early end", p1, len, 9, 3, len < 9 ? 2 : 6, len < 9 ? 0 : len, NULL);
    free(w);
    static const struct { const char *text; uint64_t number, place; } faulty[] = {
        {"", 2, 0}, {"c only\n\n", 2, 8}, {"p cnf 513 1\n", 2, 0}, {"p cnf 2 1\n1x 0\n", 3, 10}, {"p cnf 2 1\n3 0\n", 4, 10},
        {"p cnf 2 1\n1 -1 0\n", 5, 12}, {"p cnf 1 0\n0\n", 6, 10}, {"p cnf 2 2\n1 0\n", 6, 14},
    };
    for (size_t i = 0; i < sizeof faulty / sizeof *faulty; i++)
        reads(faulty[i].text, faulty[i].text, strlen(faulty[i].text), 99, 3, faulty[i].number, faulty[i].place, NULL);
    w = line("3 2 3 1 -2 3 0");
    const char *mixed = "c\n \np\tcnf 3 2\r\n3 1\nc 9\n-2 0 0";
    reads("rising order", mixed, strlen(mixed), 50, 4, 0, 0, w);
    free(w);

    char *blank = malloc(MICE_TEXT_BYTES + 1);
    if (!blank) abort();
    memset(blank, ' ', MICE_TEXT_BYTES + 1);
    reads("one byte too many", blank, MICE_TEXT_BYTES + 1, 3, 3, 1, MICE_TEXT_BYTES, NULL);
    reads("blanks to the limit", blank, MICE_TEXT_BYTES, 3, 3, 2, MICE_TEXT_BYTES, NULL);
    memcpy(blank, "p cnf 0 0\n", 10);
    w = line("0 0");
    reads("a sound text to the limit", blank, MICE_TEXT_BYTES, 3, 3, 0, 0, w);
    free(w), free(blank);
}

/* ---- full size, on little stack */

struct errand {
    struct full full;
    uint64_t counts[MICE_CLAIMS], answer[MICE_ANSWER], returned;
};

static void *run_errand(void *of) {
    struct errand *e = of;
    e->returned = mice_check(e->full.formula->at, e->full.formula->len, e->full.trace->at, e->full.trace->len, e->counts,
                             MICE_CLAIMS, e->answer, MICE_ANSWER);
    return NULL;
}

static void full_size(void) {
    struct full fulls[] = {full_lists(), full_steps(), full_premises()};
    for (size_t i = 0; i < 3; i++) {
        static struct errand e;
        e = (struct errand){.full = fulls[i]};
        const char *name = fulls[i].name;
        pthread_attr_t attr;
        pthread_t thread;
        expect(fulls[i].trace->len > MICE_WORDS - 68 && fulls[i].trace->len <= MICE_WORDS, name, "not of full size");
        pthread_attr_init(&attr);
        expect(pthread_attr_setstacksize(&attr, STACK_KIB * 1024) == 0, name, "stack size refused");
        if (pthread_create(&thread, &attr, run_errand, &e) || pthread_join(thread, NULL)) abort();
        pthread_attr_destroy(&attr);
        calls++;
        expect(e.returned == fulls[i].number && e.answer[0] == e.returned, name, "the returned number");
        expect(e.answer[1] == fulls[i].place, name, "the place");
        expect(e.answer[2] == fulls[i].total, name, "the total");
        free(fulls[i].formula), free(fulls[i].trace);
    }
}

int main(void) {
    setvbuf(stdout, NULL, _IOLBF, 0);           /* what failed is seen even if a later call crashes */
    examples_hold();
    check_ends();
    texts();
    full_size();
    printf("%d calls, %d failures, threads with %d KiB of stack\n", calls, failures, STACK_KIB);
    return failures != 0;
}
