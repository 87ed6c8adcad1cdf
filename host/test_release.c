/* Tests of mice_release as a C host sees it: against a plain counter, on random answers and at every boundary. See test.sh. */
#include <inttypes.h>

#include "lent.h"
#include "mice.h"

/* ---- random numbers, the same in every run */

static uint64_t state = UINT64_C(0x9E3779B97F4A7C15);

static uint64_t draw(void) {
    state ^= state << 13, state ^= state >> 7, state ^= state << 17;
    return state;
}

static uint64_t below(uint64_t n) { return draw() % n; }

/* ---- the plain counter: each figure by a walk of its own, the sum in two halves that can't overflow */

static int accepted(const uint64_t *answer) { return answer[0] == 0; }

static void plain(const uint64_t *answers, size_t len, uint64_t report[MICE_REPORT]) {
    size_t count = len / MICE_ANSWER;
    uint64_t low = 0, high = 0;
    memset(report, 0, MICE_REPORT * sizeof *report);
    if (len % MICE_ANSWER || count < 1 || count > MICE_RELEASE_ANSWERS) {
        report[0] = 33;
        return;
    }
    for (size_t i = 0; i < count; i++) {
        const uint64_t *a = answers + MICE_ANSWER * i;
        if (accepted(a)) low += a[2] & UINT32_MAX, high += a[2] >> 32;
    }
    high += low >> 32;
    if (high > UINT32_MAX) {
        report[0] = 34;
        return;
    }
    report[8] = high << 32 | (low & UINT32_MAX);
    for (size_t i = 0; i < count; i++) report[accepted(answers + MICE_ANSWER * i) ? 2 : 3]++;
    for (size_t i = count; i > 0; i--) {                        /* from the last, so that the first of equals stays */
        const uint64_t *a = answers + MICE_ANSWER * (i - 1);
        if (accepted(a) && (report[5] == 0 || a[2] <= report[4])) report[4] = a[2], report[5] = i;
        if (accepted(a) && (report[7] == 0 || a[2] >= report[6])) report[6] = a[2], report[7] = i;
    }
}

/* ---- one call */

static int seen[35];

/* Calls it in both modes with a report slice of `room` places and compares everything that it could touch. */
static void reports(const char *name, const uint64_t *answers, size_t len, size_t room) {
    uint64_t *fill = places(room), want[MICE_REPORT];
    plain(answers, len, want);
    for (enum mode mode = EXACT; mode <= GUARDED; mode++) {
        struct block ab = lend(mode, 8 * len, answers), rb = lend(mode, 8 * room, fill);
        uint64_t got = mice_release((uint64_t *)ab.data, len, (uint64_t *)rb.data, room);
        calls++;
        expect(got == (room < MICE_REPORT ? 13 : want[0]), name, "the returned number");
        take(ab, NULL, 0, name, "the answers were changed");
        take(rb, want, room < MICE_REPORT ? 0 : sizeof want, name, "the report slice");
        if (got < sizeof seen / sizeof *seen) seen[got]++;
    }
    free(fill);
}

/* ---- lists of answers */

enum { MOST = MICE_ANSWER * (MICE_RELEASE_ANSWERS + 1) + MICE_ANSWER };
static uint64_t list[MOST];

/* A total of one of four kinds: few values, so that many are equal; any; so large that few of `count` fit; at an end. */
static uint64_t total(int kind, size_t count) {
    switch (kind) {
    case 0: return below(4);
    case 1: return draw();
    case 2: return UINT64_MAX / (count ? count : 1) - below(3);
    default: return below(2) ? UINT64_MAX - below(2) : below(2);
    }
}

/* Fills the list with answers: a refused one has any number, and any total, which is not to be read. */
static void fill_list(size_t count, uint64_t refusing) {
    int kind = (int)below(4);
    for (size_t i = 0; i < MOST / MICE_ANSWER; i++) {
        uint64_t *a = list + MICE_ANSWER * i;
        int refused = below(8) < refusing;
        a[0] = refused ? (below(2) ? 1 + below(34) : draw() | 1) : 0;
        a[1] = draw();
        a[2] = refused && below(2) ? draw() : total(kind, count);
    }
}

static void random_lists(void) {
    static const size_t counts[] = {0, 1, 2, 3, 5, 8, 40, 999, 1000, 1001};
    for (int k = 0; k < 4000; k++) {
        size_t count = below(3) ? below(12) : counts[below(sizeof counts / sizeof *counts)];
        fill_list(count, below(9));
        size_t len = MICE_ANSWER * count + (below(6) ? 0 : below(MICE_ANSWER));
        size_t room = below(8) ? MICE_REPORT + below(4) : below(MICE_REPORT);
        reports("a random list", list, len, room);
    }
}

/* The last accepted total brings the sum to 2^64 - 1 exactly, or one past it. */
static void sums_at_the_limit(void) {
    for (size_t count = 1; count <= MICE_RELEASE_ANSWERS; count += count < 20 ? 1 : 49) {
        fill_list(count, 3);
        uint64_t sum = 0, *last = list + MICE_ANSWER * (count - 1);
        for (uint64_t *a = list; a < last; a += MICE_ANSWER) {
            a[2] %= UINT64_MAX / 1000;
            if (accepted(a)) sum += a[2];
        }
        last[0] = 0;
        for (int past = 0; past < 2; past++) {
            if (past && sum == 0) continue;                     /* one past would not fit into a place */
            last[2] = UINT64_MAX - sum + (uint64_t)past;
            int before = seen[34];
            reports(past ? "one past the largest sum" : "the largest sum", list, MICE_ANSWER * count, MICE_REPORT);
            expect(seen[34] == before + 2 * past, "the largest sum", "not the answer that was aimed at");
        }
    }
    list[2] = UINT64_MAX, list[0] = list[MICE_ANSWER] = 0;
    for (uint64_t k = 0; k < 2; k++) {
        list[MICE_ANSWER + 2] = k;
        reports("the largest total and one more", list, 2 * MICE_ANSWER, MICE_REPORT);
        reports("the same with a place left over", list, 2 * MICE_ANSWER + 1, MICE_REPORT);       /* 33 before 34 */
    }
}

static void boundaries(void) {
    for (uint64_t refusing = 0; refusing <= 8; refusing += 4) {             /* none, some and all are refused */
        fill_list(4, refusing);
        for (size_t room = 0; room <= MICE_REPORT + 3; room++)
            for (size_t len = 0; len <= 4 * MICE_ANSWER; len++) reports("a short list", list, len, room);
        for (size_t len = MICE_ANSWER * (MICE_RELEASE_ANSWERS - 1); len <= MICE_ANSWER * (MICE_RELEASE_ANSWERS + 1); len++)
            reports("a long list", list, len, MICE_REPORT);
    }
    uint64_t of[MICE_REPORT];
    expect(mice_release(NULL, 0, NULL, 0) == 13, "nothing lent", "the returned number");
    expect(mice_release(NULL, 0, of, MICE_REPORT) == 33 && of[0] == 33 && of[8] == 0, "no answers", "the report");
    size_t huge = (size_t)1 << 20;
    uint64_t *zeros = calloc(huge, 8);
    if (!zeros) abort();
    expect(mice_release(zeros, huge, of, MICE_REPORT) == 33 && of[2] == 0, "a huge list", "the report");
    calls += 3;
    free(zeros);
}

int main(void) {
    setvbuf(stdout, NULL, _IOLBF, 0);           /* what failed is seen even if a later call crashes */
    boundaries();
    sums_at_the_limit();
    random_lists();
    printf("%d calls, %d failures: %d reports, %d of 33, %d of 34, %d of 13\n", calls, failures, seen[0], seen[33], seen[34], seen[13]);
    return failures != 0 || !seen[0] || !seen[33] || !seen[34] || !seen[13];
}
