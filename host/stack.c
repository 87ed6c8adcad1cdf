/* How much stack the functions use: a thread's stack is painted, the function called, and the deepest byte that lost its
 * paint looked up. Space that is reserved but never written does not show, so several inputs are tried, full-size ones too. */
#define _GNU_SOURCE
#include <pthread.h>
#include <string.h>
#include <sys/mman.h>

#include "words.h"

enum { STACK = 16 << 20, PAINT = 0xA5 };

struct call {
    const char *name;
    const struct words *formula, *trace;        /* a check .. */
    const char *text;                           /* .. or, when there is one, a reading .. */
    size_t text_len;
    size_t answers_len;                         /* .. or, when there are answers, a report */
    uintptr_t top;                              /* where the call began */
    uint64_t returned;
};

static uint64_t counts[MICE_CLAIMS], answer[MICE_ANSWER], answers[MICE_ANSWER * MICE_RELEASE_ANSWERS], report[MICE_REPORT];
static int16_t room[MICE_WORDS];

static void *make_call(void *of) {
    struct call *c = of;
    c->top = (uintptr_t)__builtin_frame_address(0);
    c->returned = c->text          ? mice_read((const uint8_t *)c->text, c->text_len, room, MICE_WORDS, answer, MICE_ANSWER)
                  : c->answers_len ? mice_release(answers, c->answers_len, report, MICE_REPORT)
                                   : mice_check(c->formula->at, c->formula->len, c->trace->at, c->trace->len, counts, MICE_CLAIMS,
                                                answer, MICE_ANSWER);
    return NULL;
}

static size_t depth(struct call *c) {
    uint8_t *stack = mmap(NULL, STACK, PROT_READ | PROT_WRITE, MAP_PRIVATE | MAP_ANONYMOUS | MAP_STACK, -1, 0);
    pthread_attr_t attr;
    pthread_t thread;
    if (stack == MAP_FAILED) abort();
    memset(stack, PAINT, STACK);
    pthread_attr_init(&attr);
    if (pthread_attr_setstack(&attr, stack, STACK) || pthread_create(&thread, &attr, make_call, c) || pthread_join(thread, NULL))
        abort();
    pthread_attr_destroy(&attr);
    uint8_t *low = stack;
    while (*low == PAINT) low++;
    size_t used = c->top - (uintptr_t)low;
    munmap(stack, STACK);
    return used;
}

int main(void) {
    struct full lists = full_lists(), steps = full_steps(), premises = full_premises();
    struct words *p1 = line("2 2 1 1 1 2"), *bad = line("1 0 0 0 0 7");
    struct words *t1 = line("1 2 0 2 1 2 2 0 2 1 2 1 2 1 1 1 3 1 1 -2 2 1 2 4 1 0 4 2 3 1 1 1 0 4 2 2 1 1 2 2 1 2 1 2");
    const char *small = "p cnf 2 2\n1 0\n2 0\n";
    static char large[MICE_TEXT_BYTES];
    size_t len = (size_t)sprintf(large, "p cnf 512 2048\n");
    for (int i = 0; i < 2048 && len + 31 < sizeof large; i++) {
        for (int v = 9; v > 0; v--) len += (size_t)sprintf(large + len, "%d ", v);
        len += (size_t)sprintf(large + len, "-%d 0\n", 10 + i % 90);
    }
    struct call calls[] = {
        {.name = "check, P1", .formula = p1, .trace = t1},
        {.name = "check, malformed", .formula = p1, .trace = bad},
        {.name = "check, long lists", .formula = lists.formula, .trace = lists.trace},
        {.name = "check, long refutations", .formula = steps.formula, .trace = steps.trace},
        {.name = "check, many premises", .formula = premises.formula, .trace = premises.trace},
        {.name = "read, P1", .text = small, .text_len = strlen(small)},
        {.name = "read, full size", .text = large, .text_len = len},
        {.name = "read, cut in a clause", .text = large, .text_len = len / 2},
        {.name = "release, 1,000 answers", .answers_len = MICE_ANSWER * MICE_RELEASE_ANSWERS},
    };
    size_t most = 0;
    printf("%-26s%8s%16s\n", "call", "answer", "stack in bytes");
    for (size_t i = 0; i < sizeof calls / sizeof *calls; i++) {
        size_t used = depth(&calls[i]);
        printf("%-26s%8d%16zu\n", calls[i].name, (int)calls[i].returned, used);
        if (used > most) most = used;
    }
    printf("most: %zu bytes, %zu KiB\n", most, (most + 1023) / 1024);
    return 0;
}
