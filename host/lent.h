/* Lent blocks for the host's tests: what a call may touch, and that it touched nothing else. */
#ifndef LENT_H
#define LENT_H

#include <stdint.h>
#include <stdio.h>
#include <stdlib.h>
#include <string.h>

static int calls, failures;

static void expect(int holds, const char *name, const char *what) {
    if (holds) return;
    failures++;
    printf("FAILED %s: %s\n", name, what);
}

/* EXACT: a heap block of just that size, NULL when empty, so that valgrind sees a step beyond it. GUARDED: with guards. */
enum mode { EXACT, GUARDED };
enum { GUARD = 64 };

struct block {
    enum mode mode;
    size_t bytes;
    uint8_t *base, *data, *before;              /* before: what it holds at the call */
};

static struct block lend(enum mode mode, size_t bytes, const void *content) {
    struct block b = {mode, bytes, NULL, NULL, malloc(bytes + 1)};
    if (mode == GUARDED || bytes > 0) b.base = malloc(mode == GUARDED ? bytes + 2 * GUARD : bytes);
    if (!b.before || (!b.base && bytes > 0)) abort();
    b.data = mode == GUARDED ? b.base + GUARD : b.base;
    if (mode == GUARDED) memset(b.base, 0x5A, bytes + 2 * GUARD);
    if (bytes > 0) memcpy(b.data, content, bytes), memcpy(b.before, content, bytes);
    return b;
}

/* Takes a block back: its first bytes are now `written`, the others and the guards as they were. */
static void take(struct block b, const void *written, size_t bytes, const char *name, const char *what) {
    if (bytes > b.bytes) bytes = b.bytes, expect(0, name, "more expected than lent");
    expect(bytes == 0 || memcmp(b.data, written, bytes) == 0, name, what);
    expect(b.bytes == bytes || memcmp(b.data + bytes, b.before + bytes, b.bytes - bytes) == 0, name, what);
    for (int i = 0; b.mode == GUARDED && i < GUARD; i++)
        expect(b.base[i] == 0x5A && b.data[b.bytes + (size_t)i] == 0x5A, name, "a guard was overwritten");
    free(b.base), free(b.before);
}

static uint64_t *places(size_t len) {
    uint64_t *p = malloc(8 * len + 1);
    if (!p) abort();
    for (size_t i = 0; i < len; i++) p[i] = UINT64_C(0xA5A5A5A500000000) + i;
    return p;
}

#endif
