/* A pack, a formula and its trace in two files, and its check: what the commands share. */
#ifndef PACK_H
#define PACK_H

#include <errno.h>
#include <inttypes.h>
#include <stdio.h>
#include <string.h>

#include "mice.h"

/* Exit status of a command. */
enum { ACCEPTED = 0, REFUSED = 1, TROUBLE = 2 };

static const char *command;                     /* its name, for what it says on standard error */

/* One byte more than is legal of either file, so that one too long is seen. */
static uint8_t text[MICE_TEXT_BYTES + 1];
static uint8_t bytes[2 * MICE_WORDS + 1];
static int16_t formula[MICE_WORDS], trace[MICE_WORDS];
static size_t formula_len, trace_len;
static uint64_t counts[MICE_CLAIMS];

static int trouble(const char *doing, const char *what) {
    fprintf(stderr, "%s: %s %s: %s\n", command, doing, what, strerror(errno));
    return TROUBLE;
}

/* The first `size` bytes of a file and in `len` how many there are; 0, or TROUBLE after saying so. */
static int load(const char *name, uint8_t *into, size_t size, size_t *len) {
    FILE *file = fopen(name, "rb");
    if (!file) return trouble("can't open", name);
    *len = fread(into, 1, size, file);
    int status = ferror(file) ? trouble("can't read", name) : 0;
    fclose(file);
    return status;
}

static int refuse(uint64_t answer[MICE_ANSWER], uint64_t number, uint64_t place) {
    memset(answer, 0, MICE_ANSWER * sizeof *answer);
    answer[0] = number, answer[1] = place;
    return REFUSED;
}

/* Checks the pack of two files. ACCEPTED or REFUSED with the answer, or TROUBLE after saying what. As in the proved program, a
 * refused text ends it and the trace is not looked at. */
static int check_pack(const char *formula_name, const char *trace_name, uint64_t answer[MICE_ANSWER]) {
    size_t text_len, byte_len;
    if (load(formula_name, text, sizeof text, &text_len)) return TROUBLE;
    if (mice_read(text, text_len, formula, MICE_WORDS, answer, MICE_ANSWER)) return REFUSED;
    formula_len = answer[2];

    if (load(trace_name, bytes, sizeof bytes, &byte_len)) return TROUBLE;
    if (byte_len > 2 * MICE_WORDS) return refuse(answer, MICE_TRACE_WORDS, MICE_WORDS);
    trace_len = byte_len / 2;
    if (byte_len % 2) return refuse(answer, MICE_TRACE_WORDS, trace_len);
    for (size_t i = 0; i < trace_len; i++) {
        int32_t word = bytes[2 * i] + 256 * bytes[2 * i + 1];       /* low byte first */
        trace[i] = (int16_t)(word < 32768 ? word : word - 65536);
    }
    return mice_check(formula, formula_len, trace, trace_len, counts, MICE_CLAIMS, answer, MICE_ANSWER) ? REFUSED : ACCEPTED;
}

static int refused(uint64_t number, uint64_t place) {
    printf("refused %" PRIu64 " at %" PRIu64 "\n", number, place);
    return REFUSED;
}

/* The status of a command that has printed all it had to. */
static int done(int status) {
    if (fflush(stdout) || ferror(stdout)) return trouble("can't write to", "standard output");
    return status;
}

#endif
