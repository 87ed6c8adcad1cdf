/* The library with one fault, chosen by MICE_FAULT in the environment, in rare cases only: the fuzz run has to find each.
 * See test.sh. The sound functions are there under the names sound_check and sound_read. */
#include <stdlib.h>

#include "mice.h"

uint64_t sound_check(const int16_t *, size_t, const int16_t *, size_t, uint64_t *, size_t, uint64_t *, size_t);
uint64_t sound_read(const uint8_t *, size_t, int16_t *, size_t, uint64_t *, size_t);

static int fault(void) {
    static int chosen = -1;
    if (chosen < 0) chosen = getenv("MICE_FAULT") ? atoi(getenv("MICE_FAULT")) : 0;
    return chosen;
}

uint64_t mice_check(const int16_t *formula, size_t formula_len, const int16_t *trace, size_t trace_len, uint64_t *counts,
                    size_t counts_len, uint64_t *answer, size_t answer_len) {
    uint64_t number = sound_check(formula, formula_len, trace, trace_len, counts, counts_len, answer, answer_len);
    if (answer_len < MICE_ANSWER) return number;
    switch (fault()) {
    case 1: if (number == 0 && answer[2] == 37) answer[2]++; break;                         /* another total */
    case 2: if (number == 25 && answer[1] == 9) answer[1]--; break;                         /* another place */
    case 3: if (number == 26) number = answer[0] = 27; break;                               /* another number */
    case 4: if (number == 28) number = 0; break;                                            /* returned, but not answered */
    case 5: if (number == 22 && counts_len >= answer[1]) counts[answer[1] - 1] = 0; break;  /* a count too many */
    case 6: if (number == 12 && answer_len > 3) answer[3] = 0; break;                       /* beyond the answer */
    case 7: if (number == 29 && trace_len % 16 == 0) ((int16_t *)trace)[0] ^= 2; break;     /* an input changed */
    case 8: if (number == 13 && counts_len == 1) counts[1] = 0; break;                      /* beyond the count room */
    case 9: if (number == 11 && answer[1] == formula_len) answer[1]++; break;               /* an early end, one off */
    }
    return number;
}

uint64_t mice_read(const uint8_t *text, size_t text_len, int16_t *room, size_t room_len, uint64_t *answer, size_t answer_len) {
    uint64_t number = sound_read(text, text_len, room, room_len, answer, answer_len);
    if (answer_len < MICE_ANSWER) return number;
    switch (fault()) {
    case 11: if (number == 7) room[-1] = 0; break;                                          /* before the room */
    case 12: if (number == 5 && answer[1] % 4 == 0) number = answer[0] = 4; break;          /* another number */
    case 13: if (number == 0 && room[answer[2] - 1] < -9) room[answer[2] - 1] *= -1; break; /* another word */
    case 14: if (number == 6 && room_len > 9) room[0] = 0; break;                           /* a refused read leaves a trace */
    case 15: if (number == 2 && answer[1] == text_len) answer[1] = 0; break;                /* another place */
    }
    return number;
}
