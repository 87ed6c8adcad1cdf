/* mice.h: the proved checker of model-counting traces, for C and C++.
 *
 * A solver that counts the settings which satisfy a formula writes a trace of its work. mice_check goes through such a trace
 * and says whether it is sound; the counts are worked out here and never taken from the trace. mice_read turns a DIMACS CNF
 * text into the formula words that mice_check takes. docs/FORMAT.md describes both kinds of words, docs/TRUST.md what is proved.
 * mice_release reports over the answers of many checks: how many were accepted, the smallest and largest total, the exact sum.
 *
 * What the caller owes, for all functions:
 *   - a pointer and its length (a number of ELEMENTS, not bytes) name memory that is valid and aligned for its type;
 *   - memory that is written (counts, room, answer, report) overlaps no other memory that is lent to the same call;
 *   - a pointer with length 0 may be anything, NULL too.
 * Nothing else: every content of that memory, and every length, has a defined answer. The functions always return, allocate
 * nothing, keep no pointer and have no state, so any number of threads may call them at once, each with its own written memory.
 *
 * Stack: 36,568 bytes were measured for mice_check, 65,912 for mice_read and 64 for mice_release (x86-64, host/stack.sh);
 * lend a thread 128 KiB.
 *
 * The answer slice of mice_check and mice_read has room for at least MICE_ANSWER places and receives
 *     answer[0]  the refusal number, 0 for accepted (also what the function returns)
 *     answer[1]  the place of the fault, 0 for accepted
 *     answer[2]  mice_check: the total, the number of settings; mice_read: the number of words written; 0 for refused
 * and further places stay as they are. If it is shorter, the function returns MICE_COUNT_PLACES (13) before all else and
 * writes nothing at all. Only the refusal number tells refused from accepted: an accepted total may be 0.
 *
 * The report slice of mice_release has room for at least MICE_REPORT places and receives
 *     report[0]  the refusal number, 0 for none (also what the function returns)
 *     report[1]  the place, always 0
 *     report[2]  how many answers were accepted        report[3]  how many were refused
 *     report[4]  the smallest accepted total           report[5]  the first answer that has it, from 1
 *     report[6]  the largest accepted total            report[7]  the first answer that has it, from 1
 *     report[8]  the exact sum of the accepted totals
 * and further places stay as they are. If none is accepted, 4 to 8 are 0; after a refusal 2 to 8 are 0. If it is shorter, the
 * function returns 13 before all else and writes nothing at all.
 */
#ifndef MICE_H
#define MICE_H

#include <stddef.h>
#include <stdint.h>

#ifdef __cplusplus
extern "C" {
#endif

/* Limits that help to size the lent memory. */
enum {
    MICE_ANSWER = 3,         /* places of the answer slice */
    MICE_WORDS = 32767,      /* most words of a formula, and of a trace: no text needs more room */
    MICE_CLAIMS = 1024,      /* most claims of a trace: no trace needs more count places */
    MICE_TEXT_BYTES = 65535, /* most bytes of a text */
    MICE_REPORT = 9,         /* places of the report slice */
    MICE_RELEASE_ANSWERS = 1000 /* most answers of a report */
};

/* Refusal numbers, and in brackets what the place then is. Byte and word positions count from 0, claims from 1. */
enum {
    MICE_ACCEPTED = 0,

    /* mice_read: the text */
    MICE_TEXT_LONG = 1,        /* over 65,535 bytes [65,535] */
    MICE_HEADER = 2,           /* header absent or faulty, n over 512 or m over 2,048 [first byte of the line, or text length] */
    MICE_NO_NUMBER = 3,        /* a token that is no number [its first byte] */
    MICE_BEYOND_N = 4,         /* a literal beyond n [the token] */
    MICE_CLAUSE = 5,           /* a variable twice in a clause, or a 65th literal [the token] */
    MICE_CLAUSE_COUNT = 6,     /* a token after the m-th clause [it]; the text ends in a clause or with fewer than m [text length] */
    MICE_ROOM = 7,             /* the words needed exceed the room [text length] */

    /* mice_check: the words */
    MICE_FORMULA_WORDS = 11,   /* formula words malformed [first faulty word; 32,767 if there are more] */
    MICE_TRACE_WORDS = 12,     /* trace words malformed [first faulty word; 32,767 if there are more] */
    MICE_COUNT_PLACES = 13,    /* fewer count places than claims [claim count] */

    /* mice_check: a claim [its number] */
    MICE_FOREIGN_VARIABLE = 21, /* the assumption names a variable that is not in the subformula */
    MICE_ARGUMENTS = 22,       /* argument count wrong for the rule, refutation absent, premise not an earlier claim */
    MICE_AXIOM = 23,           /* axiom: not empty */
    MICE_COMPOSITION = 24,     /* composition: the premises misfit */
    MICE_REFUTATION = 25,      /* composition: the refutation does not hold */
    MICE_JOIN = 26,            /* join: misfit */
    MICE_EXTENSION = 27,       /* extension: misfit */
    MICE_COUNT_LARGE = 28,     /* the exact count is above 2^64 - 1 */

    MICE_NOT_WHOLE = 29,       /* all claims hold, but there is none, or the last is not about all clauses with an empty
                                  assumption [claim count] */

    /* mice_release: the answers [0] */
    MICE_ANSWERS_FORM = 33,    /* no answers, over 1,000, or a slice that isn't whole answers */
    MICE_SUM_LARGE = 34        /* the exact sum is above 2^64 - 1 */
};

/* Checks a trace against a formula. Returns the refusal number, 0 for accepted.
 *
 *   formula, trace  read only: formula words and trace words
 *   counts          receives one count per claim that holds, claim k at counts[k - 1]: after MICE_ACCEPTED and MICE_NOT_WHOLE
 *                   those of all claims, after a refusal at claim k (21 to 28) those of claims 1 to k - 1, after 11 to 13
 *                   none. All other places stay as they are.
 *   answer          see above
 *
 * When several things are wrong: first 11, then 12, then 13; then the claims in order, each by its lowest number; then 29. */
uint64_t mice_check(const int16_t *formula, size_t formula_len,
                    const int16_t *trace, size_t trace_len,
                    uint64_t *counts, size_t counts_len,
                    uint64_t *answer, size_t answer_len);

/* Reads a DIMACS CNF text into formula words. Returns the refusal number, 0 for accepted.
 *
 *   text            read only: the bytes of the text, no closing NUL
 *   room            receives the words when accepted, and answer[2] their number; places beyond stay as they are.
 *                   A refused read leaves all of it as it is.
 *   answer          see above
 *
 * When several things are wrong: first 1; then the first fault from left to right, at one token by 3, 6, 4, 5; then 7. */
uint64_t mice_read(const uint8_t *text, size_t text_len,
                   int16_t *room, size_t room_len,
                   uint64_t *answer, size_t answer_len);

/* Reports over 1 to MICE_RELEASE_ANSWERS answers. Returns the refusal number, 0 for none.
 *
 *   answers         read only: answers of mice_check one after another, MICE_ANSWER places each and numbered from 1. Of each only
 *                   the refusal number and the total are read, and it is accepted when the number is 0. answers_len counts
 *                   places, not answers.
 *   report          see above
 *
 * When several things are wrong: first 33, then 34. If mice_check wrote the answers, the sum is that of the numbers of settings of
 * the accepted formulas. An answer may also be the refused one of a mice_read, but not an accepted one: its total counts words. */
uint64_t mice_release(const uint64_t *answers, size_t answers_len,
                      uint64_t *report, size_t report_len);

#ifdef __cplusplus
}
#endif

#endif
