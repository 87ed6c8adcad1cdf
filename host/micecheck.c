/* micecheck FORMULA.cnf TRACE.bin: the check as a command, over the proved library.
 *
 * It prints what the proved program prints: a line per count, then `accepted` and the total, or `refused`, number, `at`, place.
 * Exit status: 0 accepted, 1 refused, 2 wrong use, a file that can't be read or output that can't be written (said on
 * standard error). One difference from the proved program, on purpose: there a file that can't be opened counts as empty;
 * here it is a wrong use, since its name was given by hand. As there, a refused text ends it and the trace is not looked at. */
#include "pack.h"

/* The number of claims of an accepted trace. The answer doesn't say it, but a check that is lent no count places does: it is
 * refused with 13 at the claim count, before any claim is judged. (An accepted trace has at least one claim.) */
static size_t claim_count(void) {
    uint64_t answer[MICE_ANSWER];
    mice_check(formula, formula_len, trace, trace_len, NULL, 0, answer, MICE_ANSWER);
    return answer[1];
}

/* How many claims hold, and so have a count, after this answer. */
static size_t held(const uint64_t answer[MICE_ANSWER]) {
    if (answer[0] == MICE_ACCEPTED) return claim_count();
    if (answer[0] == MICE_NOT_WHOLE) return answer[1];
    return answer[0] >= MICE_FOREIGN_VARIABLE ? answer[1] - 1 : 0;
}

int main(int argc, char **argv) {
    uint64_t answer[MICE_ANSWER];
    command = "micecheck";
    if (argc != 3) {
        fprintf(stderr, "usage: micecheck FORMULA.cnf TRACE.bin\n"
                        "prints the count of each claim and then the verdict; status 0 accepted, 1 refused, 2 trouble\n");
        return TROUBLE;
    }
    int status = check_pack(argv[1], argv[2], answer);
    if (status == TROUBLE) return TROUBLE;
    size_t lines = held(answer);
    for (size_t k = 0; k < lines; k++) printf("claim %zu count %" PRIu64 "\n", k + 1, counts[k]);
    if (status == REFUSED) refused(answer[0], answer[1]);
    else printf("accepted %" PRIu64 "\n", answer[2]);
    return done(status);
}
