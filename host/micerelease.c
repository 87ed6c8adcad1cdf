/* micerelease [--answers FILE] FOLDER..: the packs of a release checked, and the report over them, over the proved library.
 *
 * Each folder has a formula.cnf and a trace.bin. A line per folder, `FOLDER accepted TOTAL` or `FOLDER refused NUMBER at PLACE`,
 * then the report: `accepted`, `refused`, `smallest .. at`, `largest .. at` and `sum`, each with its numbers; or `refused 33 at 0`
 * for over 1,000 folders and `refused 34 at 0` for a sum above 2^64 - 1. A refused text is an answer with that number.
 * --answers FILE writes the answers too, numbers of eight bytes, the low byte first, as the proved program micerelease reads them.
 *
 * Exit status: 0 all accepted and the report given, 1 something refused, 2 wrong use, a file that can't be read or output that
 * can't be written (said on standard error). */
#include <stdlib.h>

#include "pack.h"

/* Checks the pack of a folder. */
static int check_folder(const char *folder, uint64_t answer[MICE_ANSWER]) {
    static char formula_name[4096], trace_name[4096];
    int f = snprintf(formula_name, sizeof formula_name, "%s/formula.cnf", folder);
    int t = snprintf(trace_name, sizeof trace_name, "%s/trace.bin", folder);
    if (f < 0 || t < 0 || (size_t)f >= sizeof formula_name || (size_t)t >= sizeof trace_name) {
        errno = ENAMETOOLONG;
        return trouble("can't open", folder);
    }
    return check_pack(formula_name, trace_name, answer);
}

/* Checks every folder and prints its line; the worst status. */
static int check_all(char **folders, size_t count, uint64_t *answers) {
    int worst = ACCEPTED;
    for (size_t i = 0; i < count; i++) {
        uint64_t *answer = answers + MICE_ANSWER * i;
        int status = check_folder(folders[i], answer);
        if (status == TROUBLE) return TROUBLE;
        printf("%s ", folders[i]);
        if (status == REFUSED) worst = refused(answer[0], answer[1]);
        else printf("accepted %" PRIu64 "\n", answer[2]);
    }
    return worst;
}

static int report(const uint64_t *answers, size_t count) {
    uint64_t of[MICE_REPORT];
    if (mice_release(answers, MICE_ANSWER * count, of, MICE_REPORT)) return refused(of[0], of[1]);
    printf("accepted %" PRIu64 "\nrefused %" PRIu64 "\n", of[2], of[3]);
    printf("smallest %" PRIu64 " at %" PRIu64 "\nlargest %" PRIu64 " at %" PRIu64 "\n", of[4], of[5], of[6], of[7]);
    printf("sum %" PRIu64 "\n", of[8]);
    return ACCEPTED;
}

/* Writes the answers, each place as eight bytes, the low one first. */
static int keep(const char *name, const uint64_t *answers, size_t count) {
    FILE *file = fopen(name, "wb");
    if (!file) return trouble("can't open", name);
    for (size_t i = 0; i < MICE_ANSWER * count; i++)
        for (int b = 0; b < 8; b++) putc((int)(answers[i] >> (8 * b) & 255), file);
    int failed = ferror(file);
    if (fclose(file) || failed) return trouble("can't write to", name);
    return ACCEPTED;
}

int main(int argc, char **argv) {
    const char *answers_name = NULL;
    int first = 1;
    command = "micerelease";
    if (argc > 2 && strcmp(argv[1], "--answers") == 0) answers_name = argv[2], first = 3;
    if (argc <= first || argv[first][0] == '-') {
        fprintf(stderr, "usage: micerelease [--answers FILE] FOLDER..\n"
                        "checks the formula.cnf and trace.bin of each folder and prints the report over all of them;\n"
                        "status 0 all accepted, 1 something refused, 2 trouble\n");
        return TROUBLE;
    }
    size_t count = (size_t)(argc - first);
    uint64_t *answers = calloc(count, MICE_ANSWER * sizeof *answers);
    if (!answers) return trouble("no memory for", "the answers");
    int checked = check_all(argv + first, count, answers);
    int status = checked;
    if (checked != TROUBLE && report(answers, count) == REFUSED) status = REFUSED;
    if (checked != TROUBLE && answers_name && keep(answers_name, answers, count) == TROUBLE) status = TROUBLE;
    free(answers);
    return done(status);
}
