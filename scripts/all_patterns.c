/* Reads a bale file on standard input and prints a table: of each grade, in how many read patterns its present belief is above 1/2, in how
 * many it is not, and in how many it has none. A refusal is one line, and exit status 1. Built and run by scripts/all-patterns. */
#include "bale.h"

int main(void) {
    struct bale bale = read_bale();
    struct lent lent = lend_for(&bale);
    uint32_t *report = lend(NULL, 3 * bale.grades, sizeof(uint32_t));
    struct pikaplatinum_patterns reply = pikaplatinum_count_patterns(
        bale.alpha, bale.beta, bale.prior, bale.regularised, 0.006f, 10000, bale.grades,
        lent.evidence, lent.evidence_length, bale.ends, 2 * bale.pairs,
        lent.work_floats, lent.work, lent.work_numbers, lent.work, report, 3 * bale.grades);
    if (reply.refusal != PIKAPLATINUM_ANSWERED) {
        refuse(reply.refusal, reply.place);
    }
    printf("grade  above 1/2  not above  no belief\n");
    for (uint32_t g = 0; g < reply.grades; g++) {
        const uint32_t *counts = &report[3 * g];
        printf("%5u  %9u  %9u  %9u\n", (unsigned)g, (unsigned)counts[0], (unsigned)counts[1], (unsigned)counts[2]);
    }
    give_back(&lent);
    free(report);
    free(bale.ends);
    return 0;
}
