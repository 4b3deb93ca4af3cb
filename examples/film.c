/* The bale of examples/film.txt, asked through the library. Built and run by examples/c. */
#include <stdio.h>
#include <stdlib.h>

#include "pikaplatinum.h"

#define COUNT(array) (sizeof(array) / sizeof((array)[0]))

/* Absent, then present, for each mark that the reader looked for. */
static const float evidence[] = {0.0625f, 0.9375f, 0.9375f, 0.0625f, 0.125f, 0.875f, 0.5f, 0.5f};

/* Grade, then mark. */
static const uint32_t pairs[] = {0, 0, 1, 0, 1, 1, 2, 1, 3, 2, 4, 3};

static const char *const grades[] = {"PP pot", "PP film", "PE film", "PE bag", "PET tray"};

static void *lend(uint64_t length, size_t size) {
    void *buffer = calloc(length, size);
    if (buffer == NULL) {
        exit(1);
    }
    return buffer;
}

int main(void) {
    struct pikaplatinum_sizes sizes = pikaplatinum_sizes(COUNT(grades), COUNT(evidence) / 2, COUNT(pairs) / 2);
    float *work_floats = lend(sizes.work_floats, sizeof(float));
    uint32_t *work_numbers = lend(sizes.work_numbers, sizeof(uint32_t));
    uint32_t *belief_numbers = lend(sizes.belief_numbers, sizeof(uint32_t));
    float *belief_floats = lend(sizes.belief_floats, sizeof(float));
    uint32_t *ending_numbers = lend(sizes.ending_numbers, sizeof(uint32_t));
    float *ending_floats = lend(sizes.ending_floats, sizeof(float));

    struct pikaplatinum_reply reply = pikaplatinum_calibrate_all_subgraphs(
        0.75f, 0.0625f, 0.25f, false, 0.006f, 10000, COUNT(grades),
        evidence, COUNT(evidence), pairs, COUNT(pairs),
        work_floats, sizes.work_floats, work_numbers, sizes.work_numbers,
        belief_numbers, sizes.belief_numbers, belief_floats, sizes.belief_floats,
        ending_numbers, sizes.ending_numbers, ending_floats, sizes.ending_floats);

    if (reply.refusal != PIKAPLATINUM_ANSWERED) {
        printf("refused %u at %u\n", (unsigned)reply.refusal, (unsigned)reply.place);
        return 1;
    }
    for (uint32_t i = 0; i < reply.beliefs; i++) {
        printf("%-8s %5.1f %% present\n", grades[belief_numbers[i]], 100.0 * belief_floats[2 * i + 1]);
    }
    free(work_floats);
    free(work_numbers);
    free(belief_numbers);
    free(belief_floats);
    free(ending_numbers);
    free(ending_floats);
    return 0;
}
