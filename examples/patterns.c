/* What marks could tell about the grades of examples/film.txt: each mark strongly or weakly read, in every pattern. Built and run by
 * examples/c. */
#include <stdio.h>

#include "pikaplatinum.h"

#define COUNT(array) (sizeof(array) / sizeof((array)[0]))

static const char *const grades[] = {"PP pot", "PP film", "PE film", "PE bag", "PET tray"};

/* Grade, then mark. */
static const uint32_t pairs[] = {0, 0, 1, 0, 1, 1, 2, 1, 3, 2, 4, 3};

/* Two floats for each of the four marks; only how many they are counts. */
static const float evidence[8];

/* As pikaplatinum_sizes has it for 5 grades, 4 marks and 6 pairs. */
static float work_floats[64 * (5 + 4 + 6) + 4096];
static uint32_t work_numbers[64 * (5 + 4 + 6) + 4096];

/* Of each grade: above 1/2, not above, no belief. */
static uint32_t report[3 * COUNT(grades)];

int main(void) {
    struct pikaplatinum_patterns reply = pikaplatinum_count_patterns(
        0.75f, 0.0625f, 0.25f, false, 0.006f, 10000, COUNT(grades),
        evidence, COUNT(evidence), pairs, COUNT(pairs),
        work_floats, COUNT(work_floats), work_numbers, COUNT(work_numbers), report, COUNT(report));
    if (reply.refusal != PIKAPLATINUM_ANSWERED) {
        printf("refused %u at %u\n", (unsigned)reply.refusal, (unsigned)reply.place);
        return 1;
    }
    printf("of 16 patterns  above 1/2  not above  no belief\n");
    for (uint32_t g = 0; g < reply.grades; g++) {
        const uint32_t *counts = &report[3 * g];
        printf("%-14s  %9u  %9u  %9u\n", grades[g], (unsigned)counts[0], (unsigned)counts[1], (unsigned)counts[2]);
    }
    return 0;
}
