/* How well the beliefs would tell the grades of examples/film.txt, were alpha, beta and prior these: 1,000 made-up bales each. Built and run
 * by examples/c. */
#include <stdio.h>

#include "pikaplatinum.h"

#define COUNT(array) (sizeof(array) / sizeof((array)[0]))

/* alpha, beta, prior, in 1,024ths: those of the film bale, marks that show more surely, fewer false reads, more grades in a bale. */
static const uint32_t settings[][3] = {{768, 64, 256}, {960, 64, 256}, {768, 16, 256}, {768, 64, 512}};

/* Grade, then mark. */
static const uint32_t pairs[] = {0, 0, 1, 0, 1, 1, 2, 1, 3, 2, 4, 3};

/* Two floats for each of the four marks; only how many they are counts. */
static const float evidence[8];

/* As pikaplatinum_sizes has it for 5 grades, 4 marks and 6 pairs. */
static float work_floats[64 * (5 + 4 + 6) + 4096];
static uint32_t work_numbers[64 * (5 + 4 + 6) + 4096];

/* Of each setting: agreed, not agreed. */
static uint32_t report[2 * COUNT(settings)];

int main(void) {
    struct pikaplatinum_trials reply = pikaplatinum_try_settings(
        settings[0], 3 * COUNT(settings), 1, 1000, false, 0.006f, 10000, 5,
        evidence, COUNT(evidence), pairs, COUNT(pairs),
        work_floats, COUNT(work_floats), work_numbers, COUNT(work_numbers), report, COUNT(report));
    if (reply.refusal != PIKAPLATINUM_ANSWERED) {
        printf("refused %u at %u\n", (unsigned)reply.refusal, (unsigned)reply.place);
        return 1;
    }
    printf("alpha  beta  prior  agreed  not agreed\n");
    for (uint32_t i = 0; i < reply.settings; i++) {
        const uint32_t *setting = settings[i], *counts = &report[2 * i];
        printf("%5u  %4u  %5u", (unsigned)setting[0], (unsigned)setting[1], (unsigned)setting[2]);
        printf("  %6u  %10u\n", (unsigned)counts[0], (unsigned)counts[1]);
    }
    return 0;
}
