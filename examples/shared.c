/* A supplier's mark that many film grades share, clearly read; one of them has a mark of its own, which was read too. Built and run by
 * examples/c. */
#include <stdio.h>

#include "pikaplatinum.h"

#define MOST 129
#define MARKS 2
#define WORK (64 * (MOST + MARKS + MOST + 1) + 4096)

static const uint32_t known = 40;
static uint32_t pairs[2 * (MOST + 1)];
static float work_floats[WORK];
static uint32_t work_numbers[WORK];
static uint32_t belief_numbers[MOST];
static float belief_floats[2 * MOST];
static uint32_t ending_numbers[4 * MOST];
static float ending_floats[MOST];

/* Mark 0 on so many grades, mark 1 on one of them. */
static struct pikaplatinum_reply ask(uint32_t grades) {
    static const float evidence[2 * MARKS] = {0.0625f, 0.9375f, 0.015625f, 0.984375f};
    for (uint32_t grade = 0; grade < grades; grade++) {
        pairs[2 * grade] = grade;
        pairs[2 * grade + 1] = 0;
    }
    pairs[2 * grades] = known;
    pairs[2 * grades + 1] = 1;
    return pikaplatinum_calibrate_all_subgraphs(
        0.75f, 0.015625f, 0.015625f, false, 0.006f, 10000, grades, evidence, 2 * MARKS, pairs, 2 * (grades + 1),
        work_floats, WORK, work_numbers, WORK, belief_numbers, MOST, belief_floats, 2 * MOST,
        ending_numbers, 4 * MOST, ending_floats, MOST);
}

static double percent(uint32_t grade, uint32_t beliefs) {
    uint32_t i = 0;
    while (i < beliefs && belief_numbers[i] != grade) {
        i++;
    }
    return 100.0 * belief_floats[2 * i + 1];
}

static void tell(uint32_t grades) {
    struct pikaplatinum_reply reply = ask(grades);
    printf("%u grades on a mark: ", (unsigned)grades);
    if (reply.refusal != PIKAPLATINUM_ANSWERED) {
        printf("refused %u at %u\n", (unsigned)reply.refusal, (unsigned)reply.place);
        return;
    }
    double own = percent(known, reply.beliefs), other = percent(0, reply.beliefs);
    printf("the one with a mark of its own %.1f %% present, any other %.1f %%\n", own, other);
}

int main(void) {
    tell(64);
    tell(128);
    tell(129);
    return 0;
}
