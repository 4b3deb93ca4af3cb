/* A minute of film under two readers, asked through the library. Built and run by examples/c. */
#include <stdio.h>

#include "pikaplatinum.h"

#define COUNT(array) (sizeof(array) / sizeof((array)[0]))

/* Tick, then marker, of each read. */
static const uint32_t upper[] = {100, 3, 104, 7, 110, 3, 131, 5};
static const uint32_t lower[] = {98, 7, 102, 3, 109, 3, 150, 5};

/* Two numbers for each read of the shorter list. */
static uint32_t matches[8];

int main(void) {
    struct pikaplatinum_matches reply =
        pikaplatinum_match_reads(upper, COUNT(upper), lower, COUNT(lower), 10, matches, COUNT(matches));
    if (reply.refusal != PIKAPLATINUM_ANSWERED) {
        printf("refused %u at %u\n", (unsigned)reply.refusal, (unsigned)reply.place);
        return 1;
    }
    for (uint32_t i = 0; i < reply.matches; i++) {
        const uint32_t *above = &upper[2 * matches[2 * i]];
        const uint32_t *below = &lower[2 * matches[2 * i + 1]];
        printf("marker %u: above at %3u, below at %3u\n", (unsigned)above[1], (unsigned)above[0], (unsigned)below[0]);
    }
    return 0;
}
