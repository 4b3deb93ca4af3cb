/* The film bale of examples/film.txt twice, weighed, and a third time with a mark that was not read. Built and run by examples/c. */
#include <inttypes.h>
#include <stdio.h>
#include <string.h>

#include "tonnage.h"

#define COUNT(array) (sizeof(array) / sizeof((array)[0]))

static const char *const grades[] = {"PP pot", "PP film", "PE film", "PE bag", "PET tray"};

/* The words of a bale file: alpha and beta, prior, grades, the marks as they were read, pairs of grade and mark, and the end. */
static const uint32_t film[] = {
    1u << 29 | 768 << 10 | 64, 2u << 29 | 256, 3u << 29 | 5,
    4u << 29 | 15360, 4u << 29 | 1024, 4u << 29 | 14336, 4u << 29 | 8192,
    5u << 29 | 0 << 10 | 0, 5u << 29 | 1 << 10 | 0, 5u << 29 | 1 << 10 | 1, 5u << 29 | 2 << 10 | 1, 5u << 29 | 3 << 10 | 2, 5u << 29 | 4 << 10 | 3,
    6u << 29};

static uint8_t shift[3 * sizeof(film)];
static uint64_t totals[TONNAGE_GRADES];

/* A word has its least byte first, whatever the machine. */
static void put_bale(uint8_t *bytes, uint32_t last_pair) {
    for (size_t i = 0; i < COUNT(film); i++) {
        uint32_t word = i == COUNT(film) - 2 ? last_pair : film[i];
        for (size_t j = 0; j < 4; j++) {
            bytes[4 * i + j] = (uint8_t)(word >> 8 * j);
        }
    }
}

static void weigh(const char *csv) {
    struct tonnage_reply reply = tonnage_by_grade((const uint8_t *)csv, strlen(csv), shift, sizeof(shift), totals, COUNT(totals));
    if (reply.refusal != TONNAGE_WEIGHED) {
        printf("refused %" PRIu32 " at line %" PRIu32 "\n", reply.refusal, reply.place);
        return;
    }
    printf("%" PRIu32 " lines\n", reply.lines);
    for (size_t grade = 0; grade < COUNT(grades); grade++) {
        printf("%-8s %8.3f kg\n", grades[grade], (double)totals[grade] / 1000);
    }
}

int main(void) {
    uint32_t pair = film[COUNT(film) - 2], unknown = pair + 1;
    put_bale(shift, pair);
    put_bale(shift + sizeof(film), unknown);
    put_bale(shift + 2 * sizeof(film), pair);
    weigh("0,250\n2,1000\n");
    weigh("0,250\n1,300\n2,1000\n");
    weigh("0,250\n2,2001\n");
    return 0;
}
