/* A bale file on standard input, as the scripts that ask about its graph read it. A refusal is one line, and exit status 1. */
#include <stdio.h>
#include <stdlib.h>

#include "pikaplatinum.h"

enum { SETTINGS = 1, PRIOR = 2, GRADES = 3, MARKER = 4, PAIR = 5, END = 6, BASE = 7 };

/* What a word of each kind may have set below its kind's three bits. */
static const uint32_t fields[] = {0, 0xFFFFF, 0x7FF, 0x7FF, 0x7FFF, 0xFFFFF, 0, 0x3FF};

struct bale {
    float alpha, beta, prior;
    bool regularised;
    uint32_t grades;
    size_t markers, pairs;
    uint32_t *ends; /* of each pair the grade, then the marker */
};

static void refuse(uint32_t number, uint32_t place) {
    printf("refused %u at %u\n", (unsigned)number, (unsigned)place);
    exit(1);
}

/* A null pointer for no entry. */
static void *lend(void *before, size_t length, size_t size) {
    void *buffer = length == 0 ? NULL : realloc(before, length * size);
    if (buffer == NULL && length > 0) {
        fputs("no memory\n", stderr);
        exit(2);
    }
    return buffer;
}

static float in_1024ths(uint32_t word) {
    return (float)(word & 0x3FF) / 1024.0f;
}

static void take(struct bale *bale, uint32_t word) {
    switch (word >> 29) {
    case SETTINGS:
        bale->alpha = in_1024ths(word >> 10);
        bale->beta = in_1024ths(word);
        break;
    case PRIOR:
        bale->prior = in_1024ths(word);
        bale->regularised = word >> 10 & 1;
        break;
    case GRADES:
        bale->grades = word & 0x7FF;
        break;
    case MARKER: /* how surely it was read does not count, and so no base rate does */
        bale->markers++;
        break;
    case PAIR:
        bale->ends = lend(bale->ends, 2 * bale->pairs + 2, sizeof(uint32_t));
        bale->ends[2 * bale->pairs] = word >> 10 & 0x3FF;
        bale->ends[2 * bale->pairs + 1] = word & 0x3FF;
        bale->pairs++;
        break;
    }
}

/* One each of the first three kinds, the prior with a base rate behind it or none, then markers, pairs and one end. */
static bool may_follow(uint32_t before, uint32_t kind) {
    if (kind == BASE || before == BASE) {
        return kind == BASE ? before == PRIOR : kind == GRADES;
    }
    return before < GRADES ? kind == before + 1 : before < END && kind >= MARKER && kind >= before && kind <= END;
}

/* Number 9 is a bad file: its place is the first bad word, or how many whole words there are. Number 11, behind it, is a base rate of 0, at its word. */
static struct bale read_bale(void) {
    struct bale bale = {0};
    unsigned char bytes[4];
    uint32_t place = 0, before = 0, zero_base = 0; /* no base rate has place 0 */
    size_t got;
    while ((got = fread(bytes, 1, sizeof bytes, stdin)) == sizeof bytes) {
        uint32_t word = bytes[0] | (uint32_t)bytes[1] << 8 | (uint32_t)bytes[2] << 16 | (uint32_t)bytes[3] << 24;
        uint32_t kind = word >> 29;
        if (!may_follow(before, kind) || (word & 0x1FFFFFFF & ~fields[kind]) != 0) {
            refuse(9, place);
        }
        if (kind == BASE && (word & 0x3FF) == 0) {
            zero_base = place;
        }
        take(&bale, word);
        before = kind;
        place++;
    }
    if (before != END || got > 0) {
        refuse(9, place);
    }
    if (zero_base > 0) {
        refuse(11, zero_base);
    }
    return bale;
}

/* What a call about the graph is lent besides its report. The evidence is only counted. */
struct lent {
    size_t evidence_length, work;
    float *evidence, *work_floats;
    uint32_t *work_numbers;
};

static struct lent lend_for(const struct bale *bale) {
    struct lent lent = {.evidence_length = 2 * bale->markers, .work = 64 * (bale->grades + bale->markers + bale->pairs) + 4096};
    lent.evidence = lend(NULL, lent.evidence_length, sizeof(float));
    lent.work_floats = lend(NULL, lent.work, sizeof(float));
    lent.work_numbers = lend(NULL, lent.work, sizeof(uint32_t));
    return lent;
}

static void give_back(struct lent *lent) {
    free(lent->evidence);
    free(lent->work_floats);
    free(lent->work_numbers);
}
