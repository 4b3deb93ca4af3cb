/* Reads a bale file on standard input, tries settings on bales made up from its graph, and prints a table: of each setting, how often the
 * beliefs agreed with what was drawn, and how often not. The words are how many bales, the seed, and alpha, beta and prior of each setting in
 * 1,024ths. A refusal is one line, and exit status 1. Built and run by scripts/try-settings, which looks at the words first. */
#include "bale.h"

enum { MOST_SETTINGS = 64 };

struct agreement {
    uint32_t agreed, not_agreed;
};

static uint32_t number(const char *word) {
    return (uint32_t)strtoul(word, NULL, 10);
}

/* So many settings; of each the report has two numbers. */
static void try_some(const struct bale *bale, struct lent *lent, const uint32_t *settings, size_t count, uint32_t seed, uint32_t bales,
                     struct agreement *found) {
    uint32_t report[2 * MOST_SETTINGS];
    struct pikaplatinum_trials reply = pikaplatinum_try_settings(
        settings, 3 * count, seed, bales, bale->regularised, 0.006f, 10000, bale->grades,
        lent->evidence, lent->evidence_length, bale->ends, 2 * bale->pairs,
        lent->work_floats, lent->work, lent->work_numbers, lent->work, report, 2 * MOST_SETTINGS);
    if (reply.refusal != PIKAPLATINUM_ANSWERED) {
        refuse(reply.refusal, reply.place);
    }
    for (uint32_t i = 0; i < reply.settings; i++) {
        found[i] = (struct agreement){report[2 * i], report[2 * i + 1]};
    }
}

static void print_percent(FILE *to, struct agreement found) {
    uint32_t counted = found.agreed + found.not_agreed;
    if (counted == 0) {
        fprintf(to, "%9s", "-");
    } else {
        fprintf(to, "%7.1f %%", 100.0 * found.agreed / counted);
    }
}

static void print_table(const uint32_t *settings, size_t count, const struct agreement *found) {
    uint32_t most = 0;
    for (size_t i = 0; i < count; i++) {
        most = found[i].agreed > most ? found[i].agreed : most;
    }
    printf("alpha   beta  prior     agreed  not agreed  agreement\n");
    for (size_t i = 0; i < count; i++) {
        const uint32_t *setting = &settings[3 * i];
        printf("%5u  %5u  %5u", (unsigned)setting[0], (unsigned)setting[1], (unsigned)setting[2]);
        printf("  %9u  %10u  ", (unsigned)found[i].agreed, (unsigned)found[i].not_agreed);
        print_percent(stdout, found[i]);
        puts(most > 0 && found[i].agreed == most ? "  best" : "");
    }
}

int main(int words, char **word) {
    size_t count = words < 3 ? 0 : ((size_t)words - 3) / 3;
    if (words < 3 || count > MOST_SETTINGS) {
        fputs("try_settings BALES SEED [ALPHA BETA PRIOR]...\n", stderr);
        return 2;
    }
    uint32_t bales = number(word[1]), seed = number(word[2]), settings[3 * MOST_SETTINGS];
    for (size_t i = 0; i < 3 * count; i++) {
        settings[i] = number(word[3 + i]);
    }
    struct agreement found[MOST_SETTINGS];
    struct bale bale = read_bale();
    struct lent lent = lend_for(&bale);
    try_some(&bale, &lent, settings, count, seed, 0, found); /* so that a refusal comes before the first run */
    for (size_t i = 0; i < count; i++) {
        try_some(&bale, &lent, &settings[3 * i], 1, seed, bales, &found[i]);
        fprintf(stderr, "setting %u of %u:", (unsigned)i + 1, (unsigned)count);
        print_percent(stderr, found[i]);
        fputs("\n", stderr);
    }
    print_table(settings, count, found);
    give_back(&lent);
    free(bale.ends);
    return 0;
}
