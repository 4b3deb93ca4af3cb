/* How likely each packaging grade is, from the tracer marks read in a bale; in how many patterns of reads a grade is likely; how well settings
 * do on made-up bales; and two readers over one belt, their reads held against each other.
 *
 * A bale is a graph: grades (numbered from 0), markers (two evidence floats each, absent then present) and pairs (grade, then
 * marker: this grade carries this mark; up to 128 grades may carry one). Zero-lookahead belief propagation answers, part by part, a
 * belief for each grade.
 *
 * The caller owns all memory. Assumed of the caller, and checked by nothing: each pointer is valid for as many entries as the
 * length beside it says (a null pointer only with length 0), is aligned for its type, no two lent buffers overlap each other or
 * the inputs, and `regularised` is 0 or 1. Everything else is checked, and every input is answered.
 *
 * Nothing is allocated, nothing is kept between calls, and no function of the library calls itself, directly or through others. No theorem bounds
 * the stack that it uses. Measured at its peak, as the older Rattle built it, the call took 202 KiB, all read patterns 234 KiB and tried settings
 * 244 KiB (docs/PERFORMANCE.md). */
#ifndef PIKAPLATINUM_H
#define PIKAPLATINUM_H

#include <stdbool.h>
#include <stddef.h>
#include <stdint.h>

#ifdef __cplusplus
extern "C" {
#endif

/* Why a call is refused. The checks run in this order, and within a number the lowest place wins. A refused call changes no buffer. */
enum pikaplatinum_refusal {
    PIKAPLATINUM_ANSWERED = 0,
    PIKAPLATINUM_TOO_MANY = 1,       /* over 1,024 grades, 1,024 markers or 8,192 pairs; place 0 */
    PIKAPLATINUM_TOO_SMALL = 2,      /* a lent buffer is shorter than pikaplatinum_sizes says; place 0 */
    PIKAPLATINUM_PROBABILITY = 3,    /* alpha, beta or prior outside 1/1024 to 1023/1024, or NaN; place 0, 1, 2 */
    PIKAPLATINUM_STOPPING = 4,       /* tolerance negative or not finite, place 0; loop limit over 1,000,000, place 1 */
    PIKAPLATINUM_EVIDENCE = 5,       /* an evidence float outside 2^-14 to 1, or NaN; place the marker */
    PIKAPLATINUM_UNKNOWN = 6,        /* a pair with an unknown grade or marker; place the pair */
    PIKAPLATINUM_REPEATED = 7,       /* a pair given before; place the later pair */
    PIKAPLATINUM_CROWDED = 8,        /* a marker with over 128 grades; place the marker */
    PIKAPLATINUM_FALLING = 10,       /* of pikaplatinum_match_reads alone, which has 1, 2 and 10: see there */
    PIKAPLATINUM_SEED = 16,          /* of pikaplatinum_try_settings alone, ahead of all others: see there */
    PIKAPLATINUM_TRIALS = 17,        /* likewise, behind 16 alone */
    PIKAPLATINUM_MARKERS = 18        /* of pikaplatinum_count_patterns alone, ahead of all others: see there */
};

/* How a part's run ended. */
enum pikaplatinum_ending {
    PIKAPLATINUM_LIMIT = 0,          /* the loop limit was reached */
    PIKAPLATINUM_SETTLED = 1,        /* the last residual was within the tolerance */
    PIKAPLATINUM_EMPTY = 2           /* no direction waited any more */
};

/* refusal 0: so many beliefs and endings were written. Else the refusal's number and place. */
struct pikaplatinum_reply {
    uint32_t refusal;
    uint32_t place;
    uint32_t beliefs;
    uint32_t endings;
};

/* The least length of each buffer for a bale of so many grades, markers and pairs. */
struct pikaplatinum_sizes {
    uint64_t work_floats;
    uint64_t work_numbers;
    uint64_t belief_numbers;
    uint64_t belief_floats;
    uint64_t ending_numbers;
    uint64_t ending_floats;
};

struct pikaplatinum_sizes pikaplatinum_sizes(uint32_t grades, uint32_t markers, uint32_t pairs);

/* One call.
 *
 *   alpha, beta     how likely a present grade shows its mark, and how likely a mark is read with no grade present
 *   prior           how likely a grade is before any mark is read
 *   regularised     whether the noisy-OR table is regularised
 *   tolerance       the loop ends when the last residual is at most this
 *   loop_limit      at most so many turns, the five sweeps counted
 *   grades          how many grades there are
 *   evidence        two floats for each marker: how likely the read is where the mark is absent, and where it is present; of a reader whose
 *                   belief e in the mark already includes a base rate b of its own, (1 - e) * b and e * (1 - b)
 *   pairs           two numbers for each pair: the grade, then the marker
 *   work_*          scratch; what is needed of it is zero afterwards, the rest is left as it was
 *   belief_numbers  the grades that have a belief, part by part in the order of the nodes
 *   belief_floats   of each of them: absent, then present
 *   ending_numbers  of each part of over 2 nodes: its number, its ending, its scheduled steps, how many beliefs it has
 *   ending_floats   of each of them the last residual, 0 if empty
 *
 * Answers stand at the fronts of their buffers, and what is behind them is left as it was. A part of at most 2 nodes (a grade
 * without a mark, a marker without a grade) has no belief and no ending. */
struct pikaplatinum_reply pikaplatinum_calibrate_all_subgraphs(
    float alpha, float beta, float prior, bool regularised,
    float tolerance, uint32_t loop_limit, uint32_t grades,
    const float *evidence, size_t evidence_length,
    const uint32_t *pairs, size_t pairs_length,
    float *work_floats, size_t work_floats_length,
    uint32_t *work_numbers, size_t work_numbers_length,
    uint32_t *belief_numbers, size_t belief_numbers_length,
    float *belief_floats, size_t belief_floats_length,
    uint32_t *ending_numbers, size_t ending_numbers_length,
    float *ending_floats, size_t ending_floats_length);

/* All read patterns of a small graph: what could the reads of these markers say of each grade?
 *
 * Each marker is read strongly (evidence 1/16, 15/16) or weakly (15/16, 1/16), in every combination, and each combination is run as one
 * call: 2 to the power of the markers of them, one where there is no marker. Counted is in how many of them a grade's present belief is
 * above 1/2 (exactly 1/2 is not), in how many it is not, and in how many the grade has no belief, which is all of them for a grade in no
 * pair and none for any other.
 *
 * Refused, in this order: 18, over 10 markers, place 0; then as the call is, but that 1 is left for grades and pairs, 2 is for short work and
 * for a report under three numbers a grade, and 5 does not occur. */

/* refusal 0: so many grades were reported. Else the refusal's number and place. */
struct pikaplatinum_patterns {
    uint32_t refusal;
    uint32_t place;
    uint32_t grades;
};

/*   settings        as in the call
 *   evidence        two floats for each marker, of which only the length counts: they are not read; an odd last one is no marker
 *   pairs           as in the call
 *   work            as long as pikaplatinum_sizes says; zeros are left in what was needed
 *   report          three numbers for each grade, by grade: above 1/2, not above, no belief. They add up to 2 to the power of the markers.
 *                   What is behind them stays as it was, and after a refusal all that is lent */
struct pikaplatinum_patterns pikaplatinum_count_patterns(
    float alpha, float beta, float prior, bool regularised, float tolerance, uint32_t loop_limit, uint32_t grades,
    const float *evidence, size_t evidence_length,
    const uint32_t *pairs, size_t pairs_length,
    float *work_floats, size_t work_floats_length,
    uint32_t *work_numbers, size_t work_numbers_length,
    uint32_t *report, size_t report_length);

/* Settings tried on made-up bales: were alpha, beta and prior these, how often would the beliefs tell which grades are there?
 *
 * For each setting so many bales are made up by it, and each is run as one call with it. A bale draws its numbers one after the other, by
 * Marsaglia's xorshift on 32 bits (left 13, right 17, left 5): a draw succeeds if the number reached modulo 1,024 is below its limit.
 * First each grade, in order, draws against prior, and is present if it succeeds. Then each marker, in order, draws against beta once, and
 * against alpha once for each of its present grades; it is strongly read (evidence 1/16, 15/16) if any of these succeeds, else weakly (15/16,
 * 1/16), and no draw is left out once one has succeeded. The next bale goes on where this one ended; every setting starts from the seed, so
 * that a setting is reported as by a call with it alone.
 *
 * Counted is, over all bales of a setting, how often a grade's present belief above 1/2 (exactly 1/2 is not) agrees with what was drawn, and
 * how often it does not. A grade in no pair has no belief and is not counted: both add up to the bales times the grades in a pair.
 *
 * Refused, in this order: 16, seed 0, place 0; 17, over 64 settings or over 1,000 bales, place 0; then as the call is, but that 2 is for short
 * work and for a report under two numbers a setting, 3 is for a number of `settings` outside 1 to 1,023, place its index there, and 5 does not
 * occur. With no setting or no bale all checks are made and nothing is run.
 *
 * It takes as long as its calls, settings times bales of them, which may be 64,000, and can't be stopped meanwhile. As the older Rattle built it, a bale took 6.5 us for the
 * graph of examples/film.txt, 53 us at 24 grades, 24 markers and 60 pairs, and 8.4 ms at the limits of grades, markers and pairs
 * (docs/PERFORMANCE.md), so that 64,000 take half a second, 3.4 s or 9 minutes. It used 244 KiB of stack. */

/* refusal 0: so many settings were reported. Else the refusal's number and place. */
struct pikaplatinum_trials {
    uint32_t refusal;
    uint32_t place;
    uint32_t settings;
};

/*   settings        three whole numbers for each setting, alpha, beta and prior in 1,024ths; a rest of one or two numbers is not read
 *   seed            where each setting's draws start; the seed itself is not drawn
 *   bales           how many are made up for each setting
 *   regularised, tolerance, loop_limit, grades
 *                   as in the call
 *   evidence        two floats for each marker, of which only the length counts: they are not read; an odd last one is no marker
 *   pairs           as in the call
 *   work            as long as pikaplatinum_sizes says; zeros are left in what was needed
 *   report          two numbers for each setting, in order: agreed, not agreed. What is behind them stays as it was, and after a refusal all
 *                   that is lent */
struct pikaplatinum_trials pikaplatinum_try_settings(
    const uint32_t *settings, size_t settings_length, uint32_t seed, uint32_t bales,
    bool regularised, float tolerance, uint32_t loop_limit, uint32_t grades,
    const float *evidence, size_t evidence_length,
    const uint32_t *pairs, size_t pairs_length,
    float *work_floats, size_t work_floats_length,
    uint32_t *work_numbers, size_t work_numbers_length,
    uint32_t *report, size_t report_length);

/* Two readers over one belt: which upper read is matched with which lower read.
 *
 * Two reads may be matched if they have the same marker and are at most `window` ticks apart, whichever came first. Every marker and
 * window is allowed, and any ticks that never fall within their list; ticks do not wrap. Upper reads are taken in order, each with the
 * lowest-indexed unused lower read that it may have. No read is used twice, and no list of matches is longer.
 *
 * Refused, in this order: 1, over 1,024 reads a side, place 0; 2, under two numbers of `matches` for each read of the shorter list, place 0;
 * 10, a tick below the one before it in its list, place the later of the two reads, lower reads being numbered on after the upper
 * ones. */

/* refusal 0: so many matches were written. Else the refusal's number and place. */
struct pikaplatinum_matches {
    uint32_t refusal;
    uint32_t place;
    uint32_t matches;
};

/*   upper, lower    two numbers for each read, its tick and its marker; an odd last number is not read
 *   window          in ticks
 *   matches         of each match the upper read's index, then the lower read's; upper indices rise. What is behind them stays as it was,
 *                   and after a refusal all of it */
struct pikaplatinum_matches pikaplatinum_match_reads(
    const uint32_t *upper, size_t upper_length,
    const uint32_t *lower, size_t lower_length,
    uint32_t window,
    uint32_t *matches, size_t matches_length);

#ifdef __cplusplus
}
#endif

#endif
