/* Tonnage by grade: what the beliefs of a shift's bales make of the morning's weights.
 *
 * The CSV has a line `bale,kilograms` for each bale that was weighed, and the shift has the bale files, one after the other, each up to its end word. Bales are
 * numbered from 0 as they come, refused ones too, and are run as the program `shift` runs them: 24 grades, 24 markers and 140 pairs at most, tolerance 0.006,
 * loop limit 10,000. A grade's grams in a bale are the whole part of the bale's grams times its present belief, taken as an exact fraction; a grade without a
 * belief gets 0. A total is the sum of a grade's grams over all lines. No line gives a grade more than its bale weighs; the grades of a bale, though, are believed
 * in one by one, so that together they may have more than the bale, or less.
 *
 * The caller owns all memory. Assumed of the caller, and checked by nothing: each pointer is valid for as many entries as the length beside it says (a null pointer
 * only with length 0), is aligned for its type, and the totals overlap neither input. Everything else is checked, and every input is answered.
 *
 * Nothing is allocated, nothing is kept between calls, and no function of the library calls itself, directly or through others. The work that the beliefs need
 * is on the stack. No theorem bounds it; measured at its peak, as the older Rattle built it, the call took less than 320 KiB. */
#ifndef TONNAGE_H
#define TONNAGE_H

#include <stddef.h>
#include <stdint.h>

#ifdef __cplusplus
extern "C" {
#endif

/* How many totals there are: one for each grade, used or not. */
#define TONNAGE_GRADES 1024

/* Why a call is refused. 2 comes before all lines; of the others the lowest line wins, and on one line 14. A refused call leaves the totals as they were. */
enum tonnage_refusal {
    TONNAGE_WEIGHED = 0,
    TONNAGE_TOO_SMALL = 2,     /* under 1,024 totals are lent; place 0 */
    TONNAGE_MALFORMED = 14,    /* a malformed line; place the line */
    TONNAGE_NO_LISTING = 15    /* a line's bale is not in the shift, or is refused; place the line */
};

/* refusal 0: so many lines were weighed. Else the refusal's number and place; lines are numbered from 0. */
struct tonnage_reply {
    uint32_t refusal;
    uint32_t place;
    uint32_t lines;
};

/*   csv             lines `bale,kilograms`, each with a line feed at its end: bale from 0 to 9,999, above that of the line before, kilograms from 1 to 2,000, both
 *                   without leading zeros, and nothing else, no space and no carriage return. What follows the last line feed, if anything, is a malformed line.
 *                   Of no bytes there is no line, and all totals are 0
 *   shift           bale files that follow one another. What is left at the end without an end word is a bale too, and refused. Bales that no line names,
 *                   and all that comes behind the last that a line does, make no difference
 *   totals          by grade, in grams. The first 1,024 are set, not added to; what is behind them stays as it was, and after a refusal all of them */
struct tonnage_reply tonnage_by_grade(
    const uint8_t *csv, size_t csv_length,
    const uint8_t *shift, size_t shift_length,
    uint64_t *totals, size_t totals_length);

#ifdef __cplusplus
}
#endif

#endif
