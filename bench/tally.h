/* What a comparison has reached, counted from the traces. */
#ifndef TALLY_H
#define TALLY_H

#include <stdbool.h>

#include "generate.h"

struct tally {
    uint64_t runs;
    uint64_t answers[21]; /* of runs with enough output */
    uint64_t calls;       /* of the run, short outputs too */
    uint64_t short_outputs; /* calls answered 20 */
    uint64_t steps[21];   /* answers of steps */
    uint64_t words;
    uint64_t moves;
    uint64_t at_rest;
    uint64_t over; /* tasks that met a sum over the top */
    uint64_t finished; /* runs in which every task that was born is done */
    uint32_t longest_mail;
};

/* Counts an accepted run by its trace; false if the header's function does not
 * take each line apart, the steps' in order, those of the marked tasks by rising
 * number, and the last, or if the accepted runs do not tell whether the show has
 * finished. */
bool tally_trace(struct tally *t, const struct generated *g, const uint8_t *trace, size_t length);

void tally_print(const struct tally *t);

/* Whether each answer, words, moves, marks, rest, an end and a full mail were reached. */
bool tally_is_full(const struct tally *t);

#endif
