/* A plan as it is given to a command: a plan file, or a text that becomes one. */
#ifndef PLAN_INPUT_H
#define PLAN_INPUT_H

#include "names.h"

struct plan_input {
    struct file file;
    struct source *source; /* NULL if it was given as bytes */
    struct names names;
    const uint8_t *given;  /* the plan file, of either edition */
    size_t given_length;
    const uint8_t *plan;   /* the plan file to run: the same, or with its repeats written out */
    size_t length;
    uint8_t made[SOURCE_BYTES], written[MORTARSEDGE_MAX_PLAN];
};

/* Reads it; where bytes is true, as bytes even without a zero byte in it. A text with repeats is written out by the
 * converter. The status; what is refused is explained. */
int plan_read(const char *name, bool bytes, struct plan_input *input);

/* Asks the library whether it may be started on so many desks. The status; what is refused is explained. */
int plan_check(const struct plan_input *input, uint32_t desks);

/* Asks the converter, which takes either edition: fills plan and length. The status; what is refused is explained. */
int plan_convert(struct plan_input *input);

void plan_free(struct plan_input *input);

#endif
