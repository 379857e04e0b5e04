/* Steps as they are given to a command: a step file, or a text that becomes one. */
#ifndef STEPS_INPUT_H
#define STEPS_INPUT_H

#include "plan_input.h"

struct steps_input {
    struct file file;
    const uint8_t *steps;
    size_t length;
    struct place *place; /* by step, from 0; NULL if it was given as bytes */
    uint8_t *made;
};

/* What a command runs: an accepted plan on desks, and steps. */
struct show {
    uint32_t desks;
    struct plan_input plan;
    struct steps_input steps;
};

/* The names of both, and whether they are to be read as bytes even without a zero byte in them. */
struct show_names {
    const char *plan, *steps;
    bool plan_bytes, steps_bytes;
};

/* Reads plan and steps. The status; what is refused is explained. The library has then accepted the plan on these
 * desks. */
int show_read(uint32_t desks, const struct show_names *names, struct show *show);

/* Where a step stands: "FILE:LINE:COLUMN: " or "FILE: ". */
void put_step_place(struct text *to, const struct steps_input *input, uint32_t step);

void show_free(struct show *show);

/* Steps of a text, for a plan that is accepted. The status. */
int steps_make(struct show *show);

#endif
