/* Runs to be compared, from a seed and an index: the same on every machine. */
#ifndef GENERATE_H
#define GENERATE_H

#include "draft.h"

enum {
    PLAN_ROOM = DRAFT_BYTES + 32,
    STEPS_ROOM = 4 * (MAX_STEPS + 100)
};

struct generated {
    const char *class_name;
    uint32_t desks;
    size_t plan_length;
    size_t steps_length;
    uint8_t plan[PLAN_ROOM];
    uint8_t steps[STEPS_ROOM];
};

void generate(struct generated *g, uint64_t seed, uint64_t index);

#endif
