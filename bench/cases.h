/* The inputs of the benchmark. */
#ifndef CASES_H
#define CASES_H

#include <stdbool.h>

#include "draft.h"

struct bench_case {
    const char *name;
    const char *about;
    void (*make)(struct bench_case *c);
    bool check_only; /* plan check, not run */
    uint32_t in, out; /* channels of the task that moves to and fro */
    uint32_t desks;
    size_t plan_length;
    size_t steps_length;
    uint8_t plan[DRAFT_BYTES];
    uint8_t steps[4 * MAX_STEPS];
    /* What the steps do, filled in when they are made. */
    uint32_t accepted, moves, deliveries, words;
    uint32_t mail; /* letters in the mail, on average */
};

enum { CASES = 12 };

/* The i-th case, made; NULL behind the last. */
struct bench_case *case_at(unsigned i);

/* The case of this name, made; NULL if there is none. */
struct bench_case *case_named(const char *name);

#endif
