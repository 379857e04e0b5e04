/* A plan in the making, and its bytes. It may have one task and one
 * instruction more than a plan file may, so that refusals can be made. */
#ifndef DRAFT_H
#define DRAFT_H

#include "sim_plan.h"

enum {
    DRAFT_TASKS = MAX_TASKS + 1,
    DRAFT_COUNT = MAX_COUNT + 1,
    DRAFT_BYTES = 4 + 4 * DRAFT_TASKS + 4 * DRAFT_TASKS * DRAFT_COUNT
};

struct draft_instruction {
    uint16_t kind;
    uint16_t argument;
    uint8_t level; /* the second byte */
};

struct draft_task {
    uint32_t count;
    struct draft_instruction code[DRAFT_COUNT];
};

struct draft {
    uint32_t tasks;
    struct draft_task task[DRAFT_TASKS + 1]; /* by number, from 1 */
};

void draft_clear(struct draft *d, uint32_t tasks);

/* Adds an instruction at a task's end, on a level or on level 0; one that does not fit is left out. */
void draft_add_on(struct draft *d, uint32_t task, uint32_t level, uint32_t kind, uint32_t argument);
void draft_add(struct draft *d, uint32_t task, uint32_t kind, uint32_t argument);

void draft_remove(struct draft *d, uint32_t task, uint32_t index);

/* The plan file, of at most DRAFT_BYTES; returns its length. */
size_t draft_write(const struct draft *d, uint8_t *plan);

#endif
