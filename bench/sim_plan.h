/* A plan file: its limits, its instructions, and who uses what in it. */
#ifndef SIM_PLAN_H
#define SIM_PLAN_H

#include <stdbool.h>
#include <stddef.h>
#include <stdint.h>

#ifndef MUTANT
#define MUTANT 0 /* a wrong rule, by its number: see mutants.sh and finish_mutants.sh */
#endif

enum {
    MAX_DESKS = 6,
    MAX_TASKS = 64,
    MAX_CHANNELS = 128,
    MAX_COUNT = 64, /* instructions of a task */
    MAX_CODE = MAX_TASKS * MAX_COUNT,
    MAX_PLAN = 4 + 4 * MAX_TASKS + 4 * MAX_CODE, /* bytes of a plan file */
    MAX_STEPS = 2000,
    LEVELS = 4 /* of a word */
};

enum { CREATE = 1, SYNC, FINISH, SEND, RECEIVE, SET, ADD };

/* By task or channel number; 0 is nobody. */
struct sim_users {
    uint8_t creator[MAX_TASKS + 1];
    uint8_t sender[MAX_CHANNELS + 1];
    uint8_t receiver[MAX_CHANNELS + 1];
};

static inline uint32_t sim_u16(const uint8_t *p)
{
    return (uint32_t)p[0] | (uint32_t)p[1] << 8;
}

static inline void put_u16(uint8_t *p, uint32_t n)
{
    p[0] = (uint8_t)n;
    p[1] = (uint8_t)(n >> 8);
}

/* Refusal 2 is not due: the header, and the length that follows from it. */
bool sim_layout_is_right(const uint8_t *plan, size_t length);

/* Refusal 3 is not due for the instruction at p, in a plan of so many tasks. */
bool sim_instruction_is_right(const uint8_t *p, uint32_t tasks);

/* Refusals 1 to 6, or 0; where it is 0, users are filled in. */
uint32_t sim_plan_users(uint32_t desks, const uint8_t *plan, size_t length,
                        struct sim_users *users);

#endif
