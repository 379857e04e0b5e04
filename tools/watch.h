/* The simulator of bench/, watched step by step: it knows the letters, which no trace tells. It answers nothing by
 * itself; what it says is held to the library's trace (witness.h). */
#ifndef WATCH_H
#define WATCH_H

#include "../bench/sim_rig.h"

/* A letter under way has a number of its own, by the order of posting from 1. */
struct tracked {
    uint32_t id;
    uint32_t forwards; /* how often it was forwarded */
};

struct watch {
    uint32_t steps;  /* so far */
    uint32_t posted; /* letters so far */
    struct tracked mail[MAX_MAIL]; /* by position, from 0 */
    struct sim_rig before, after;
};

/* One step: the rig before and after, what was taken from the mail, what joined it. */
struct moment {
    uint32_t number; /* the step's, from 1 */
    const uint8_t *step;
    uint32_t answer;
    struct sim_received received;
    const struct sim_rig *before, *after;
    const struct sim_letter *taken; /* NULL: none was delivered */
    struct tracked tracked;         /* the one that was delivered */
    const struct sim_letter *posted;
    const struct tracked *posts; /* the letters that were posted, and how many */
    uint32_t posted_count;
    bool forwarded; /* the one posted is the one taken */
};

/* The rig at the start: false if the simulator refuses it. */
bool watch_start(struct watch *watch, uint32_t desks, const uint8_t *plan, size_t length);

/* One step of 4 bytes. What the moment names lives until the next step. */
void watch_step(struct watch *watch, const uint8_t *step, struct moment *moment);

/* Whether an accepted step was an add whose sum passed 65,535: the level has wrapped. */
bool went_over(const struct moment *moment);

/* The instruction that a ready task executes next. */
const struct sim_instruction *next_instruction(const struct sim_rig *rig, uint32_t task);

/* The channel on which a sending or receiving task is. */
uint32_t channel_of(const struct sim_rig *rig, uint32_t task);

#endif
