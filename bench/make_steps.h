/* Random step files for an accepted plan, led by a simulated rig so that many
 * steps are accepted. */
#ifndef MAKE_STEPS_H
#define MAKE_STEPS_H

#include "random.h"
#include "sim_rig.h"

struct step_style {
    uint32_t run, deliver, move, wild; /* weights */
    uint32_t led;                      /* of 100 steps, how many look at the rig */
    uint32_t oldest;                   /* of 100 deliveries, how many take the first letter */
    uint32_t hoard;                    /* no delivery while fewer letters are in the mail */
    uint32_t called;                   /* of 100 step files, how many are what dispatchers choose */
};

/* A ready task, from a random one on; 0 if there is none. */
uint32_t ready_task(struct random *r, const struct sim_rig *rig);

/* At most count steps; returns how many. A rig at rest ends them soon. */
uint32_t make_steps(struct random *r, const struct step_style *style, struct sim_rig *rig,
                    uint8_t *steps, uint32_t count);

#endif
