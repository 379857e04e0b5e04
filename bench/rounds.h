/* What plans do on one desk: those of the new edition by their own rule, nothing written out, and those
 * of the present edition in the simulator. */
#ifndef ROUNDS_H
#define ROUNDS_H

#include "random.h"
#include "sim_rig.h"

/* What is left at rest: the words received on each channel, and each task. */
struct one_desk {
    uint32_t words[MAX_CHANNELS + 1];
    struct sim_word word[MAX_CHANNELS + 1][MAX_COUNT];
    struct {
        bool born, done, over;
        struct sim_word word;
    } task[MAX_TASKS + 1];
};

/* A file of the new edition that the converter accepts, run to rest; tasks take turns by chance. */
void rounds_run(struct one_desk *o, const uint8_t *file, struct random *r);

/* An accepted plan, run to rest. */
void plan_run(struct one_desk *o, const uint8_t *plan, size_t length);

/* Whether all channels and tasks are the same; no channel has more words than a task can send. */
bool one_desk_same(const struct one_desk *a, const struct one_desk *b);

#endif
