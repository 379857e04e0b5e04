/* What the library says of the rig after each step: asked by a run of the steps up to it. A beginning of the steps gives a
 * beginning of the lines, so that this is the rig of the whole run at that point. */
#ifndef ASKED_H
#define ASKED_H

#include "steps_input.h"

struct asked {
    uint64_t over; /* marked tasks: bit t - 1 for task t */
    uint32_t letters;
    bool at_rest;
};

/* Asks after each step, 0 to all of them: count + 1 answers. False if the library answers otherwise than it promises. */
bool ask_all(const struct show *show, struct asked *asked);

#endif
