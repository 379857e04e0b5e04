/* A run: the library's trace, and beside it the simulator, whose every line is held to the library's. So are, after each
 * step, the number of letters, rest and the marked tasks. */
#ifndef WITNESS_H
#define WITNESS_H

#include "asked.h"
#include "watch.h"

struct witness {
    const struct show *show;
    struct watch watch;
    bool differs; /* the simulator has said something else */
    size_t filled, at; /* bytes of the trace, and how many are read */
    bool is_asked; /* whether asked is filled */
    struct asked asked[MORTARSEDGE_MAX_STEPS + 1]; /* by step; 0 is the start */
    uint8_t trace[MORTARSEDGE_OUTPUT_ENOUGH];
};

/* Has the library run the show. The status; what is refused is explained. */
int witness_run(struct witness *witness, const struct show *show);

/* The simulator goes to the start beside it. */
int witness_start(struct witness *witness);

/* The next step's moment. False behind the last step, or where the two differ. */
bool witness_next(struct witness *witness, struct moment *moment);

/* Behind the steps: FAILED, and said, if the two differ anywhere. */
int witness_end(struct witness *witness);

/* All steps held to the trace, and nothing else. The status. */
int witness_hold(struct witness *witness);

#endif
