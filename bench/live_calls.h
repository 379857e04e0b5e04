/* The calls of a live rig, made of the library and of the simulator on the same bytes. Whatever differs ends the
 * program.
 *
 * The library's buffers end at a forbidden page; a rig that may not be written is lent read-only. */
#ifndef LIVE_CALLS_H
#define LIVE_CALLS_H

#include "random.h"
#include "sim_live.h"

enum { LIVE_MARGIN = 64 }; /* bytes lent behind an image, at most */

/* The rig that both have: the image after the last call. */
struct live {
    uint8_t image[IMAGE_BYTES];
    size_t length; /* lent: shorter than an image, or longer */
};

/* How often calls got each answer, and what they reached. */
struct live_tally {
    uint64_t starts[21], steps[21], dispatches[21], made[3], reports[21];
    uint64_t panels, views, rests, words, at_rest;
    uint64_t moves; /* accepted ones */
    uint32_t most_letters;
};

extern struct live_tally live_tally;

/* Says what differs and where, and ends the program with 1. */
void live_differ(const char *what);

/* What is tried: said where something differs. */
extern char live_name[200];

void live_prepare(void);

/* The start of a plan, with a buffer of so many bytes: the answer. */
uint32_t live_start(struct live *live, uint32_t desks, const uint8_t *plan, size_t plan_length);

/* A step with a record of so many bytes: the answer. */
uint32_t live_step(struct live *live, uint32_t kind, uint32_t task, uint32_t number, size_t record_length);

/* A dispatch with outputs of so many bytes: the answer. */
uint64_t live_dispatch(struct live *live, uint32_t desk, size_t steps_length, size_t records_length);

/* What is asked of a rig and leaves it as it is. */
void live_panel(const struct live *live, size_t counts_length);
void live_tablet(const struct live *live, uint32_t task, size_t out_length);
void live_driver(const struct live *live, uint32_t task, size_t out_length);
void live_rest(const struct live *live);

#endif
