/* Places in a plan that a refusal is about, each told in a line. */
#ifndef SPOT_H
#define SPOT_H

#include "plan_input.h"

enum { SPOTS = 10 }; /* told; further ones are counted */

struct search {
    const struct plan_input *input;
    uint32_t found;
};

/* The instructions of a task in the given file, and one of them, from 1. */
uint32_t task_count(const struct search *search, uint32_t task);
const uint8_t *task_code(const struct search *search, uint32_t task, uint32_t index);

/* "channel 3 (cue)", for a message. */
struct label {
    char bytes[64];
};

struct label channel_label(const struct search *search, uint32_t channel);

/* Something about instruction number index of a task; 0 is the task itself. */
void spot(struct search *search, uint32_t task, uint32_t index, const char *format, ...)
    __attribute__((format(printf, 4, 5)));

/* Something about the file as a whole, at a byte. */
void spot_byte(struct search *search, size_t byte, const char *format, ...) __attribute__((format(printf, 3, 4)));

/* What the numbers are about, each over the whole file. */
void find_layout(struct search *search);       /* 2 */
void find_instructions(struct search *search); /* 3 */
void find_finishes(struct search *search);     /* 4 */
void find_creates(struct search *search);      /* 5 */
void find_channels(struct search *search);     /* 6 */
void find_repeats(struct search *search);      /* 21 */
void find_repeated(struct search *search);     /* 22 */
void find_long(struct search *search);         /* 23 */

#endif
