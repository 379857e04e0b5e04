/* Names of tasks and channels, from a plan's text. */
#ifndef NAMES_H
#define NAMES_H

#include "library.h"
#include "source.h"
#include "text.h"

struct names {
    const char *task[MORTARSEDGE_MAX_TASKS + 1]; /* NULL: none */
    const char *channel[MORTARSEDGE_MAX_CHANNELS + 1];
};

/* The names of a text; none if source is NULL. They live as long as the source. */
void names_of(const struct source *source, struct names *names);

/* "task 2 (lamp)", "channel 3 (cue)"; a name in brackets only if there is one. */
void put_task(struct text *to, const struct names *names, uint32_t task);
void put_channel(struct text *to, const struct names *names, uint32_t channel);

/* The name, or the number. */
void put_task_name(struct text *to, const struct names *names, uint32_t task);
void put_channel_name(struct text *to, const struct names *names, uint32_t channel);

/* An instruction in the notation of a plan's text: 4 bytes of a plan file. */
void put_instruction(struct text *to, const struct names *names, const uint8_t *bytes);

#endif
