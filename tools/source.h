/* A plan as text: what was read, with the place of each thing. */
#ifndef SOURCE_H
#define SOURCE_H

#include "words.h"

/* More than a plan may have, so that the core is to say what is too many; and few enough for the fields of a plan file. */
enum { SOURCE_TASKS = 500, SOURCE_CHANNELS = 500, SOURCE_CODE = 15000, NAME_ROOM = 33 };

struct source_task {
    char name[NAME_ROOM]; /* empty: none */
    struct place place;
    uint32_t first, count; /* its instructions */
};

struct source_instruction {
    uint8_t kind, level;
    uint16_t argument;
    struct word name; /* of a task or a channel, if it is given by a name; else of length 0 */
    struct place place;
};

struct source_channel {
    char name[NAME_ROOM];
    uint32_t number; /* 0 until it gets one */
};

struct source {
    const char *file;
    uint32_t tasks, channels, code_length;
    bool repeats; /* whether it has one */
    struct source_task task[SOURCE_TASKS + 1]; /* by number, from 1 */
    struct source_channel channel[SOURCE_CHANNELS];
    struct source_instruction code[SOURCE_CODE];
};

/* Reads a plan's text. The status; what is no plan's text is said with line and column. */
int source_read(const struct file *file, struct source *source);

/* The number of a task or a channel by its name; 0 if there is none. */
uint32_t source_task_number(const struct source *source, const struct word *name);
uint32_t source_channel_number(const struct source *source, const struct word *name);

/* Checks a name, and keeps it; else says what is wrong with it. */
bool take_name(const char *file, const struct word *word, char name[NAME_ROOM]);

/* Numbers for all names: where a create or a channel is given by one. The status. */
int source_resolve(struct source *source);

enum { SOURCE_BYTES = 4 + 4 * SOURCE_TASKS + 4 * SOURCE_CODE };

/* The plan file of the new edition, of at most SOURCE_BYTES; returns its length. */
size_t source_bytes(const struct source *source, uint8_t *plan);

#endif
