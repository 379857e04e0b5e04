/* Random files of the new edition: accepted, and refused by each number. */
#ifndef MAKE_REPEATS_H
#define MAKE_REPEATS_H

#include "draft.h"
#include "random.h"

enum { REPEATS_ROOM = DRAFT_BYTES + 32 };

struct repeats_file {
    const char *class_name;
    size_t length;
    uint8_t bytes[REPEATS_ROOM];
};

/* The file of a seed and an index: the same on every machine. */
void make_repeats(struct repeats_file *f, uint64_t seed, uint64_t index);

#endif
