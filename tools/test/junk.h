/* Files that nobody should give to a command. */
#ifndef JUNK_H
#define JUNK_H

#include "../../bench/random.h"
#include "../text.h"

enum { JUNK_CLASSES = 8 };

/* A plan and steps of a class: random bytes, words in any order, damaged texts and files, and whole ones between them. */
void make_junk(struct random *r, struct text *plan, struct text *steps);

#endif
