/* A run in words. */
#ifndef EXPLAIN_H
#define EXPLAIN_H

#include "witness.h"

/* Each step, what happened, and the mail then. The status. */
int explain_run(struct witness *witness, struct text *to);

/* Only the refused steps, each on a line with its place. The status. */
int explain_refused(struct witness *witness, struct text *to);

/* The steps as text: letters by what they are, or by their positions. The status. */
int unsteps(struct witness *witness, bool positions, struct text *to);

#endif
