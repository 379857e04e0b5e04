/* Views of tasks along a live rig: every answer is the library's. */
#ifndef VIEW_H
#define VIEW_H

#include "witness.h"

/* How views are written. */
struct view_style {
    bool tablet;    /* what tablets show, and not the driver */
    bool along;     /* after the start and after each step, the tasks whose view it changed */
    bool explained; /* in words */
};

/* Steps a live rig through a show that was run, and writes views. The status: FAILED if a step of the live rig is answered
 * otherwise than in the trace. */
int write_views(const struct witness *witness, struct view_style style, struct text *to);

#endif
