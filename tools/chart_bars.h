/* The bars of a chart while it is made: where each task is. */
#ifndef CHART_BARS_H
#define CHART_BARS_H

#include "chart.h"

#define NONE UINT32_MAX /* of a stay or a phase */

struct bars {
    struct chart *chart;
    uint32_t stay[MAX_TASKS + 1], phase[MAX_TASKS + 1]; /* NONE: it is at no desk, or done */
    bool taken[MAX_DESKS + 1][MAX_TASKS + 1];           /* slots that are used now */
};

void bars_start(struct bars *bars, struct chart *chart);

/* A task after a step: its bar goes on, changes, begins or ends. */
void bars_follow(struct bars *bars, uint32_t task, const struct sim_task *after, uint32_t row);

/* The bar of a task if it stands at this desk, else the lane's edge. */
struct spot_at bars_spot(const struct bars *bars, uint8_t desk, uint32_t task);

/* What is there at the end goes on to the last row. */
void bars_end(struct bars *bars);

/* Room for one more in an array of count: it doubles at powers of two. */
void *chart_more(void *array, uint32_t count, size_t size);

#endif
