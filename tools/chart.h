/* A run as a picture: lanes for desks, bars for tasks, arrows for letters. What is drawn, without how. */
#ifndef CHART_H
#define CHART_H

#include "witness.h"

/* A point of a lane: the bar of a task, or the lane's edge where task is 0. */
struct spot_at {
    uint8_t desk, task;
    uint32_t slot; /* of the task's bar */
};

/* A task at a desk, from birth or arrival to departure or end. Rows: 0 is the start, then the steps. */
struct stay {
    uint8_t task, desk;
    bool done; /* it ends because the task is done */
    uint32_t slot, from, to;
};

/* A part of a stay in one state. */
struct phase {
    uint32_t stay, from, to;
    uint8_t state;
};

struct arrow {
    struct sim_letter letter;
    bool forward;               /* it was posted by a forwarding */
    uint32_t posted, delivered; /* rows; 0: it is under way at the end */
    struct spot_at from, to;
};

/* A step's row. */
struct row {
    char *step, *outcome, *received; /* in words; NULL: no word */
    uint32_t answer;
    struct spot_at at; /* desk 0: nowhere */
    bool over;         /* its sum went over the top */
};

struct chart {
    const struct names *names;
    uint32_t desks, tasks, steps; /* the last row is steps + 1, the end */
    uint32_t slots[MAX_DESKS + 1]; /* bars beside each other, by desk */
    uint32_t stays, phases, arrows;
    struct stay *stay;
    struct phase *phase;
    struct arrow *arrow;
    struct row *row; /* by step, from 1; the last stands for the end */
    bool at_rest;
    uint64_t over; /* marked tasks */
};

/* The chart of a run. The status. */
int chart_make(struct witness *witness, struct chart *chart);

void chart_free(struct chart *chart);

void chart_svg(const struct chart *chart, struct text *to);
void chart_text(const struct chart *chart, struct text *to);

/* "3 cue: 7 0 0 0" and such: what stands at the end. */
void chart_end_words(const struct chart *chart, struct text *to);

#endif
