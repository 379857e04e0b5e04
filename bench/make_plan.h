/* Random accepted plans whose words flow. */
#ifndef MAKE_PLAN_H
#define MAKE_PLAN_H

#include "draft.h"
#include "random.h"

struct plan_style {
    uint32_t tasks;
    uint32_t channels;
    uint32_t events;  /* transfers, sets, adds, early ends */
    uint32_t words;   /* of 100 events, how many transfers */
    uint32_t changes; /* made afterwards, so that the plan may come to a stop */
    bool wide;        /* task 1 creates most of the others */
};

void make_plan(struct random *r, const struct plan_style *style, struct draft *d);

/* Many senders, each with a first send, before few receivers: fills the mail. */
void make_crowd(struct random *r, struct draft *d);

#endif
