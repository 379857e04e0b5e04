/* What the driver says on standard error, and its exit statuses. */
#ifndef SAY_H
#define SAY_H

#include <stdint.h>

enum {
    DONE = 0,    /* the run was done */
    REFUSED = 1, /* the desks or a file are refused */
    USAGE = 2,   /* wrong usage, or a line that is none */
    BROKEN = 3   /* a file cannot be read, or the levels or the logs cannot be written */
};

/* "driver: NAME refused, NUMBER: " and the number's text; returns REFUSED. */
int refused(const char *name, uint32_t number);

/* "driver: NAME: " and why; returns BROKEN. */
int broken(const char *name, const char *why);

#endif
