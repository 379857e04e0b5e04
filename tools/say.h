/* What the command says on standard error, and its exit statuses. */
#ifndef SAY_H
#define SAY_H

#include <stdint.h>

enum {
    ACCEPTED = 0, /* and yes */
    REFUSED = 1,  /* and no */
    FAILED = 2    /* wrong usage, a file that cannot be read or written, a text that is none */
};

/* A place in a text: line and column from 1. Line 0 is no place. */
struct place {
    uint32_t line, column;
};

/* "mortarsedge: NAME: " and the rest; returns FAILED. */
int fail(const char *name, const char *format, ...) __attribute__((format(printf, 2, 3)));

/* "NAME:LINE:COLUMN: " and the rest; returns FAILED. */
int fail_at(const char *name, struct place place, const char *format, ...) __attribute__((format(printf, 3, 4)));

/* "mortarsedge: NAME refused, NUMBER: " and the number's sentence; returns REFUSED. */
int refuse(const char *name, uint32_t number);

#endif
