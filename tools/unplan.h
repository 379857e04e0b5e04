/* A plan file as text. */
#ifndef UNPLAN_H
#define UNPLAN_H

#include "names.h"

/* The text of a plan file that the converter accepts, of either edition. A plan file has no names; those that are given
 * here are declared in the text, and used. */
void unplan(const uint8_t *plan, const struct names *names, struct text *to);

#endif
