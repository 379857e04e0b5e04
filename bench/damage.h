/* Damage done to a plan, so that start refuses it. */
#ifndef DAMAGE_H
#define DAMAGE_H

#include "draft.h"
#include "random.h"

/* Before it is written: instructions that 3 to 6 are about, or one too many. */
void damage_draft(struct random *r, struct draft *d);

/* Afterwards: bytes and the length. Room for 8 bytes more is supposed. */
void damage_bytes(struct random *r, uint8_t *plan, size_t *length);

#endif
