/* Damage done to the image of a rig, so that 9 is due, or not quite. */
#ifndef LIVE_DAMAGE_H
#define LIVE_DAMAGE_H

#include "live_calls.h"

/* The kinds of damage. The last leaves a rig within the limits that no run would reach. */
enum { DAMAGES = 13, DOCTORED = DAMAGES - 1 };

extern const char *const damage_names[DAMAGES];

/* Does damage of a kind to an image of a rig. */
void damage_image(struct random *r, uint32_t kind, struct live *live);

#endif
