/* Images of rigs that no run would reach. */
#ifndef LIVE_DOCTOR_H
#define LIVE_DOCTOR_H

#include "random.h"
#include "sim_image.h"

/* Some numbers of the rig become others within the limits. */
void doctor_image(struct random *r, uint8_t *image);

/* A number of the rig is then just outside its limits, in most cases; it stays an image. */
void overstep_image(struct random *r, uint8_t *image);

#endif
