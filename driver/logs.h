/* The sender's and the receiver's log of a run. */
#ifndef DRIVER_LOGS_H
#define DRIVER_LOGS_H

#include <stdbool.h>

#include "mortarsedge.h"

struct log {
    size_t length;
    uint8_t bytes[MORTARSEDGE_MAX_LOG];
};

struct logs {
    struct log sent, received;
    uint32_t after; /* the step after which both were taken */
};

/* Both logs of an accepted plan and step file, taken after the last step; of 2,000 steps, after
 * the 1,999th. False if the library answers otherwise than it promises. */
bool logs_of(uint32_t desks, const uint8_t *plan, size_t plan_length, const uint8_t *steps, size_t steps_length,
             struct logs *logs);

#endif
