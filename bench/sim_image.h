/* The image of the simulator's rig: 34,120 bytes (docs/FORMATS.md, Rig image).
 *
 * Written from that page alone; it shares no line with the library. */
#ifndef SIM_IMAGE_H
#define SIM_IMAGE_H

#include "sim_rig.h"

/* Where the parts of an image begin. */
enum {
    IMAGE_VERSION = 0,
    IMAGE_PLAN_LENGTH = 4,
    IMAGE_LETTERS = 8,
    IMAGE_DESKS = 12,
    IMAGE_ZERO = 13,
    IMAGE_CHOSEN = 14,
    IMAGE_PLAN = 20,
    IMAGE_CHANNEL_WORDS = IMAGE_PLAN + MAX_PLAN,                        /* 8 bytes for each channel */
    IMAGE_TASK_WORDS = IMAGE_CHANNEL_WORDS + 8 * MAX_CHANNELS,          /* 16 for each task: its fields, its children */
    IMAGE_WORDS = IMAGE_TASK_WORDS + 16 * MAX_TASKS,                    /* 8 for each task: its levels */
    IMAGE_PARENTS = IMAGE_WORDS + 8 * MAX_TASKS,                        /* 16 for each desk and task */
    IMAGE_READY = IMAGE_PARENTS + 16 * MAX_DESKS * MAX_TASKS,           /* 8 for each desk */
    IMAGE_POINTER_DESKS = IMAGE_READY + 8 * MAX_DESKS,                  /* a byte for each desk and channel, */
    IMAGE_POINTER_COUNTS = IMAGE_POINTER_DESKS + MAX_DESKS * MAX_CHANNELS, /* two bytes, */
    IMAGE_HELD_DESKS = IMAGE_POINTER_COUNTS + 2 * MAX_DESKS * MAX_CHANNELS, /* and a byte in each of these */
    IMAGE_HELD_NUMBERS = IMAGE_HELD_DESKS + MAX_DESKS * MAX_CHANNELS,
    IMAGE_ADVERTS = IMAGE_HELD_NUMBERS + MAX_DESKS * MAX_CHANNELS,
    IMAGE_MAIL = IMAGE_ADVERTS + MAX_DESKS * MAX_CHANNELS, /* 16 for each letter */
    IMAGE_BYTES = IMAGE_MAIL + 16 * MAX_MAIL
};

/* Writes the image of a rig whose unused parts are zero. */
void sim_image_write(const struct sim_rig *rig, uint8_t image[IMAGE_BYTES]);

/* Reads the rig that bytes hold; false if they are not its image. What a rule asks for may still be out of its limits. */
bool sim_image_read(const uint8_t image[IMAGE_BYTES], struct sim_rig *rig);

/* Whether refusal 9 is not due: the numbers of a rig that was read are within the limits. */
bool sim_rig_is_right(const struct sim_rig *rig);

#endif
