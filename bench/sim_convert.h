/* The converter of plans with repeats, written from the paper alone: it shares no line with the library. */
#ifndef SIM_CONVERT_H
#define SIM_CONVERT_H

#include <stddef.h>
#include <stdint.h>

enum {
    REPEAT = 8,     /* kinds of the new edition: a repeat, its argument the rounds, */
    REPEAT_END = 9, /* and its end */
    MAX_ROUNDS = 64
};

/* Writes the present edition of a file of the new one, with every repeat written out: the number, and
 * 256 times the bytes written. A refused call leaves the output as it was and has written none; bytes
 * behind the written plan are unchanged. */
uint64_t sim_convert(const uint8_t *file, size_t length, uint8_t *out, size_t out_length);

#endif
