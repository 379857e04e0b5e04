/* A converter of plans with repeats, called as a driver may call it. */
#ifndef CONVERTER_H
#define CONVERTER_H

#include <stdbool.h>
#include <stddef.h>
#include <stdint.h>

/* File, length, output, length: sim_convert, or the library's. */
typedef uint64_t converter(const uint8_t *, size_t, uint8_t *, size_t);

/* The converter that is held to recorded files and compared with sim_convert: -DHELD=name. */
converter HELD;

/* Whether a converter gives this answer for a file and an output of `room` bytes, writes these bytes
 * and leaves every other one as it was, some before the output too. The file is read-only; file and
 * output end at a page that may not be touched. */
bool converter_does(converter *convert, const uint8_t *file, size_t length, size_t room, uint64_t answer,
                    const uint8_t *written);

#endif
