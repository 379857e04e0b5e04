/* Memory between two pages that may not be touched. */
#ifndef GUARDED_H
#define GUARDED_H

#include <stddef.h>
#include <stdint.h>

struct guarded {
    uint8_t *start; /* a forbidden page lies before */
    size_t size;    /* whole pages; a forbidden page lies behind */
};

/* Room for at least so many bytes; ends the program if there is none. */
struct guarded guarded_new(size_t bytes);

/* The last bytes before the forbidden page behind. */
uint8_t *guarded_end(const struct guarded *g, size_t bytes);

/* Copies bytes to the end and makes all of it read-only. */
const uint8_t *guarded_lend(const struct guarded *g, const uint8_t *bytes, size_t length);

#endif
