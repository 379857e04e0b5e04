/* A whole file, read into memory. */
#ifndef WHOLE_FILE_H
#define WHOLE_FILE_H

#include <stddef.h>
#include <stdint.h>

/* The file's bytes, to be freed by the caller, and their number; NULL where it cannot be read. */
uint8_t *read_whole(const char *name, size_t *length);

#endif
