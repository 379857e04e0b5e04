/* A whole file in memory. */
#ifndef FILE_H
#define FILE_H

#include <stdbool.h>
#include <stddef.h>
#include <stdint.h>

/* Far above any file that is accepted: the core is to say what is too long. */
enum { FILE_LIMIT = 1024 * 1024 };

struct file {
    uint8_t *bytes;
    size_t length;
};

/* Reads a file; if it cannot, says why on standard error. */
bool file_load(const char *name, struct file *file);

void file_free(struct file *file);

#endif
