/* Whole files, in and out. `-` is standard input or output. */
#ifndef FILE_H
#define FILE_H

#include <stdbool.h>
#include <stddef.h>
#include <stdint.h>

/* Far above any file that is accepted: the core is to say what is too long. */
enum { FILE_LIMIT = 1024 * 1024 };

struct file {
    const char *name; /* as it is told: `-` is "standard input" */
    uint8_t *bytes;
    size_t length;
};

/* Reads a file; if it cannot, says why. The status. */
int file_read(const char *name, struct file *file);

void file_free(struct file *file);

/* Whether a file is a text: it has bytes, and none is zero. A plan file that is accepted has a zero byte. */
bool file_is_text(const struct file *file);

/* Writes a file whole or not at all: beside its name first, then under it. The status. */
int file_write(const char *name, const void *bytes, size_t length);

#endif
