/* A text that grows while it is written. */
#ifndef TEXT_H
#define TEXT_H

#include <stddef.h>
#include <stdint.h>

struct text {
    char *bytes; /* NULL while it is empty; else a zero byte stands behind the last */
    size_t length, room;
};

/* Memory, or the end of the program with status 2. */
void *memory(void *old, size_t bytes);

/* Writes at the end, as printf does. */
void text_put(struct text *text, const char *format, ...) __attribute__((format(printf, 2, 3)));

void text_add(struct text *text, const void *bytes, size_t length);

/* Spaces up to a column of the last line, from 0; one at least. */
void text_pad(struct text *text, size_t column);

void text_free(struct text *text);

#endif
