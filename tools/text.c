#include "text.h"

#include <stdarg.h>
#include <stdio.h>
#include <stdlib.h>
#include <string.h>

void *memory(void *old, size_t bytes)
{
    void *got = realloc(old, bytes);
    if (got == NULL) {
        fprintf(stderr, "mortarsedge: no memory\n");
        exit(2);
    }
    return got;
}

/* Room for so many bytes more, and a zero byte. */
static void grow(struct text *text, size_t more)
{
    if (text->length + more < text->room)
        return;
    text->room = 2 * (text->length + more) + 64;
    text->bytes = memory(text->bytes, text->room);
}

void text_add(struct text *text, const void *bytes, size_t length)
{
    grow(text, length);
    if (length > 0)
        memcpy(text->bytes + text->length, bytes, length);
    text->length += length;
    text->bytes[text->length] = '\0';
}

void text_put(struct text *text, const char *format, ...)
{
    va_list words;
    grow(text, 128);
    va_start(words, format);
    int length = vsnprintf(text->bytes + text->length, text->room - text->length, format, words);
    va_end(words);
    if (length < 0)
        return;
    if ((size_t)length >= text->room - text->length) { /* once more, with room for all of it */
        grow(text, (size_t)length);
        va_start(words, format);
        vsnprintf(text->bytes + text->length, (size_t)length + 1, format, words);
        va_end(words);
    }
    text->length += (size_t)length;
}

void text_pad(struct text *text, size_t column)
{
    size_t line = text->length;
    while (line > 0 && text->bytes[line - 1] != '\n')
        line--;
    do
        text_add(text, " ", 1);
    while (text->length - line < column);
}

void text_free(struct text *text)
{
    free(text->bytes);
    *text = (struct text){NULL, 0, 0};
}
