#include "say.h"

#include <stdarg.h>
#include <stdio.h>

#include "mortarsedge.h"

int fail(const char *name, const char *format, ...)
{
    va_list words;
    fprintf(stderr, "mortarsedge: %s: ", name);
    va_start(words, format);
    vfprintf(stderr, format, words);
    va_end(words);
    fputc('\n', stderr);
    return FAILED;
}

int fail_at(const char *name, struct place place, const char *format, ...)
{
    va_list words;
    fprintf(stderr, "%s:%u:%u: ", name, place.line, place.column);
    va_start(words, format);
    vfprintf(stderr, format, words);
    va_end(words);
    fputc('\n', stderr);
    return FAILED;
}

int refuse(const char *name, uint32_t number)
{
    fprintf(stderr, "mortarsedge: %s refused, %u: %s\n", name, number, mortarsedge_refusal_text(number));
    return REFUSED;
}
