#include "say.h"

#include <stdio.h>

#include "mortarsedge.h"

int refused(const char *name, uint32_t number)
{
    fprintf(stderr, "driver: %s refused, %u: %s\n", name, (unsigned)number, mortarsedge_refusal_text(number));
    return REFUSED;
}

int broken(const char *name, const char *why)
{
    fprintf(stderr, "driver: %s: %s\n", name, why);
    return BROKEN;
}
