/* The proved library, as the command uses it: every answer comes from here. */
#ifndef LIBRARY_H
#define LIBRARY_H

#include "mortarsedge.h"

static inline uint32_t u16(const uint8_t *bytes)
{
    return (uint32_t)bytes[0] + 256 * (uint32_t)bytes[1];
}

#endif
