#include "converter.h"

#include <string.h>

#include "guarded.h"

enum { LONGEST = 65535, MARGIN = 64 };

static uint8_t mark_at(size_t i)
{
    return (uint8_t)(0x80 + i % 113);
}

bool converter_does(converter *convert, const uint8_t *file, size_t length, size_t room, uint64_t answer,
                    const uint8_t *written)
{
    static struct guarded file_memory, out_memory;
    if (file_memory.start == NULL) {
        file_memory = guarded_new(LONGEST);
        out_memory = guarded_new(LONGEST + MARGIN);
    }
    uint8_t *from = guarded_end(&out_memory, room + MARGIN), *out = from + MARGIN;
    size_t filled = (size_t)(answer / 256);
    for (size_t i = 0; i < room + MARGIN; i++)
        from[i] = mark_at(i);
    if (convert(guarded_lend(&file_memory, file, length), length, out, room) != answer)
        return false;
    if (filled > room || memcmp(out, written, filled) != 0)
        return false;
    for (size_t i = 0; i < room + MARGIN; i++)
        if ((i < MARGIN || i >= MARGIN + filled) && from[i] != mark_at(i))
            return false;
    return true;
}
