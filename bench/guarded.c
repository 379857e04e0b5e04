#define _DEFAULT_SOURCE
#include "guarded.h"

#include <stdio.h>
#include <stdlib.h>
#include <string.h>
#include <sys/mman.h>
#include <unistd.h>

static void protect(uint8_t *start, size_t size, int protection)
{
    if (mprotect(start, size, protection) != 0) {
        perror("mprotect");
        exit(2);
    }
}

struct guarded guarded_new(size_t bytes)
{
    size_t page = (size_t)sysconf(_SC_PAGESIZE);
    size_t size = (bytes + page - 1) / page * page;
    void *all = mmap(NULL, size + 2 * page, PROT_NONE, MAP_PRIVATE | MAP_ANONYMOUS, -1, 0);
    if (all == MAP_FAILED) {
        perror("mmap");
        exit(2);
    }
    struct guarded g = {(uint8_t *)all + page, size};
    protect(g.start, size, PROT_READ | PROT_WRITE);
    return g;
}

uint8_t *guarded_end(const struct guarded *g, size_t bytes)
{
    return g->start + g->size - bytes;
}

const uint8_t *guarded_lend(const struct guarded *g, const uint8_t *bytes, size_t length)
{
    uint8_t *to = guarded_end(g, length);
    protect(g->start, g->size, PROT_READ | PROT_WRITE);
    memcpy(to, bytes, length);
    protect(g->start, g->size, PROT_READ);
    return to;
}
