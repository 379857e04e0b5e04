/* repeats_vectors FILE: holds a converter, named by -DHELD=name, and sim_convert to recorded files of another
 * model.
 *
 * A record: when it holds (1 byte), the lengths of the file and of the lent output (2 bytes each,
 * little-endian), the answer (1 byte), the length of what is written (2 bytes), the file, the written
 * bytes. Records of rules that are no longer ours, one end of a channel or one level, are passed over. */
#include <stdio.h>
#include <stdlib.h>

#include "converter.h"
#include "sim_convert.h"
#include "sim_plan.h"
#include "simulator.h"

enum { HEADER = 8, BEFORE_102 = 1, BEFORE_111 = 4, ROOM = 1 << 20 };

struct record {
    size_t length, room, filled;
    uint64_t answer;
    const uint8_t *file, *written;
};

static struct record record_at(const uint8_t *p)
{
    struct record r = {.length = sim_u16(p + 1), .room = sim_u16(p + 3), .filled = sim_u16(p + 6)};
    r.answer = p[5] + 256 * (uint64_t)r.filled;
    r.file = p + HEADER;
    r.written = r.file + r.length;
    return r;
}

/* Answer and bytes are as recorded, and what is written is accepted by plan check. */
static bool holds(const struct record *r)
{
    if (r->answer % 256 == 0 && sim_plan_check(1, r->written, r->filled) != 0)
        return false;
    return converter_does(HELD, r->file, r->length, r->room, r->answer, r->written)
        && converter_does(sim_convert, r->file, r->length, r->room, r->answer, r->written);
}

static size_t read_file(const char *name, uint8_t *bytes)
{
    FILE *file = fopen(name, "rb");
    size_t size = file == NULL ? 0 : fread(bytes, 1, ROOM, file);
    if (file == NULL || fclose(file) != 0) {
        fprintf(stderr, "repeats_vectors: %s cannot be read\n", name);
        exit(2);
    }
    return size;
}

int main(int argc, char **argv)
{
    static uint8_t bytes[ROOM];
    unsigned records = 0, held = 0, differ = 0, answers[256] = {0};
    if (argc != 2) {
        fprintf(stderr, "usage: repeats_vectors FILE\n");
        return 2;
    }
    size_t size = read_file(argv[1], bytes), at = 0;
    while (size - at >= HEADER) {
        struct record r = record_at(bytes + at);
        if (size - at - HEADER < r.length + r.filled)
            break;
        if ((bytes[at] & (BEFORE_102 | BEFORE_111)) == 0) {
            held++;
            answers[r.answer % 256]++;
            differ += !holds(&r);
        }
        records++;
        at += HEADER + r.length + r.filled;
    }
    if (at != size || held == 0) {
        fprintf(stderr, "repeats_vectors: %s ends within a record\n", argv[1]);
        return 2;
    }
    if (differ > 0) {
        fprintf(stderr, "repeats_vectors: %u of %u records differ\n", differ, held);
        return 1;
    }
    printf("repeats_vectors: %u of %u records hold:", held, records);
    for (unsigned i = 0; i < 256; i++)
        if (answers[i] > 0)
            printf(" %u: %u", i, answers[i]);
    printf("\n");
    return 0;
}
