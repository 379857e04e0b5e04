/* vectors FILE...: holds the simulator to recorded runs of another model.
 *
 * A record: desks (1 byte), the lengths of plan, steps and expected output
 * (2 bytes each, little-endian), then the three. The expected output is the
 * trace, or `refused` and a number. */
#include <stdio.h>
#include <stdlib.h>
#include <string.h>

#include "../include/mortarsedge.h"
#include "simulator.h"
#include "whole_file.h"

enum { HEADER = 7 };

static size_t number_at(const uint8_t *p)
{
    return (size_t)p[0] + 256 * (size_t)p[1];
}

/* Whether the record at p, of these lengths, is what the simulator does. */
static int record_holds(const uint8_t *p, size_t plan, size_t steps, size_t expected)
{
    static uint8_t out[MORTARSEDGE_OUTPUT_ENOUGH];
    const uint8_t *bytes = p + HEADER;
    uint64_t answer = sim_run(p[0], bytes, plan, bytes + plan, steps, out, sizeof out);
    size_t length = (size_t)(answer / 256);
    if (answer % 256 != 0)
        length = (size_t)sprintf((char *)out, "refused %u\n", (unsigned)(answer % 256));
    if (sim_plan_check(p[0], bytes, plan) != (answer % 256 <= 6 ? answer % 256 : 0))
        return 0;
    return length == expected && memcmp(out, bytes + plan + steps, length) == 0;
}

/* How many records the file has; 0 if one differs or the file is broken. */
static unsigned file_holds(const char *name)
{
    size_t length = 0, place = 0;
    uint8_t *bytes = read_whole(name, &length);
    unsigned records = 0;
    if (bytes == NULL) {
        fprintf(stderr, "vectors: %s cannot be read\n", name);
        return 0;
    }
    while (length - place >= HEADER) {
        const uint8_t *p = bytes + place;
        size_t plan = number_at(p + 1), steps = number_at(p + 3), expected = number_at(p + 5);
        if (length - place - HEADER < plan + steps + expected)
            break;
        if (!record_holds(p, plan, steps, expected)) {
            fprintf(stderr, "vectors: %s: record %u differs\n", name, records + 1);
            free(bytes);
            return 0;
        }
        records++;
        place += HEADER + plan + steps + expected;
    }
    free(bytes);
    if (place != length) {
        fprintf(stderr, "vectors: %s ends within a record\n", name);
        return 0;
    }
    return records;
}

int main(int argc, char **argv)
{
    unsigned all = 0;
    if (argc < 2) {
        fprintf(stderr, "usage: vectors FILE...\n");
        return 2;
    }
    for (int i = 1; i < argc; i++) {
        unsigned records = file_holds(argv[i]);
        if (records == 0)
            return 1;
        all += records;
    }
    printf("vectors: %u runs hold\n", all);
    return 0;
}
