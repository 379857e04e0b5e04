/* rig_vectors panel FILE [ROUNDS] | views FILE: holds the simulator's panel and
 * views to recorded answers of another model; with ROUNDS, each panel is made so
 * many times more, for a clock outside.
 *
 * A record begins with the desks (1 byte) and the lengths of plan and steps
 * (2 bytes each, little-endian). Then come plan, steps and what is expected:
 * for `panel` 27 counts of 2 bytes, for `views` 20 bytes a task. */
#include <stdio.h>
#include <stdlib.h>
#include <string.h>

#include "sim_ask.h"
#include "whole_file.h"

enum { HEADER = 5 };

/* What is left of the file. */
struct rest {
    const uint8_t *bytes;
    size_t length;
};

/* A record taken off the file: the rig at its start, and its steps. */
struct record {
    struct sim_rig rig;
    const uint8_t *steps;
    size_t steps_length;
};

/* The next n bytes; NULL if the file ends before. */
static const uint8_t *take(struct rest *rest, size_t n)
{
    const uint8_t *p = rest->bytes;
    if (rest->length < n)
        return NULL;
    rest->bytes += n;
    rest->length -= n;
    return p;
}

static bool take_record(struct rest *rest, struct record *record)
{
    const uint8_t *p = take(rest, HEADER);
    if (p == NULL)
        return false;
    size_t plan_length = sim_u16(p + 1);
    record->steps_length = sim_u16(p + 3);
    const uint8_t *plan = take(rest, plan_length);
    record->steps = take(rest, record->steps_length);
    return plan != NULL && record->steps != NULL && sim_start(&record->rig, p[0], plan, plan_length) == 0;
}

static void run_all(struct record *record)
{
    struct sim_received received;
    for (size_t i = 0; i + 4 <= record->steps_length; i += 4)
        sim_step(&record->rig, record->steps + i, &received);
}

static unsigned long rounds;

static bool panel_holds(struct rest *rest, struct record *record)
{
    uint16_t counts[ANSWERS];
    const uint8_t *expected = take(rest, 2 * ANSWERS);
    run_all(record);
    sim_panel(&record->rig, counts);
    for (unsigned long i = 0; i < rounds; i++)
        sim_panel(&record->rig, counts);
    for (uint32_t a = 0; a < ANSWERS; a++)
        if (expected == NULL || counts[a] != sim_u16(expected + 2 * a))
            return false;
    return true;
}

static bool views_hold(struct rest *rest, struct record *record)
{
    uint8_t view[DRIVER_BYTES];
    const uint8_t *expected = take(rest, (size_t)DRIVER_BYTES * record->rig.tasks);
    run_all(record);
    for (uint32_t t = 1; t <= record->rig.tasks; t++) {
        sim_view(&record->rig, t, view);
        if (expected == NULL || memcmp(view, expected + DRIVER_BYTES * (t - 1), DRIVER_BYTES) != 0)
            return false;
    }
    return true;
}

static const struct kind {
    const char *name;
    bool (*holds)(struct rest *rest, struct record *record);
} kinds[] = {
    {"panel", panel_holds},
    {"views", views_hold},
};

static const struct kind *kind_named(const char *name)
{
    for (size_t i = 0; i < sizeof kinds / sizeof kinds[0]; i++)
        if (strcmp(kinds[i].name, name) == 0)
            return &kinds[i];
    return NULL;
}

int main(int argc, char **argv)
{
    static struct record record;
    const struct kind *kind = argc == 3 || argc == 4 ? kind_named(argv[1]) : NULL;
    struct rest rest = {NULL, 0};
    unsigned records = 0;
    if (kind == NULL) {
        fprintf(stderr, "usage: rig_vectors panel FILE [ROUNDS] | views FILE\n");
        return 2;
    }
    if (argc == 4)
        rounds = strtoul(argv[3], NULL, 10);
    rest.bytes = read_whole(argv[2], &rest.length);
    if (rest.bytes == NULL || rest.length == 0) {
        fprintf(stderr, "rig_vectors: %s cannot be read\n", argv[2]);
        return 2;
    }
    while (rest.length != 0) {
        records++;
        if (!take_record(&rest, &record) || !kind->holds(&rest, &record)) {
            fprintf(stderr, "rig_vectors: %s: record %u differs\n", argv[2], records);
            return 1;
        }
    }
    printf("rig_vectors: %u records of %s hold\n", records, kind->name);
    return 0;
}
