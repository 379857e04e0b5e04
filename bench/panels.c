/* panels FILE [SAMPLES]: the library's panel after a step file and the
 * simulator's, held to recorded counts of another model (README of rig_vectors.c
 * has the record); with SAMPLES also nanoseconds of the first record, by turns,
 * best and median: of the whole call, of the panel of the same rig as lent bytes,
 * and of the panel alone. The library's panel alone is the panel of lent bytes less
 * the question for rest of the same bytes, which opens them in the same way. */
#define _POSIX_C_SOURCE 200809L
#include <stdio.h>
#include <stdlib.h>
#include <time.h>

#include "../include/mortarsedge.h"
#include "sim_ask.h"
#include "sim_live.h"
#include "whole_file.h"

enum { HEADER = 5, CALLS = 200, MAX_SAMPLES = 201 };

struct record {
    uint32_t desks;
    const uint8_t *plan, *steps, *counts;
    size_t plan_length, steps_length, length;
};

/* The record at the start of the bytes; its length is 0 if they end before it does. */
static struct record record_at(const uint8_t *bytes, size_t left)
{
    struct record r = {0};
    if (left < HEADER)
        return r;
    r.desks = bytes[0];
    r.plan_length = sim_u16(bytes + 1);
    r.steps_length = sim_u16(bytes + 3);
    r.plan = bytes + HEADER;
    r.steps = r.plan + r.plan_length;
    r.counts = r.steps + r.steps_length;
    size_t length = HEADER + r.plan_length + r.steps_length + 2 * ANSWERS;
    r.length = length <= left ? length : 0;
    return r;
}

static uint32_t library(const struct record *r, uint32_t counts[ANSWERS])
{
    return mortarsedge_panel_after(r->desks, r->plan, r->plan_length, r->steps, r->steps_length, counts, ANSWERS);
}

static uint32_t simulator(const struct record *r, uint32_t counts[ANSWERS])
{
    static struct sim_rig rig;
    struct sim_received received;
    uint16_t shown[ANSWERS];
    uint32_t answer = sim_start(&rig, r->desks, r->plan, r->plan_length);
    if (answer != 0)
        return answer;
    for (size_t i = 0; i + 4 <= r->steps_length; i += 4)
        sim_step(&rig, r->steps + i, &received);
    sim_panel(&rig, shown);
    for (uint32_t a = 0; a < ANSWERS; a++)
        counts[a] = shown[a];
    return 0;
}

typedef uint32_t panel_after(const struct record *r, uint32_t counts[ANSWERS]);

static panel_after *const subjects[2] = {library, simulator};

static bool holds(const struct record *r)
{
    for (int s = 0; s < 2; s++) {
        uint32_t counts[ANSWERS] = {0};
        if (subjects[s](r, counts) != 0)
            return false;
        for (uint32_t a = 0; a < ANSWERS; a++)
            if (counts[a] != sim_u16(r->counts + 2 * a))
                return false;
    }
    return true;
}

static double now(void)
{
    struct timespec t;
    clock_gettime(CLOCK_MONOTONIC, &t);
    return (double)t.tv_sec * 1e9 + (double)t.tv_nsec;
}

static int ascending(const void *a, const void *b)
{
    double x = *(const double *)a, y = *(const double *)b;
    return (x > y) - (x < y);
}

/* The rig after the record's steps: as bytes, and the simulator's. */
static uint8_t image[MORTARSEDGE_RIG_SIZE];
static struct sim_rig still;

static void prepare(const struct record *r)
{
    uint8_t word[MORTARSEDGE_LOG_RECORD];
    mortarsedge_start(r->desks, r->plan, r->plan_length, image, sizeof image);
    for (size_t i = 0; i + 4 <= r->steps_length; i += 4)
        mortarsedge_step(image, sizeof image, r->steps[i], r->steps[i + 1], sim_u16(r->steps + i + 2), word, sizeof word);
    sim_live_read(image, sizeof image, &still);
}

static uint32_t library_live(const struct record *r, uint32_t counts[ANSWERS])
{
    (void)r;
    return mortarsedge_panel(image, sizeof image, counts, ANSWERS);
}

static uint32_t simulator_live(const struct record *r, uint32_t counts[ANSWERS])
{
    (void)r;
    return sim_live_panel(image, sizeof image, counts, ANSWERS);
}

static uint32_t library_rest(const struct record *r, uint32_t counts[ANSWERS])
{
    (void)r;
    counts[0] = (uint32_t)mortarsedge_rest(image, sizeof image);
    return 0;
}

static uint32_t simulator_alone(const struct record *r, uint32_t counts[ANSWERS])
{
    uint16_t shown[ANSWERS];
    (void)r;
    sim_panel(&still, shown);
    for (uint32_t a = 0; a < ANSWERS; a++)
        counts[a] = shown[a];
    return 0;
}

/* Nanoseconds a call. */
static double sample(panel_after *subject, const struct record *r)
{
    uint32_t counts[ANSWERS];
    double start = now();
    for (int calls = 0; calls < CALLS; calls++)
        subject(r, counts);
    return (now() - start) / CALLS;
}

enum { SUBJECTS = 6 };

static void measure(const struct record *r, unsigned count)
{
    static panel_after *const all[SUBJECTS] = {library, simulator, library_live, simulator_live, library_rest, simulator_alone};
    static double samples[SUBJECTS][MAX_SAMPLES];
    prepare(r);
    for (unsigned i = 0; i < count; i++)
        for (int s = 0; s < SUBJECTS; s++)
            samples[s][i] = sample(all[s], r);
    for (int s = 0; s < SUBJECTS; s++)
        qsort(samples[s], count, sizeof samples[s][0], ascending);
    double alone[2] = {samples[2][0] - samples[4][0], samples[5][0]};
    printf("%-22s %10s %10s %8s\n", "best, nanoseconds", "library", "simulator", "ratio");
    printf("%-22s %10.0f %10.0f %8.2f\n", "after a step file", samples[0][0], samples[1][0], samples[0][0] / samples[1][0]);
    printf("%-22s %10.0f %10.0f %8.2f\n", "of a rig in bytes", samples[2][0], samples[3][0], samples[2][0] / samples[3][0]);
    printf("%-22s %10.0f %10.0f %8.2f\n", "the panel alone", alone[0], alone[1], alone[0] / alone[1]);
}

int main(int argc, char **argv)
{
    size_t length = 0, at = 0;
    unsigned records = 0;
    long samples = argc == 3 ? strtol(argv[2], NULL, 10) : 0;
    const uint8_t *file = argc == 2 || argc == 3 ? read_whole(argv[1], &length) : NULL;
    if (file == NULL || samples < 0 || samples > MAX_SAMPLES) {
        fprintf(stderr, "usage: panels FILE [SAMPLES]\n");
        return 2;
    }
    while (at < length) {
        struct record r = record_at(file + at, length - at);
        records++;
        if (r.length == 0 || !holds(&r)) {
            fprintf(stderr, "panels: record %u differs\n", records);
            return 1;
        }
        if (records == 1 && samples != 0)
            measure(&r, (unsigned)samples);
        at += r.length;
    }
    printf("panels: %u records hold\n", records);
    return 0;
}
