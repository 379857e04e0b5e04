#include "tool_times.h"

#include <stdio.h>

#include "../include/mortarsedge.h"
#include "cases.h"
#include "sim_convert.h"
#include "sim_logs.h"
#include "timing.h"

enum { SAMPLES = 21, CALLS = 20 };

static void print_head(const char *what)
{
    printf("nanoseconds for %s, best and median of %d\n", what, SAMPLES);
    printf("%-15s %10s %10s %10s %10s\n", "", "library", "", "in C", "");
}

/* A line: of the library's, and of that in C, so many calls by turns. Every call has to give this answer. */
static int times_of(const char *name, uint64_t (*const tools[2])(void), uint64_t answer)
{
    static double samples[2][SAMPLES];
    struct result r[2];
    for (unsigned n = 0; n < SAMPLES; n++)
        for (int s = 0; s < 2; s++) {
            double start = timing_now();
            for (int calls = 0; calls < CALLS; calls++)
                if (tools[s]() != answer)
                    return 1;
            samples[s][n] = (timing_now() - start) / CALLS;
        }
    for (int s = 0; s < 2; s++)
        r[s] = timing_summary(samples[s], SAMPLES);
    printf("%-15s %10.0f %10.0f %10.0f %10.0f\n", name, r[0].best, r[0].median, r[1].best, r[1].median);
    return 0;
}

static uint8_t log_bytes[MORTARSEDGE_MAX_LOG];

static uint64_t library_logs(void)
{
    return mortarsedge_logs(log_bytes, sizeof log_bytes, log_bytes, sizeof log_bytes);
}

static uint64_t logs_in_c(void)
{
    return sim_logs(log_bytes, sizeof log_bytes, log_bytes, sizeof log_bytes);
}

/* A full log: the record after the first k is on channel k times `step`, taken round. */
static void fill_log(uint32_t step)
{
    for (uint32_t k = 0; k < MORTARSEDGE_MAX_LOG_RECORDS; k++) {
        uint16_t level[MORTARSEDGE_LEVELS] = {(uint16_t)k, 1, 2, (uint16_t)(65535 - k)};
        mortarsedge_put_log_record(log_bytes + MORTARSEDGE_LOG_RECORD * k, (uint16_t)(1 + k * step % 128), level);
    }
}

int logs_times(void)
{
    uint64_t (*const tools[2])(void) = {library_logs, logs_in_c};
    print_head("two logs of 4,096 records");
    fill_log(1);
    int wrong = times_of("128 channels", tools, 0);
    fill_log(0);
    return wrong | times_of("one channel", tools, 0);
}

static const uint8_t *plan;
static size_t plan_length;
static uint8_t out[MORTARSEDGE_MAX_PLAN];

static uint64_t library_convert(void)
{
    return mortarsedge_convert(plan, plan_length, out, sizeof out);
}

static uint64_t convert_in_c(void)
{
    return sim_convert(plan, plan_length, out, sizeof out);
}

/* 64 tasks, each but the last creates the next; an add is repeated until there are 64 instructions. */
static size_t repeating_plan(uint8_t *bytes)
{
    static struct draft d;
    draft_clear(&d, MAX_TASKS);
    for (uint32_t t = 1; t <= MAX_TASKS; t++) {
        if (t < MAX_TASKS)
            draft_add(&d, t, CREATE, t + 1);
        draft_add(&d, t, REPEAT, t < MAX_TASKS ? 62 : 63);
        draft_add(&d, t, ADD, t);
        draft_add(&d, t, REPEAT_END, 0);
        draft_add(&d, t, FINISH, 0);
    }
    return draft_write(&d, bytes);
}

int convert_times(void)
{
    static uint8_t bytes[DRAFT_BYTES];
    uint64_t (*const tools[2])(void) = {library_convert, convert_in_c}, answer = 256 * (uint64_t)MORTARSEDGE_MAX_PLAN;
    const struct bench_case *c = case_named("check-large");
    if (c == NULL)
        return 1;
    print_head("the conversion of a plan of 64 tasks of 64 instructions");
    plan = c->plan, plan_length = c->plan_length;
    int wrong = times_of("no repeat", tools, answer);
    plan = bytes, plan_length = repeating_plan(bytes);
    return wrong | times_of("one for a task", tools, answer);
}
