/* benchmark [SAMPLES]: library and simulator on the same inputs, by turns.
 * benchmark --one CASE library|simulator COUNT: so many calls and no more, for
 * a counter of instructions (instructions.sh).
 * benchmark --growing: the library on files that grow by one step at a time.
 * benchmark --logs: the check of two logs of 4,096 records, and that in C.
 * benchmark --convert: the conversion of the largest plans, and that in C.
 * benchmark --calls: the steps that dispatchers choose, beside a run of them, and those in C.
 * benchmark --live: steps and dispatches of a live rig, beside a step of the file run.
 * benchmark --names: the cases. */
#include <stdio.h>
#include <stdlib.h>
#include <string.h>

#include "../include/mortarsedge.h"
#include "cases.h"
#include "simulator.h"
#include "timing.h"
#include "tool_times.h"

enum { MAX_SAMPLES = 201, SAMPLE_NS = 2000000, GROWING_SAMPLES = 21 };

static uint8_t out[MORTARSEDGE_OUTPUT_ENOUGH];

struct subject {
    const char *name;
    uint32_t (*check)(uint32_t, const uint8_t *, size_t);
    uint64_t (*run)(uint32_t, const uint8_t *, size_t, const uint8_t *, size_t, uint8_t *, size_t);
};

static const struct subject subjects[2] = {
    {"library", mortarsedge_plan_check, mortarsedge_run},
    {"simulator", sim_plan_check, sim_run},
};

static uint64_t call(const struct subject *s, const struct bench_case *c)
{
    if (c->check_only)
        return s->check(c->desks, c->plan, c->plan_length);
    return s->run(c->desks, c->plan, c->plan_length, c->steps, c->steps_length, out, sizeof out);
}

/* Nanoseconds a call, over so many calls. */
static double sample(const struct subject *s, const struct bench_case *c, unsigned calls)
{
    double start = timing_now();
    for (unsigned i = 0; i < calls; i++)
        call(s, c);
    return (timing_now() - start) / calls;
}

/* Both by turns, so that both meet the same machine. */
static void measure(const struct bench_case *c, unsigned count, struct result results[2])
{
    static double samples[2][MAX_SAMPLES];
    unsigned calls[2];
    for (int s = 0; s < 2; s++)
        calls[s] = 1 + (unsigned)(SAMPLE_NS / (1 + sample(&subjects[s], c, 20)));
    for (unsigned i = 0; i < count; i++)
        for (int s = 0; s < 2; s++)
            samples[s][i] = sample(&subjects[s], c, calls[s]);
    for (int s = 0; s < 2; s++)
        results[s] = timing_summary(samples[s], count);
}

/* Both do the same, and what they are asked is accepted. */
static bool agree(const struct bench_case *c)
{
    static uint8_t first[sizeof out];
    uint64_t one = call(&subjects[0], c);
    memcpy(first, out, sizeof out);
    uint64_t two = call(&subjects[1], c);
    return one == two && one % 256 == 0 && memcmp(first, out, (size_t)(one / 256)) == 0;
}

static void print_inputs(void)
{
    const struct bench_case *c;
    printf("%-15s %-40s %6s %9s %6s %9s %6s %5s\n", "case", "", "steps", "accepted", "moves", "delivered", "words", "mail");
    for (unsigned i = 0; (c = case_at(i)) != NULL; i++) {
        unsigned steps = (unsigned)(c->steps_length / 4);
        if (c->check_only)
            printf("%-15s %-40s\n", c->name, c->about);
        else
            printf("%-15s %-40s %6u %8.1f%% %6u %9u %6u %5u\n", c->name, c->about, steps,
                   100.0 * c->accepted / steps, (unsigned)c->moves, (unsigned)c->deliveries,
                   (unsigned)c->words, (unsigned)c->mail);
    }
}

static void print_result(const struct bench_case *c, const struct result r[2])
{
    double steps = (double)(c->steps_length / 4);
    printf("%-15s", c->name);
    for (int s = 0; s < 2; s++) {
        printf(" %10.0f %10.0f", r[s].best, r[s].median);
        if (steps > 1)
            printf(" %8.1f", r[s].best / steps);
        else
            printf(" %8s", "-");
    }
    printf(" %7.2f\n", r[0].best / r[1].best);
}

static int compare(unsigned samples)
{
    const struct bench_case *c;
    print_inputs();
    printf("\nnanoseconds a call, best and median of %u samples, and a step by the best\n", samples);
    printf("%-15s %30s %30s\n", "", "library", "simulator");
    printf("%-15s %10s %10s %8s %10s %10s %8s %7s\n", "case", "best", "median", "step", "best", "median", "step", "ratio");
    for (unsigned i = 0; (c = case_at(i)) != NULL; i++) {
        struct result results[2];
        if (!agree(c)) {
            fprintf(stderr, "benchmark: %s: library and simulator differ\n", c->name);
            return 1;
        }
        measure(c, samples, results);
        print_result(c, results);
        fflush(stdout);
    }
    return 0;
}

static int one(const char *name, const char *who, const char *count)
{
    const struct bench_case *c = case_named(name);
    const struct subject *s = strcmp(who, "library") == 0 ? &subjects[0]
                            : strcmp(who, "simulator") == 0 ? &subjects[1] : NULL;
    if (c == NULL || s == NULL) {
        fprintf(stderr, "benchmark: no such case, or neither library nor simulator\n");
        return 2;
    }
    for (long n = strtol(count, NULL, 10); n > 0; n--)
        call(s, c);
    return 0;
}

/* Nanoseconds for all beginnings of a case's steps, one run each. */
static double grow(const struct bench_case *c)
{
    double start = timing_now();
    for (size_t length = 4; length <= c->steps_length; length += 4)
        mortarsedge_run(c->desks, c->plan, c->plan_length, c->steps, length, out, sizeof out);
    return timing_now() - start;
}

static int growing(void)
{
    static double samples[GROWING_SAMPLES];
    const struct bench_case *c;
    printf("microseconds for a file that grows by one step at a time, best and median of %d\n", GROWING_SAMPLES);
    printf("%-15s %10s %10s %8s\n", "case", "best", "median", "step");
    for (unsigned i = 0; (c = case_at(i)) != NULL; i++) {
        if (c->steps_length != MORTARSEDGE_MAX_STEP_FILE)
            continue;
        for (unsigned s = 0; s < GROWING_SAMPLES; s++)
            samples[s] = grow(c);
        struct result r = timing_summary(samples, GROWING_SAMPLES);
        printf("%-15s %10.0f %10.0f %8.1f\n", c->name, r.best / 1000, r.median / 1000, r.best / 1000 / MORTARSEDGE_MAX_STEPS);
    }
    return 0;
}

static int names(void)
{
    const struct bench_case *c;
    for (unsigned i = 0; (c = case_at(i)) != NULL; i++)
        printf("%s\n", c->name);
    return 0;
}

int main(int argc, char **argv)
{
    if (argc == 5 && strcmp(argv[1], "--one") == 0)
        return one(argv[2], argv[3], argv[4]);
    if (argc == 2 && strcmp(argv[1], "--growing") == 0)
        return growing();
    if (argc == 2 && strcmp(argv[1], "--logs") == 0)
        return logs_times();
    if (argc == 2 && strcmp(argv[1], "--convert") == 0)
        return convert_times();
    if (argc == 2 && strcmp(argv[1], "--calls") == 0)
        return calls_times();
    if (argc == 2 && strcmp(argv[1], "--live") == 0)
        return live_times();
    if (argc == 2 && strcmp(argv[1], "--names") == 0)
        return names();
    long samples = argc == 2 ? strtol(argv[1], NULL, 10) : 21;
    if (argc > 2 || samples < 1 || samples > MAX_SAMPLES) {
        fprintf(stderr, "usage: benchmark [SAMPLES] | --growing | --logs | --convert | --calls | --live | --names"
                        " | --one CASE library|simulator COUNT\n");
        return 2;
    }
    return compare((unsigned)samples);
}
