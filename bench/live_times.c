#include <stdio.h>
#include <string.h>

#include "../include/mortarsedge.h"
#include "cases.h"
#include "sim_live.h"
#include "simulator.h"
#include "timing.h"
#include "tool_times.h"

enum { SAMPLES = 101, CALL_SAMPLES = 2001, MOST_CALLS = 2000, CALLED_DESKS = 6 };

static uint8_t rig[MORTARSEDGE_RIG_SIZE], out[MORTARSEDGE_OUTPUT_ENOUGH];
static uint8_t record[MORTARSEDGE_LOG_RECORD], made[MORTARSEDGE_DISPATCH_STEPS], records[MORTARSEDGE_DISPATCH_RECORDS];

static uint32_t start(const struct bench_case *c, uint32_t desks)
{
    return mortarsedge_start(desks, c->plan, c->plan_length, rig, sizeof rig);
}

/* Nanoseconds a step of the file run, a run of one step, and a step of a live rig through the same steps. */
static double file_step(const struct bench_case *c)
{
    double begin = timing_now();
    mortarsedge_run(c->desks, c->plan, c->plan_length, c->steps, c->steps_length, out, sizeof out);
    return (timing_now() - begin) / (double)(c->steps_length / 4);
}

/* A run of one step: the plan is read, and the rig made. */
static double file_one(const struct bench_case *c)
{
    double begin = timing_now();
    mortarsedge_run(c->desks, c->plan, c->plan_length, c->steps, 4, out, sizeof out);
    return timing_now() - begin;
}

/* The test of the plan alone in C, which each call on a live rig makes too. */
static double check_in_c(const struct bench_case *c)
{
    double begin = timing_now();
    sim_plan_check(c->desks, c->plan, c->plan_length);
    return timing_now() - begin;
}

static double live_step(const struct bench_case *c)
{
    start(c, c->desks);
    double begin = timing_now();
    for (const uint8_t *s = c->steps; s < c->steps + c->steps_length; s += 4)
        mortarsedge_step(rig, sizeof rig, s[0], s[1], sim_u16(s + 2), record, sizeof record);
    return (timing_now() - begin) / (double)(c->steps_length / 4);
}

/* Nanoseconds a call of a dispatcher, six desks in turn from the start. */
static double live_call(const struct bench_case *c)
{
    start(c, CALLED_DESKS);
    double begin = timing_now();
    for (uint32_t i = 0; i < MOST_CALLS; i++)
        mortarsedge_dispatch(rig, sizeof rig, 1 + i % CALLED_DESKS, made, sizeof made, records, sizeof records);
    return (timing_now() - begin) / MOST_CALLS;
}

/* Nanoseconds a start, a panel, and a question for rest, of the rig at hand. */
static double live_start(const struct bench_case *c)
{
    double begin = timing_now();
    start(c, c->desks);
    return timing_now() - begin;
}

static double live_panel(const struct bench_case *c)
{
    static uint32_t counts[MORTARSEDGE_PANEL_COUNTS];
    (void)c;
    double begin = timing_now();
    mortarsedge_panel(rig, sizeof rig, counts, MORTARSEDGE_PANEL_COUNTS);
    return timing_now() - begin;
}

static double live_view(const struct bench_case *c)
{
    (void)c;
    double begin = timing_now();
    mortarsedge_driver_view(rig, sizeof rig, 1, out, MORTARSEDGE_DRIVER_VIEW);
    return timing_now() - begin;
}

static double live_rest(const struct bench_case *c)
{
    (void)c;
    double begin = timing_now();
    mortarsedge_rest(rig, sizeof rig);
    return timing_now() - begin;
}

static struct result measure(double (*sample)(const struct bench_case *c), const struct bench_case *c)
{
    static double samples[SAMPLES];
    for (unsigned n = 0; n < SAMPLES; n++)
        samples[n] = sample(c);
    return timing_summary(samples, SAMPLES);
}

/* The file's steps live: the same answers as in the file run. */
static bool agree(const struct bench_case *c)
{
    uint64_t answer = mortarsedge_run(c->desks, c->plan, c->plan_length, c->steps, c->steps_length, out, sizeof out);
    size_t at = 0;
    struct mortarsedge_line line;
    if (mortarsedge_number(answer) != 0 || start(c, c->desks) != 0)
        return false;
    for (const uint8_t *s = c->steps; s < c->steps + c->steps_length; s += 4) {
        at += mortarsedge_take_line(out + at, mortarsedge_filled(answer) - at, &line);
        if (mortarsedge_step(rig, sizeof rig, s[0], s[1], sim_u16(s + 2), record, sizeof record) != line.answer)
            return false;
    }
    return true;
}

/* A call that delivers a letter and runs a task, beside the two steps that it makes. */
struct pair {
    uint8_t before[MORTARSEDGE_RIG_SIZE], between[MORTARSEDGE_RIG_SIZE];
    uint32_t desk, position, task;
};

/* A rig of six desks with so many letters, of which the last alone is for a desk with a ready task: the rig of the case's
 * steps with other letters. Adverts on a channel that nobody uses are noted there. */
static bool make_pair(const struct bench_case *c, uint32_t letters, struct pair *pair)
{
    static struct sim_rig r;
    struct sim_received received;
    uint8_t unused = 0;
    memset(&r, 0, sizeof r);
    if (sim_start(&r, CALLED_DESKS, c->plan, c->plan_length) != 0)
        return false;
    for (size_t i = 0; i < c->steps_length / 2; i += 4)
        sim_step(&r, c->steps + i, &received);
    for (uint32_t n = 1; n <= MAX_CHANNELS; n++)
        if (r.channel[n].sender == 0)
            unused = (uint8_t)n;
    for (pair->desk = CALLED_DESKS; pair->desk > 1 && sim_ready(&r, pair->desk) == 0; pair->desk--)
        continue;
    for (uint32_t i = 0; i < letters; i++) {
        uint32_t other = pair->desk % CALLED_DESKS + 1;
        r.mail[i] = (struct sim_letter){.kind = ADVERT, .subject = unused, .from = 1,
                                        .desk = (uint8_t)(i + 1 == letters ? pair->desk : other)};
    }
    r.letters = letters;
    sim_image_write(&r, pair->before);
    memcpy(rig, pair->before, sizeof rig);
    uint64_t answer = mortarsedge_dispatch(rig, sizeof rig, pair->desk, made, sizeof made, records, sizeof records);
    if (unused == 0 || mortarsedge_made_count(answer) != 2)
        return false;
    pair->position = sim_u16(made + 2);
    pair->task = made[5];
    memcpy(pair->between, pair->before, sizeof rig);
    return mortarsedge_step(pair->between, sizeof rig, MORTARSEDGE_STEP_DELIVER, 0, pair->position, record, sizeof record) == 0;
}

static double pair_call(const struct pair *pair)
{
    memcpy(rig, pair->before, sizeof rig);
    double begin = timing_now();
    mortarsedge_dispatch(rig, sizeof rig, pair->desk, made, sizeof made, records, sizeof records);
    return timing_now() - begin;
}

static double pair_delivery(const struct pair *pair)
{
    memcpy(rig, pair->before, sizeof rig);
    double begin = timing_now();
    mortarsedge_step(rig, sizeof rig, MORTARSEDGE_STEP_DELIVER, 0, pair->position, record, sizeof record);
    return timing_now() - begin;
}

static double pair_run(const struct pair *pair)
{
    memcpy(rig, pair->between, sizeof rig);
    double begin = timing_now();
    mortarsedge_step(rig, sizeof rig, MORTARSEDGE_STEP_RUN, pair->task, 0, record, sizeof record);
    return timing_now() - begin;
}

/* All three by turns. */
static void measure_pair(const struct pair *pair, struct result results[3])
{
    static double samples[3][CALL_SAMPLES];
    for (unsigned n = 0; n < CALL_SAMPLES; n++) {
        samples[0][n] = pair_call(pair);
        samples[1][n] = pair_delivery(pair);
        samples[2][n] = pair_run(pair);
    }
    for (int i = 0; i < 3; i++)
        results[i] = timing_summary(samples[i], CALL_SAMPLES);
}

/* By the number of instructions; the first is the worked plan, whose file has one step. */
enum { LIVE_CASES = 5 };
static const char *const live_cases[LIVE_CASES] = {"one-step", "move-60", "moving", "mail", "local"};

static int steps_table(void)
{
    printf("nanoseconds of a live rig, image read and written each time, beside a run of one step, a step of a run of 2,000\n"
           "and a plan check in C: best and median of %d\n", SAMPLES);
    printf("%-10s %6s %9s %9s %9s %9s %9s %7s %9s %9s %9s %9s %9s %9s\n", "plan", "instr.", "one-step", "file step", "C check", "live step",
           "median", "ratio", "dispatch", "median", "start", "panel", "view", "rest");
    for (size_t i = 0; i < LIVE_CASES; i++) {
        const struct bench_case *c = case_named(live_cases[i]);
        if (!agree(c)) {
            fprintf(stderr, "benchmark: %s: the live rig and the file run differ\n", live_cases[i]);
            return 1;
        }
        struct result one = measure(file_one, c), file = measure(file_step, c), check = measure(check_in_c, c);
        struct result call = measure(live_call, c), begun = measure(live_start, c), step = measure(live_step, c);
        struct result panel = measure(live_panel, c), view = measure(live_view, c), rest = measure(live_rest, c);
        printf("%-10s %6u %9.0f %9.0f %9.0f %9.0f %9.0f %7.1f %9.0f %9.0f %9.0f %9.0f %9.0f %9.0f\n", c->name, (unsigned)sim_u16(c->plan + 2),
               one.best, file.best, check.best, step.best, step.median, step.best / file.best, call.best, call.median, begun.best, panel.best, view.best, rest.best);
    }
    return 0;
}

int live_times(void)
{
    static struct pair pair;
    if (steps_table() != 0)
        return 1;
    printf("\na dispatch of six desks, and the two steps that it makes: best and median of %d\n", CALL_SAMPLES);
    printf("%-10s %7s %9s %9s %9s %9s %9s %9s %7s\n", "plan", "letters", "dispatch", "median", "delivery", "median", "run", "median",
           "ratio");
    for (size_t i = 1; i < LIVE_CASES; i++)
        for (uint32_t letters = 1; letters <= MAX_MAIL; letters += MAX_MAIL - 1) {
            struct result r[3];
            const struct bench_case *c = case_named(live_cases[i]);
            if (!make_pair(c, letters, &pair)) {
                fprintf(stderr, "benchmark: %s: no call that makes two steps\n", live_cases[i]);
                return 1;
            }
            measure_pair(&pair, r);
            printf("%-10s %7u %9.0f %9.0f %9.0f %9.0f %9.0f %9.0f %7.2f\n", c->name, (unsigned)letters, r[0].best, r[0].median,
                   r[1].best, r[1].median, r[2].best, r[2].median, r[0].median / (r[1].median + r[2].median));
        }
    return 0;
}
