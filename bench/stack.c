/* stack SEED COUNT: how much stack the library's calls need.
 *
 * Each call runs on a painted stack of its own, over generated runs and the
 * largest files; the deepest byte that changed is looked for. Exits with 1 if a
 * call needs more than include/mortarsedge.h says. */
#define _DEFAULT_SOURCE
#include <stdio.h>
#include <stdlib.h>
#include <string.h>
#include <ucontext.h>

#include "../include/mortarsedge.h"
#include "cases.h"
#include "generate.h"
#include "guarded.h"

enum { STACK = 1024 * 1024, PAINT = 0xa5, LIVE_STEPS = 8 };

static struct guarded stack;
static ucontext_t here, there;

static uint32_t desks;
static const uint8_t *plan, *steps;
static size_t plan_length, steps_length;
static uint8_t out[MORTARSEDGE_OUTPUT_ENOUGH];

static void call_plan_check(void)
{
    mortarsedge_plan_check(desks, plan, plan_length);
}

static void call_run(void)
{
    mortarsedge_run(desks, plan, plan_length, steps, steps_length, out, sizeof out);
}

static void call_panel(void)
{
    static uint32_t counts[MORTARSEDGE_PANEL_COUNTS];
    mortarsedge_panel_after(desks, plan, plan_length, steps, steps_length, counts, MORTARSEDGE_PANEL_COUNTS);
}

static void call_finish(void)
{
    mortarsedge_finish(plan, plan_length, out, sizeof out);
}

static void call_choose(void)
{
    mortarsedge_choose(desks, plan, plan_length, out, sizeof out);
}

static void call_logs(void)
{
    static uint8_t log[MORTARSEDGE_MAX_LOG];
    for (size_t at = 0; at < sizeof log; at += MORTARSEDGE_LOG_RECORD)
        log[at] = (uint8_t)(1 + at / MORTARSEDGE_LOG_RECORD % 128);
    mortarsedge_logs(log, sizeof log, log, sizeof log);
}

static void call_convert(void)
{
    mortarsedge_convert(plan, plan_length, out, sizeof out);
}

static void call_chase(void)
{
    static uint8_t chase_plan[MORTARSEDGE_CHASE_PLAN], chase_steps[MORTARSEDGE_MAX_CHASE];
    mortarsedge_chase(MORTARSEDGE_MAX_FORWARDS, chase_plan, sizeof chase_plan, chase_steps, sizeof chase_steps);
}

/* The live rig of the plan at hand after its steps: each step goes on from the one before. */
static uint8_t rig[MORTARSEDGE_RIG_SIZE];
static uint32_t counts[MORTARSEDGE_PANEL_COUNTS];
static uint32_t kind, task, number, desk;

static void call_start(void)
{
    mortarsedge_start(desks, plan, plan_length, rig, sizeof rig);
}

static void call_step(void)
{
    mortarsedge_step(rig, sizeof rig, kind, task, number, out, MORTARSEDGE_LOG_RECORD);
}

static void call_dispatch(void)
{
    mortarsedge_dispatch(rig, sizeof rig, desk, out, MORTARSEDGE_DISPATCH_STEPS, out + MORTARSEDGE_DISPATCH_STEPS,
                         MORTARSEDGE_DISPATCH_RECORDS);
}

static void call_questions(void)
{
    mortarsedge_panel(rig, sizeof rig, counts, MORTARSEDGE_PANEL_COUNTS);
    mortarsedge_tablet_view(rig, sizeof rig, 1, out, MORTARSEDGE_TABLET_VIEW);
    mortarsedge_driver_view(rig, sizeof rig, 1, out, MORTARSEDGE_DRIVER_VIEW);
    mortarsedge_rest(rig, sizeof rig);
}

/* Bytes of stack that a call changes, its own frame and the switch with it. */
static size_t depth(void (*call)(void))
{
    size_t untouched = 0;
    memset(stack.start, PAINT, stack.size);
    getcontext(&there);
    there.uc_stack.ss_sp = stack.start;
    there.uc_stack.ss_size = stack.size;
    there.uc_link = &here;
    makecontext(&there, call, 0);
    swapcontext(&here, &there);
    while (untouched < stack.size && stack.start[untouched] == PAINT)
        untouched++;
    return stack.size - untouched;
}

/* The deepest of each call so far. */
struct depths {
    size_t check, run, panel, choose, finish, logs, convert, chase, live;
};

static void deepen(size_t *deepest, void (*call)(void))
{
    size_t d = depth(call);
    if (d > *deepest)
        *deepest = d;
}

/* Of a live rig: its first steps, and each desk's dispatcher then. */
static void deepen_live(struct depths *d)
{
    memset(rig, 0, sizeof rig);
    deepen(&d->live, call_start);
    for (size_t at = 0; at + 4 <= steps_length && at < 4 * LIVE_STEPS; at += 4) {
        kind = steps[at];
        task = steps[at + 1];
        number = sim_u16(steps + at + 2);
        deepen(&d->live, call_step);
    }
    for (desk = 1; desk <= MORTARSEDGE_MAX_DESKS; desk++)
        deepen(&d->live, call_dispatch);
    deepen(&d->live, call_questions);
}

/* Of the plan and the steps at hand. */
static void deepen_all(struct depths *d)
{
    deepen_live(d);
    deepen(&d->check, call_plan_check);
    deepen(&d->run, call_run);
    deepen(&d->panel, call_panel);
    deepen(&d->choose, call_choose);
    deepen(&d->finish, call_finish);
    deepen(&d->convert, call_convert);
}

static void over_generated(uint64_t seed, uint64_t count, struct depths *d)
{
    static struct generated g;
    for (uint64_t i = 0; i < count; i++) {
        generate(&g, seed, i);
        desks = g.desks;
        plan = g.plan, plan_length = g.plan_length;
        steps = g.steps, steps_length = g.steps_length;
        deepen_all(d);
    }
}

static void over_cases(struct depths *d)
{
    const struct bench_case *c;
    for (unsigned i = 0; (c = case_at(i)) != NULL; i++) {
        desks = c->desks;
        plan = c->plan, plan_length = c->plan_length;
        steps = c->steps, steps_length = c->steps_length;
        deepen_all(d);
    }
}

static int within(const char *name, size_t measured, size_t promised)
{
    printf("stack of %s: %zu bytes at most, %zu are asked for\n", name, measured, promised);
    return measured <= promised;
}

int main(int argc, char **argv)
{
    struct depths d = {0};
    if (argc != 3) {
        fprintf(stderr, "usage: stack SEED COUNT\n");
        return 2;
    }
    stack = guarded_new(STACK);
    over_generated(strtoull(argv[1], NULL, 10), strtoull(argv[2], NULL, 10), &d);
    over_cases(&d);
    deepen(&d.logs, call_logs);
    deepen(&d.chase, call_chase);
    int holds = within("plan check", d.check, MORTARSEDGE_PLAN_CHECK_STACK);
    holds &= within("run", d.run, MORTARSEDGE_RUN_STACK);
    holds &= within("panel", d.panel, MORTARSEDGE_RUN_STACK);
    holds &= within("choose", d.choose, MORTARSEDGE_CHOOSE_STACK);
    holds &= within("finish", d.finish, MORTARSEDGE_FINISH_STACK);
    holds &= within("logs", d.logs, MORTARSEDGE_LOGS_STACK);
    holds &= within("convert", d.convert, MORTARSEDGE_CONVERT_STACK);
    holds &= within("chase", d.chase, MORTARSEDGE_CHASE_STACK);
    holds &= within("a live rig", d.live, MORTARSEDGE_LIVE_STACK);
    return holds ? 0 : 1;
}
