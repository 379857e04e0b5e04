/* A plan is run on one desk by passes over the tasks, each of which is tried once a pass, until a
 * pass executes nothing. On one desk no letter is ever posted. */
#include "sim_finish.h"

#include <string.h>

#include "sim_shared.h"
#include "sim_text.h"

enum { DESK = 1, FEW_PASSES = 64 };

/* Whether a run step of task t that got this answer is one of those reported. */
static bool is_reported(const struct sim_rig *rig, uint8_t t, uint32_t answer)
{
    if (MUTANT == 67 && rig->task[t].state == SENDING)
        return false;
    return answer == 0 || (MUTANT == 68 && answer == 12);
}

/* Tries each task once; steps goes up by the accepted ones. Whether there was one. */
static bool pass(struct sim_rig *rig, uint32_t *steps)
{
    struct sim_received received;
    bool executed = false;
    for (uint8_t t = 1; t <= rig->tasks; t++) {
        uint32_t answer = sim_run_task(rig, t, &received);
        executed |= answer == 0;
        *steps += is_reported(rig, t, answer);
    }
    return executed;
}

/* Runs a rig to rest: how many run steps are accepted. */
static uint32_t run_to_rest(struct sim_rig *rig)
{
    uint32_t steps = 0;
    for (uint32_t passes = 1; pass(rig, &steps); passes++)
        if (MUTANT == 65 && passes == FEW_PASSES)
            break;
    return steps;
}

/* Born, and not done. */
static bool is_stuck(const struct sim_task *task)
{
    if ((MUTANT == 63 && task->state == READY) || (MUTANT == 69 && task->state == WAITING))
        return false;
    return (task->state != UNBORN || MUTANT == 64) && task->state != DONE;
}

/* Whether task child is a child of task t that lives. */
static bool is_living_child(const struct sim_rig *rig, uint32_t t, uint32_t child)
{
    if (MUTANT == 61)
        return rig->task[child].parent == t;
    return (rig->task[t].children & sim_bit(child)) != 0;
}

/* 0 if no child lives. */
static uint32_t lowest_living_child(const struct sim_rig *rig, uint32_t t)
{
    for (uint32_t i = 1; i <= rig->tasks; i++) {
        uint32_t child = MUTANT == 60 ? rig->tasks + 1 - i : i;
        if (is_living_child(rig, t, child))
            return child;
    }
    return 0;
}

/* What a stuck task of a rig at rest depends on: the other end of its channel, or its lowest
 * living child if it waits or is refused by 12. */
static uint32_t depends_on(const struct sim_rig *rig, uint32_t t)
{
    const struct sim_task *task = &rig->task[t];
    if (task->state == SENDING) {
        const struct sim_channel *channel = &rig->channel[last(rig, task)->argument];
        return MUTANT == 62 ? channel->sender : channel->receiver;
    }
    if (task->state == RECEIVING) {
        const struct sim_channel *channel = &rig->channel[last(rig, task)->argument];
        return MUTANT == 70 ? channel->receiver : channel->sender;
    }
    return lowest_living_child(rig, t);
}

static uint8_t *put_verdict(uint8_t *p, bool yes, uint32_t steps)
{
    memcpy(p, yes ? "yes" : "no", yes ? 3 : 2);
    p = put_field(p + (yes ? 3 : 2), steps);
    *p = '\n';
    return p + 1;
}

static uint8_t *put_stuck(uint8_t *p, const struct sim_rig *rig, uint32_t t)
{
    p = put_number(p, t);
    p = put_field(p, depends_on(rig, t));
    *p = '\n';
    return p + 1;
}

static bool is_finished(const struct sim_rig *rig)
{
    for (uint32_t t = 1; t <= rig->tasks; t++)
        if (is_stuck(&rig->task[t]))
            return false;
    return true;
}

size_t sim_finish_text(const struct sim_rig *rig, uint32_t steps, uint8_t text[SIM_FINISH_ENOUGH])
{
    uint8_t *p = put_verdict(text, is_finished(rig), steps);
    for (uint32_t i = 1; i <= rig->tasks; i++) {
        uint32_t t = MUTANT == 71 ? rig->tasks + 1 - i : i;
        if (is_stuck(&rig->task[t]))
            p = put_stuck(p, rig, t);
    }
    return (size_t)(p - text);
}

/* How much of a text that does not fit is written: the lines that fit. */
static size_t whole_lines(const uint8_t *text, size_t room)
{
    while (room > 0 && text[room - 1] != '\n' && MUTANT != 73)
        room--;
    return room;
}

uint64_t sim_finish(const uint8_t *plan, size_t length, uint8_t *out, size_t out_length)
{
    struct sim_rig rig;
    uint8_t text[SIM_FINISH_ENOUGH];
    uint32_t number = sim_start(&rig, DESK, plan, length);
    if (number != 0)
        return number;
    uint32_t steps = run_to_rest(&rig);
    size_t filled = sim_finish_text(&rig, MUTANT == 66 ? sim_u16(plan + 2) : steps, text);
    if (filled > out_length - (MUTANT == 72 && out_length > 0)) {
        number = 20;
        filled = whole_lines(text, out_length);
    }
    memcpy(out, text, filled);
#if MUTANT == 74
    if (filled < out_length)
        out[filled] = 0;
#endif
    return number + 256 * (uint64_t)filled;
}
