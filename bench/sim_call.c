/* The dispatcher of a desk. No set is kept: the ready tasks are looked for. */
#include <string.h>

#include "sim_shared.h"
#include "simulator.h"

uint64_t sim_ready(const struct sim_rig *rig, uint32_t d)
{
    uint64_t set = 0;
    for (uint32_t t = 1; t <= rig->tasks; t++)
        if (rig->task[t].state == READY && rig->task[t].desk == d)
            set |= sim_bit(t);
    return set;
}

static void make_step(struct sim_rig *rig, struct sim_made *made, uint32_t kind, uint32_t task, uint32_t number)
{
    made->step[0] = (uint8_t)kind;
    made->step[1] = (uint8_t)task;
    made->step[2] = (uint8_t)(number % 256);
    made->step[3] = (uint8_t)(number / 256);
    made->answer = sim_step(rig, made->step, &made->received);
}

/* The position of the earliest letter for desk d; 0 if there is none. */
static uint32_t earliest(const struct sim_rig *rig, uint32_t d)
{
    for (uint32_t i = 0; i < rig->letters; i++)
        if (rig->mail[i].desk == d)
            return i + 1;
    return 0;
}

/* The next ready task of desk d after the last one chosen, round again; 0 if there is none. */
static uint32_t next_task(const struct sim_rig *rig, uint32_t d)
{
    for (uint32_t i = 0; i < rig->tasks; i++) {
        uint32_t t = 1 + (rig->chosen[d] + i) % rig->tasks;
        if (rig->task[t].state == READY && rig->task[t].desk == d)
            return t;
    }
    return 0;
}

uint32_t sim_call(struct sim_rig *rig, uint32_t d, struct sim_made made[2], uint32_t *count)
{
    *count = 0;
    if (d < 1 || d > rig->desks)
        return 15;
    uint32_t p = earliest(rig, d);
    if (p != 0)
        make_step(rig, &made[(*count)++], 2, 0, p);
    uint32_t t = next_task(rig, d);
    if (t != 0) {
        rig->chosen[d] = (uint8_t)t;
        make_step(rig, &made[(*count)++], 1, t, 0);
    }
    return 0;
}

uint64_t sim_choose(uint32_t desks, const uint8_t *plan, size_t plan_length, uint8_t *steps, size_t steps_length)
{
    struct sim_rig rig;
    struct sim_made made[2];
    size_t filled = 0, room = steps_length < 4 * MAX_STEPS ? steps_length : 4 * MAX_STEPS;
    uint32_t count, d = 0, number = sim_start(&rig, desks, plan, plan_length);
    if (number != 0)
        return number;
    while (!sim_at_rest(&rig)) {
        d = d < desks ? d + 1 : 1;
        sim_call(&rig, d, made, &count);
        for (uint32_t i = 0; i < count; i++, filled += 4) {
            if (room - filled < 4)
                return 20 + 256 * (uint64_t)filled;
            memcpy(steps + filled, made[i].step, 4);
        }
    }
    return 256 * (uint64_t)filled;
}
