#include "chart_bars.h"

#include <string.h>

void *chart_more(void *array, uint32_t count, size_t size)
{
    if ((count & (count - 1)) == 0)
        return memory(array, 2 * ((size_t)count + 1) * size);
    return array;
}

void bars_start(struct bars *bars, struct chart *chart)
{
    memset(bars, 0, sizeof *bars);
    bars->chart = chart;
    for (uint32_t t = 0; t <= MAX_TASKS; t++)
        bars->stay[t] = bars->phase[t] = NONE;
}

static void open_phase(struct bars *bars, uint32_t task, uint8_t state, uint32_t row)
{
    struct chart *chart = bars->chart;
    chart->phase = chart_more(chart->phase, chart->phases, sizeof chart->phase[0]);
    bars->phase[task] = chart->phases;
    chart->phase[chart->phases++] = (struct phase){bars->stay[task], row, row, state};
}

static void open_stay(struct bars *bars, uint32_t task, uint8_t desk, uint32_t row)
{
    struct chart *chart = bars->chart;
    uint32_t slot = 0;
    while (bars->taken[desk][slot])
        slot++;
    bars->taken[desk][slot] = true;
    if (slot + 1 > chart->slots[desk])
        chart->slots[desk] = slot + 1;
    chart->stay = chart_more(chart->stay, chart->stays, sizeof chart->stay[0]);
    bars->stay[task] = chart->stays;
    chart->stay[chart->stays++] = (struct stay){(uint8_t)task, desk, false, slot, row, row};
}

static void close_phase(struct bars *bars, uint32_t task, uint32_t row)
{
    bars->chart->phase[bars->phase[task]].to = row;
    bars->phase[task] = NONE;
}

static void close_stay(struct bars *bars, uint32_t task, bool done, uint32_t row)
{
    struct stay *stay = &bars->chart->stay[bars->stay[task]];
    stay->done = done;
    stay->to = row;
    bars->taken[stay->desk][stay->slot] = false;
    bars->stay[task] = NONE;
}

static bool is_there(const struct sim_task *task)
{
    return task->state != UNBORN && task->state != MOVING && task->state != DONE;
}

/* A task after a step: its bar goes on, changes, begins or ends. */
void bars_follow(struct bars *bars, uint32_t task, const struct sim_task *after, uint32_t row)
{
    bool was = bars->stay[task] != NONE;
    if (was && is_there(after) && bars->chart->phase[bars->phase[task]].state == after->state)
        return;
    if (was)
        close_phase(bars, task, row);
    if (was && !is_there(after))
        close_stay(bars, task, after->state == DONE, row);
    if (!was && is_there(after))
        open_stay(bars, task, after->desk, row);
    if (is_there(after))
        open_phase(bars, task, after->state, row);
}

/* The bar of a task if it stands at this desk, else the lane's edge. */
struct spot_at bars_spot(const struct bars *bars, uint8_t desk, uint32_t task)
{
    struct spot_at at = {desk, 0, 0};
    if (task != 0 && bars->stay[task] != NONE && bars->chart->stay[bars->stay[task]].desk == desk) {
        at.task = (uint8_t)task;
        at.slot = bars->chart->stay[bars->stay[task]].slot;
    }
    return at;
}

void bars_end(struct bars *bars)
{
    for (uint32_t t = 1; t <= bars->chart->tasks; t++)
        if (bars->stay[t] != NONE) {
            close_phase(bars, t, bars->chart->steps + 1);
            close_stay(bars, t, false, bars->chart->steps + 1);
        }
}
