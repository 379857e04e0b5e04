#include "make_steps.h"

#include <string.h>

#include "../include/mortarsedge.h"
#include "draft.h"

uint32_t ready_task(struct random *r, const struct sim_rig *rig)
{
    uint32_t first = random_below(r, rig->tasks);
    for (uint32_t i = 0; i < rig->tasks; i++) {
        uint32_t t = 1 + (first + i) % rig->tasks;
        if (rig->task[t].state == READY)
            return t;
    }
    return 0;
}

static bool led_run(struct random *r, const struct sim_rig *rig, uint8_t *step)
{
    uint32_t t = ready_task(r, rig);
    mortarsedge_put_step(step, 1, t, 0);
    return t != 0;
}

static bool led_deliver(struct random *r, const struct step_style *style, const struct sim_rig *rig, uint8_t *step)
{
    if (rig->letters == 0 || rig->letters < style->hoard)
        return false;
    mortarsedge_put_step(step, 2, 0, random_chance(r, style->oldest) ? 1 : random_from(r, 1, rig->letters));
    return true;
}

static bool led_move(struct random *r, const struct sim_rig *rig, uint8_t *step)
{
    uint32_t t = ready_task(r, rig);
    if (t == 0 || rig->desks < 2)
        return false;
    uint32_t e = random_from(r, 1, rig->desks - 1);
    mortarsedge_put_step(step, 3, t, e + (e >= rig->task[t].desk));
    return true;
}

static void blind_step(struct random *r, const struct sim_rig *rig, uint32_t kind, uint8_t *step)
{
    uint32_t task = random_below(r, rig->tasks + 2);
    if (kind == 1)
        mortarsedge_put_step(step, 1, task, 0);
    else if (kind == 2)
        mortarsedge_put_step(step, 2, 0, random_below(r, rig->letters + 3));
    else
        mortarsedge_put_step(step, 3, task, random_below(r, rig->desks + 2));
}

/* Malformed, or at least unusual. */
static void wild_step(struct random *r, const struct sim_rig *rig, uint8_t *step)
{
    uint32_t way = random_below(r, 5);
    blind_step(r, rig, random_from(r, 1, 3), step);
    if (way == 0)
        mortarsedge_put_step(step, random_below(r, 256), random_below(r, 256), random_below(r, 65536));
    else if (way == 1)
        step[0] = (uint8_t)random_below(r, 6);
    else if (way == 2)
        step[1] = (uint8_t)random_below(r, 256);
    else
        put_u16(step + 2, way == 3 ? random_below(r, 65536) : random_below(r, 12));
}

static uint32_t choose_kind(struct random *r, const struct step_style *style)
{
    uint32_t pick = random_below(r, style->run + style->deliver + style->move + style->wild);
    if (pick < style->run)
        return 1;
    pick -= style->run;
    if (pick < style->deliver)
        return 2;
    return pick - style->deliver < style->move ? 3 : 4;
}

/* A step of this kind that the rig accepts, or of another kind where it can't. */
static bool led_step(struct random *r, const struct step_style *style, const struct sim_rig *rig,
                     uint32_t kind, uint8_t *step)
{
    if (kind == 3 && led_move(r, rig, step))
        return true;
    if (kind == 2 && led_deliver(r, style, rig, step))
        return true;
    return led_run(r, rig, step) || led_deliver(r, style, rig, step);
}

static void one_step(struct random *r, const struct step_style *style, const struct sim_rig *rig, uint8_t *step)
{
    uint32_t kind = choose_kind(r, style);
    if (kind == 4)
        wild_step(r, rig, step);
    else if (!random_chance(r, style->led) || !led_step(r, style, rig, kind, step))
        blind_step(r, rig, kind, step);
}

/* What the dispatchers choose, called in turn or at random, mixed with some steps of the style. */
static uint32_t called_steps(struct random *r, const struct step_style *style, struct sim_rig *rig,
                             uint8_t *steps, uint32_t count)
{
    struct sim_received received;
    struct sim_made made[2];
    uint32_t filled = 0, number, d = 0;
    bool in_turn = random_chance(r, 50);
    for (uint32_t calls = 0; filled + 2 <= count && calls < 2 * count; calls++) {
        if (!in_turn && random_chance(r, 20)) {
            one_step(r, style, rig, steps + 4 * filled);
            sim_step(rig, steps + 4 * filled++, &received);
            continue;
        }
        d = in_turn ? d % rig->desks + 1 : random_from(r, 1, rig->desks);
        sim_call(rig, d, made, &number);
        for (uint32_t i = 0; i < number; i++)
            memcpy(steps + 4 * filled++, made[i].step, 4);
        if (sim_at_rest(rig) && random_chance(r, 70))
            break;
    }
    return filled;
}

uint32_t make_steps(struct random *r, const struct step_style *style, struct sim_rig *rig,
                    uint8_t *steps, uint32_t count)
{
    if (random_chance(r, style->called))
        return called_steps(r, style, rig, steps, count);
    struct sim_received received;
    for (uint32_t i = 0; i < count; i++) {
        one_step(r, style, rig, steps + 4 * i);
        sim_step(rig, steps + 4 * i, &received);
        if (i % 16 == 15 && sim_at_rest(rig) && random_chance(r, 70))
            return i + 1;
    }
    return count;
}
