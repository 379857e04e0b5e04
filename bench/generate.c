#include "generate.h"

#include "../include/mortarsedge.h"
#include "damage.h"
#include "make_plan.h"
#include "make_steps.h"

/* Few are long, some are empty. */
static uint32_t step_count(struct random *r)
{
    uint32_t pick = random_below(r, 100);
    if (pick < 2)
        return 0;
    if (pick < 30)
        return random_from(r, 1, 30);
    if (pick < 85)
        return random_from(r, 30, 250);
    return pick < 99 ? random_from(r, 250, 700) : random_from(r, 1500, MAX_STEPS);
}

static void random_steps(struct random *r, struct generated *g, uint32_t count)
{
    g->steps_length = 4 * (size_t)count;
    for (uint32_t i = 0; i < count; i++)
        mortarsedge_put_step(g->steps + 4 * i, random_below(r, 5), random_below(r, 6), random_below(r, 4));
}

/* Steps led by the plan's rig, or any where it has none. */
static void steps_for(struct random *r, struct generated *g, const struct step_style *style)
{
    struct sim_rig rig;
    if (sim_start(&rig, g->desks, g->plan, g->plan_length) != 0)
        random_steps(r, g, random_below(r, 40));
    else
        g->steps_length = 4 * (size_t)make_steps(r, style, &rig, g->steps, step_count(r));
}

static struct plan_style any_plan_style(struct random *r)
{
    uint32_t size = random_below(r, 4);
    struct plan_style style = {.words = random_from(r, 40, 95), .wide = random_chance(r, 40)};
    style.tasks = size == 0 ? random_from(r, 1, 3) : size == 1 ? random_from(r, 3, 8)
                : size == 2 ? random_from(r, 8, 24) : random_from(r, 24, MAX_TASKS);
    style.channels = random_below(r, 3 * style.tasks + 1);
    if (style.channels > MAX_CHANNELS || random_chance(r, 3))
        style.channels = MAX_CHANNELS;
    style.events = random_below(r, style.tasks * (random_chance(r, 10) ? 60 : 12) + 4);
    style.changes = random_chance(r, 30) ? random_from(r, 1, 4) : 0;
    return style;
}

static struct step_style any_step_style(struct random *r)
{
    return (struct step_style){
        .run = random_from(r, 1, 10),
        .deliver = random_below(r, 10),
        .move = random_below(r, 6),
        .wild = random_chance(r, 50) ? 1 : 0,
        .led = random_from(r, 60, 100),
        .oldest = random_chance(r, 50) ? 0 : random_below(r, 101),
        .called = 20};
}

static void any_rig(struct random *r, struct generated *g, struct draft *d)
{
    struct plan_style plan = any_plan_style(r);
    struct step_style steps = any_step_style(r);
    g->class_name = "any";
    make_plan(r, &plan, d);
    g->plan_length = draft_write(d, g->plan);
    steps_for(r, g, &steps);
}

/* Few tasks, few channels, many moves and late letters. */
static void moving_rig(struct random *r, struct generated *g, struct draft *d)
{
    struct plan_style plan = {.tasks = random_from(r, 2, 5), .channels = random_from(r, 1, 4), .words = 95};
    struct step_style steps = {.run = 4, .deliver = random_from(r, 2, 6), .move = random_from(r, 1, 8),
                               .led = 97, .oldest = random_below(r, 50)};
    plan.events = plan.tasks * random_from(r, 4, 20);
    g->class_name = "moving";
    g->desks = random_from(r, 2, MAX_DESKS);
    make_plan(r, &plan, d);
    g->plan_length = draft_write(d, g->plan);
    steps_for(r, g, &steps);
}

/* A few tasks spread, the mail fills by adverts of many senders, and is then
 * kept near its limit. */
static void crowded_rig(struct random *r, struct generated *g, struct draft *d)
{
    struct step_style spread = {.run = 2, .deliver = 3, .move = 1, .led = 100};
    struct step_style fill = {.run = 60, .move = random_below(r, 2), .led = 99, .hoard = MAX_MAIL};
    struct step_style keep = {.run = random_from(r, 2, 8), .deliver = random_from(r, 1, 6),
                              .move = random_below(r, 5), .led = 96, .oldest = random_below(r, 101),
                              .hoard = random_from(r, 230, MAX_MAIL)};
    struct sim_rig rig;
    g->class_name = "crowded";
    g->desks = random_chance(r, 85) ? 6 : 5;
    make_crowd(r, d);
    g->plan_length = draft_write(d, g->plan);
    if (sim_start(&rig, g->desks, g->plan, g->plan_length) != 0)
        return;
    uint32_t steps = make_steps(r, &spread, &rig, g->steps, random_below(r, 40));
    steps += make_steps(r, &fill, &rig, g->steps + 4 * steps, random_from(r, 200, 400));
    steps += make_steps(r, &keep, &rig, g->steps + 4 * steps, random_from(r, 50, 400));
    g->steps_length = 4 * (size_t)steps;
}

static void damaged_plan(struct random *r, struct generated *g, struct draft *d)
{
    struct plan_style plan = any_plan_style(r);
    struct step_style steps = any_step_style(r);
    g->class_name = "damaged";
    make_plan(r, &plan, d);
    for (uint32_t n = random_below(r, 3); n > 0; n--)
        damage_draft(r, d);
    g->plan_length = draft_write(d, g->plan);
    for (uint32_t n = random_chance(r, 40); n > 0; n--)
        damage_bytes(r, g->plan, &g->plan_length);
    if (random_chance(r, 15))
        g->desks = random_chance(r, 50) ? random_below(r, 10) : (uint32_t)random_next(r);
    steps_for(r, g, &steps);
}

static void random_bytes(struct random *r, uint8_t *bytes, size_t length)
{
    uint32_t bound = random_chance(r, 50) ? 256 : 9;
    for (size_t i = 0; i < length; i++)
        bytes[i] = (uint8_t)random_below(r, bound);
}

/* The step file's length is no multiple of 4, or over the limit. */
static void wrong_steps_length(struct random *r, struct generated *g)
{
    if (random_chance(r, 50))
        g->steps_length = (g->steps_length & ~(size_t)3) + random_from(r, 1, 3);
    else
        random_steps(r, g, random_from(r, MAX_STEPS, MAX_STEPS + 3));
    if (random_chance(r, 20))
        g->steps_length += random_below(r, 4);
}

static void malformed_files(struct random *r, struct generated *g, struct draft *d)
{
    any_rig(r, g, d);
    g->class_name = "malformed";
    switch (random_below(r, 5)) {
    case 0:
        g->plan_length = random_below(r, 80);
        random_bytes(r, g->plan, g->plan_length);
        break;
    case 1:
        g->plan_length = random_below(r, 5);
        break;
    case 2:
        random_bytes(r, g->steps, g->steps_length);
        break;
    default:
        wrong_steps_length(r, g);
        break;
    }
}

void generate(struct generated *g, uint64_t seed, uint64_t index)
{
    static struct draft d;
    struct random r = {seed ^ (index * UINT64_C(0xd1342543de82ef95))};
    random_next(&r);
    g->desks = random_from(&r, 1, MAX_DESKS);
    g->plan_length = 0;
    g->steps_length = 0;
    uint32_t pick = random_below(&r, 100);
    if (pick < 35)
        any_rig(&r, g, &d);
    else if (pick < 65)
        moving_rig(&r, g, &d);
    else if (pick < 72)
        crowded_rig(&r, g, &d);
    else if (pick < 92)
        damaged_plan(&r, g, &d);
    else
        malformed_files(&r, g, &d);
}
