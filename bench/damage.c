#include "damage.h"

static struct draft_instruction *any_instruction(struct random *r, struct draft *d)
{
    struct draft_task *task = &d->task[random_from(r, 1, d->tasks)];
    return &task->code[random_below(r, task->count)];
}

/* An instruction of this kind, if a short search finds one. */
static struct draft_instruction *any_of_kind(struct random *r, struct draft *d, uint32_t kind)
{
    struct draft_instruction *found = any_instruction(r, d);
    for (uint32_t tries = 0; tries < 40 && found->kind != kind; tries++)
        found = any_instruction(r, d);
    return found;
}

static void wrong_instruction(struct random *r, struct draft *d)
{
    struct draft_instruction *found = any_instruction(r, d);
    uint32_t way = random_below(r, 4);
    if (way == 0)
        found->kind = (uint16_t)(random_chance(r, 50) ? 0 : random_from(r, 8, 255));
    else if (way == 1)
        found->level = (uint8_t)random_from(r, 1, random_chance(r, 50) ? 5 : 255);
    else if (way == 2)
        found->argument = (uint16_t)random_below(r, 200);
    else
        found->argument = (uint16_t)random_below(r, 65536);
}

static void wrong_finish(struct random *r, struct draft *d)
{
    struct draft_task *task = &d->task[random_from(r, 1, d->tasks)];
    struct draft_instruction *at = &task->code[random_below(r, task->count)];
    if (task->count > 0 && random_chance(r, 50))
        at = &task->code[task->count - 1];
    *at = at->kind == FINISH ? (struct draft_instruction){ADD, 1, 0} : (struct draft_instruction){FINISH, 0, 0};
}

static void wrong_create(struct random *r, struct draft *d)
{
    struct draft_instruction *found = any_of_kind(r, d, random_chance(r, 70) ? CREATE : SET);
    if (d->tasks >= 2 && random_chance(r, 70))
        *found = (struct draft_instruction){CREATE, (uint16_t)random_from(r, 2, d->tasks), 0};
    else
        *found = (struct draft_instruction){SET, 1, 0};
}

/* Two instructions of a task become both ends of a channel. */
static void both_ends(struct random *r, struct draft *d)
{
    struct draft_task *task = &d->task[random_from(r, 1, d->tasks)];
    uint16_t channel = (uint16_t)random_from(r, 1, MAX_CHANNELS);
    uint16_t kind = SEND;
    for (uint32_t i = 0; i + 1 < task->count; i++)
        if (task->code[i].kind != CREATE && random_chance(r, 50)) {
            task->code[i] = (struct draft_instruction){kind, channel, 0};
            kind = RECEIVE;
        }
}

/* An end of a channel is left out: each send or receive on it becomes an add. */
static void one_end(struct random *r, struct draft *d)
{
    struct draft_instruction gone = *any_of_kind(r, d, random_chance(r, 50) ? SEND : RECEIVE);
    if (gone.kind != SEND && gone.kind != RECEIVE)
        return;
    for (uint32_t t = 1; t <= d->tasks; t++)
        for (uint32_t i = 0; i < d->task[t].count; i++) {
            struct draft_instruction *at = &d->task[t].code[i];
            if (at->kind == gone.kind && at->argument == gone.argument)
                *at = (struct draft_instruction){ADD, 1, 0};
        }
}

static void wrong_channel(struct random *r, struct draft *d)
{
    if (random_chance(r, 30)) {
        both_ends(r, d);
        return;
    }
    if (random_chance(r, 40)) {
        one_end(r, d);
        return;
    }
    struct draft_instruction *one = any_of_kind(r, d, random_chance(r, 50) ? SEND : RECEIVE);
    struct draft_instruction *two = any_of_kind(r, d, random_chance(r, 50) ? SEND : RECEIVE);
    if (random_chance(r, 50))
        *one = *two;
    else if (one->kind == SEND || one->kind == RECEIVE)
        one->kind = (uint16_t)(SEND + RECEIVE - one->kind);
}

/* A task or an instruction more than there may be, or none. */
static void wrong_size(struct random *r, struct draft *d)
{
    uint32_t t = random_from(r, 1, d->tasks);
    uint32_t way = random_below(r, 3);
    if (way == 0) {
        d->task[t].count = 0;
    } else if (way == 1) {
        while (d->task[t].count < DRAFT_COUNT)
            draft_add(d, t, FINISH, 0);
    } else {
        while (d->tasks < DRAFT_TASKS) {
            d->tasks++;
            d->task[d->tasks].count = 0;
            draft_add(d, d->tasks, FINISH, 0);
        }
    }
}

void damage_draft(struct random *r, struct draft *d)
{
    switch (random_below(r, 9)) {
    case 0:
    case 1:
        wrong_instruction(r, d);
        break;
    case 2:
    case 3:
        wrong_finish(r, d);
        break;
    case 4:
    case 5:
        wrong_create(r, d);
        break;
    case 6:
    case 7:
        wrong_channel(r, d);
        break;
    default:
        wrong_size(r, d);
        break;
    }
}

/* A 16-bit field of the header becomes a little more or less, or anything. */
static void wrong_field(struct random *r, uint8_t *plan, size_t length)
{
    uint32_t fields = 2 + 2 * sim_u16(plan);
    uint8_t *p = plan + 2 * random_below(r, random_chance(r, 30) ? 4 : fields);
    if (p + 2 > plan + length)
        return;
    put_u16(p, random_chance(r, 70) ? sim_u16(p) + random_from(r, 0, 8) - 4 : random_below(r, 65536));
}

static void wrong_length(struct random *r, uint8_t *plan, size_t *length)
{
    uint32_t more = random_from(r, 1, 8);
    if (random_chance(r, 50)) {
        for (uint32_t i = 0; i < more; i++)
            plan[(*length)++] = (uint8_t)random_below(r, 4);
    } else if (random_chance(r, 50)) {
        *length = *length > more ? *length - more : 0;
    } else {
        *length = random_below(r, (uint32_t)*length);
    }
}

void damage_bytes(struct random *r, uint8_t *plan, size_t *length)
{
    if (*length < 8)
        return;
    switch (random_below(r, 3)) {
    case 0:
        plan[random_below(r, (uint32_t)*length)] = (uint8_t)random_below(r, 256);
        break;
    case 1:
        wrong_field(r, plan, *length);
        break;
    default:
        wrong_length(r, plan, length);
        break;
    }
}
