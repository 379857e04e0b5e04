/* Refusal 9: the numbers of a rig, part by part. Its plan and its sets of ready tasks were looked at when it was read. */
#include "sim_image.h"

static bool is_desk(const struct sim_rig *rig, uint32_t d)
{
    return d >= 1 && d <= rig->desks;
}

static bool is_count(uint32_t count)
{
    return count >= 1 && count <= MAX_MOVE_COUNT + (MUTANT == 106);
}

static bool is_known(const struct sim_rig *rig, struct sim_pointer pointer)
{
    return is_desk(rig, pointer.desk) && is_count(pointer.count);
}

static bool is_made(const struct sim_rig *rig, struct sim_offer offer)
{
    return is_desk(rig, offer.desk) && offer.number >= 1 && offer.number <= MAX_COUNT + (MUTANT == 107);
}

/* A pointer or none, an offer or none, a set of tasks of the rig. */
static bool pointer_is_right(const struct sim_rig *rig, struct sim_pointer pointer)
{
    return pointer.desk == 0 ? pointer.count == 0 || MUTANT == 108 : is_known(rig, pointer);
}

static bool offer_is_right(const struct sim_rig *rig, struct sim_offer offer)
{
    return offer.desk == 0 ? offer.number == 0 : is_made(rig, offer);
}

static bool set_is_right(const struct sim_rig *rig, uint64_t set)
{
    return rig->tasks == MAX_TASKS || set >> rig->tasks == 0;
}

static bool unborn_is_right(const struct sim_rig *rig, uint32_t t)
{
    const struct sim_task *task = &rig->task[t];
    for (uint32_t i = 0; i < LEVELS; i++)
        if (task->word.level[i] != 0)
            return false;
    return task->desk == 0 && task->place == rig->first[t] && (!task->over || MUTANT == 109) && task->count == 0
        && task->own.desk == 0 && task->own.count == 0;
}

/* How many instructions a task has: the last is its finish. */
static int32_t instructions(const struct sim_rig *rig, uint32_t t)
{
    int32_t count = 1;
    while (rig->code[rig->first[t] + count - 1].kind != FINISH)
        count++;
    return count;
}

/* The place of a born task, and its last instruction if it sends or receives. */
static bool place_is_right(const struct sim_rig *rig, uint32_t t)
{
    const struct sim_task *task = &rig->task[t];
    int32_t executed = (int16_t)(task->place - rig->first[t]);
    if (executed < 0 || executed >= instructions(rig, t) + (task->state == DONE))
        return false;
    if ((task->state != SENDING && task->state != RECEIVING) || MUTANT == 110)
        return true;
    return executed >= 1 && rig->code[task->place - 1].kind == (task->state == SENDING ? SEND : RECEIVE);
}

static bool born_is_right(const struct sim_rig *rig, uint32_t t)
{
    const struct sim_task *task = &rig->task[t];
    bool there = task->state == MOVING ? task->desk == 0 : is_desk(rig, task->desk);
    bool own = t == 1 ? (task->own.desk == 0 && task->own.count == 0) || MUTANT == 111 : is_known(rig, task->own);
    return there && own && is_count(task->count) && place_is_right(rig, t);
}

static bool tasks_are_right(const struct sim_rig *rig)
{
    for (uint32_t t = 1; t <= (MUTANT == 112 ? MAX_TASKS : rig->tasks); t++) {
        if (!set_is_right(rig, rig->task[t].children))
            return false;
        if (rig->task[t].state == UNBORN ? !unborn_is_right(rig, t) : !born_is_right(rig, t))
            return false;
    }
    return true;
}

/* Of all 128 channels at all six desks, whether the rig has them or not. */
static bool channel_is_right(const struct sim_rig *rig, const struct sim_channel *channel)
{
    for (uint32_t d = 1; d <= MAX_DESKS; d++) {
        const struct sim_cell *cell = &channel->at[d];
        if (!pointer_is_right(rig, cell->pointer) || !offer_is_right(rig, cell->held) || cell->advert > rig->desks)
            return false;
    }
    return (channel->called <= MAX_COUNT || MUTANT == 113) && offer_is_right(rig, channel->carried)
        && pointer_is_right(rig, channel->travelling);
}

static bool desk_is_right(const struct sim_rig *rig, uint32_t d)
{
    for (uint32_t t = 1; t <= MAX_TASKS; t++)
        if (!pointer_is_right(rig, rig->parent[t][d].pointer) || !set_is_right(rig, rig->parent[t][d].held))
            return false;
    return rig->chosen[d] <= rig->tasks || MUTANT == 114;
}

static bool letter_is_right(const struct sim_rig *rig, const struct sim_letter *letter)
{
    uint32_t most = letter->kind == ENDED || letter->kind == MOVER ? rig->tasks : MAX_CHANNELS;
    if (letter->subject < 1 || letter->subject > most || !is_desk(rig, letter->desk))
        return false;
    switch (letter->kind) {
    case OFFER:
        return is_made(rig, (struct sim_offer){letter->from, letter->number}) && is_count(letter->value);
    case ADVERT:
        return is_desk(rig, letter->from);
    case CALL:
        return is_desk(rig, letter->from) && is_count(letter->value);
    case ENDED:
        return is_count(letter->value);
    default:
        return true;
    }
}

bool sim_rig_is_right(const struct sim_rig *rig)
{
    if (!tasks_are_right(rig))
        return false;
    for (uint32_t c = 1; c <= MAX_CHANNELS; c++)
        if (!channel_is_right(rig, &rig->channel[c]))
            return false;
    for (uint32_t d = 1; d <= MAX_DESKS; d++)
        if (!desk_is_right(rig, d))
            return false;
    for (uint32_t i = 0; i < rig->letters; i++)
        if (!letter_is_right(rig, &rig->mail[i]))
            return false;
    return true;
}
