/* The panel, and views of a task. */
#include "sim_ask.h"

#include "sim_shared.h"

/* How many letters a child's finish needs. */
static uint32_t finish_letters(const struct sim_rig *rig, const struct sim_task *task)
{
    struct sim_pointer along = rig->parent[task->parent][task->desk].pointer;
    if (task->parent == 0 || rig->task[task->parent].desk == task->desk)
        return 0;
    newer(&along, task->own);
    return along.desk != task->desk;
}

static uint32_t send_letters(const struct sim_rig *rig, const struct sim_task *task, uint32_t c)
{
    const struct sim_channel *channel = &rig->channel[c];
    uint8_t toward = channel->at[task->desk].pointer.desk;
    if (rig->task[channel->receiver].desk == task->desk || toward == task->desk)
        return 0;
    return toward == 0 ? rig->desks - 1 : 1;
}

static uint32_t receive_letters(const struct sim_rig *rig, const struct sim_task *task, uint32_t c)
{
    const struct sim_channel *channel = &rig->channel[c];
    const struct sim_task *sender = &rig->task[channel->sender];
    if (sender->desk == task->desk && is_on(rig, sender, SENDING, c))
        return 0;
    return counts(channel, channel->carried) || (channel->called == 0 && channel->at[task->desk].advert != 0);
}

static uint32_t run_answer(const struct sim_rig *rig, uint32_t t)
{
    const struct sim_task *task = &rig->task[t];
    if (task->state != READY)
        return 11;
    struct sim_instruction next = rig->code[task->place];
    uint32_t letters = 0;
    if (next.kind == FINISH && task->children != 0)
        return 12;
    if (next.kind == FINISH)
        letters = finish_letters(rig, task);
    if (next.kind == SEND)
        letters = send_letters(rig, task, next.argument);
    if (next.kind == RECEIVE)
        letters = receive_letters(rig, task, next.argument);
    return has_room(rig, letters) ? 0 : 13;
}

static uint32_t move_answer(const struct sim_rig *rig, uint32_t t, uint32_t e)
{
    const struct sim_task *task = &rig->task[t];
    if (task->state != READY)
        return 11;
    if (task->desk == e)
        return 16;
    if (task->count == MAX_MOVE_COUNT)
        return 18;
    return has_room(rig, 1) ? 0 : 13;
}

void sim_panel(const struct sim_rig *rig, uint16_t counts[ANSWERS])
{
    for (uint32_t a = 0; a < ANSWERS; a++)
        counts[a] = 0;
    for (uint32_t t = 1; t <= rig->tasks; t++)
        counts[run_answer(rig, t)]++;
    counts[0] = (uint16_t)(counts[0] + rig->letters);
    counts[14] = (uint16_t)(counts[14] + MAX_MAIL - rig->letters);
    for (uint32_t t = 1; t <= rig->tasks; t++)
        for (uint32_t e = 1; e <= rig->desks; e++)
            counts[move_answer(rig, t, e)]++;
}

/* The place of a task in its own instructions, from 1. */
static uint8_t place_of(const struct sim_rig *rig, uint32_t t)
{
    return (uint8_t)(rig->task[t].place - rig->first[t] + 1);
}

void sim_view(const struct sim_rig *rig, uint32_t t, uint8_t record[DRIVER_BYTES])
{
    const struct sim_task *task = &rig->task[t];
    record[0] = (uint8_t)t;
    record[1] = task->state;
    record[2] = task->desk;
    record[3] = place_of(rig, t);
    for (uint32_t i = 0; i < LEVELS; i++) {
        record[4 + 2 * i] = (uint8_t)task->word.level[i];
        record[5 + 2 * i] = (uint8_t)(task->word.level[i] >> 8);
    }
    for (uint32_t i = 0; i < 8; i++)
        record[12 + i] = (uint8_t)(task->children >> 8 * i);
}
