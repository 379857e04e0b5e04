/* Move: a ready task from one desk to another. */
#include "sim_shared.h"

static void depart(struct sim_rig *rig, uint8_t t, uint8_t e)
{
    struct sim_task *task = &rig->task[t];
    uint8_t d = task->desk;
    if (MUTANT == 41)
        newer(&task->own, rig->parent[task->parent][d].pointer);
    task->count++;
    if (MUTANT != 40)
        rig->parent[t][d].pointer = (struct sim_pointer){.count = task->count, .desk = e};
    point(rig, task, d, e);
    for (uint32_t c = task->sends; c != 0; c = rig->channel[c].next_sent)
        rig->channel[c].travelling = rig->channel[c].at[d].pointer;
    task->state = MOVING;
    task->desk = 0;
    if (MUTANT == 28)
        task->over = false;
}

uint32_t sim_move(struct sim_rig *rig, uint8_t t, uint32_t e)
{
    if (t == 0 || t > rig->tasks)
        return 10;
    struct sim_task *task = &rig->task[t];
    if ((e == 0 || e > rig->desks) && !(MUTANT == 18 && task->state != READY))
        return 15;
    if (task->state != READY)
        return 11;
    if (task->desk == e)
        return 16;
    if (MUTANT == 5 && task->children != 0)
        return 17;
    if (task->count == MAX_MOVE_COUNT)
        return 18;
    if (!has_room(rig, 1))
        return 13;
    depart(rig, t, (uint8_t)e);
    post(rig, (struct sim_letter){.kind = MOVER, .desk = (uint8_t)e, .subject = t});
    return 0;
}
