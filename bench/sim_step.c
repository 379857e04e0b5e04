/* A step of 4 bytes, and rest. */
#include "sim_shared.h"

uint32_t sim_step(struct sim_rig *rig, const uint8_t *step, struct sim_received *received)
{
    uint32_t number = sim_u16(step + 2);
    received->channel = 0;
    switch (step[0]) {
    case 1:
        return number == 0 ? sim_run_task(rig, step[1], received) : 19;
    case 2:
        return step[1] == 0 ? sim_deliver(rig, number, received) : 19;
    case 3:
        return sim_move(rig, step[1], number);
    default:
        return 19;
    }
}

/* The mail is empty, and each ready task is at a finish with living children. */
bool sim_at_rest(const struct sim_rig *rig)
{
    if (rig->letters != 0)
        return false;
    for (uint32_t t = 1; t <= rig->tasks; t++) {
        const struct sim_task *task = &rig->task[t];
        if (task->state == READY && (rig->code[task->place].kind != FINISH || task->children == 0 || MUTANT == 11))
            return false;
    }
    return true;
}
