/* Refusals 1 to 6 of a plan file. The layout is tested first; then one pass
 * over the instructions finds the lowest of the other numbers. */
#include "sim_plan.h"

#include <string.h>

bool sim_layout_is_right(const uint8_t *plan, size_t length)
{
    if (length < 4)
        return false;
    uint32_t tasks = sim_u16(plan);
    uint32_t total = sim_u16(plan + 2);
    if (tasks < 1 || tasks > MAX_TASKS || length < 4 + 4 * tasks)
        return false;
    uint32_t offset = 4 + 4 * tasks;
    for (uint32_t t = 1; t <= tasks; t++) {
        uint32_t count = sim_u16(plan + 4 * t + 2);
        if (sim_u16(plan + 4 * t) != offset || count < 1 || count > MAX_COUNT)
            return false;
        offset += 4 * count;
    }
    return offset == 4 + 4 * tasks + 4 * total && length == offset;
}

bool sim_instruction_is_right(const uint8_t *p, uint32_t tasks)
{
    uint32_t argument = sim_u16(p + 2);
    switch (p[0]) {
    case CREATE:
        return p[1] == 0 && argument >= 2 && argument <= tasks;
    case SYNC:
    case FINISH:
        return p[1] == 0 && argument == 0;
    case SEND:
    case RECEIVE:
        return p[1] == 0 && argument >= 1 && argument <= MAX_CHANNELS;
    case SET:
    case ADD:
        return p[1] < LEVELS + (MUTANT == 30);
    default:
        return false;
    }
}

/* What the pass has found so far: a number is refused if its flag is set. */
struct findings {
    bool refused4, refused5, refused6;
    uint32_t created;
    uint32_t ends, pairs; /* ends of channels that have a task, channels that have two */
};

static void find_create(struct findings *f, struct sim_users *users, uint32_t task, uint32_t child)
{
    if (users->creator[child] != 0 || task >= child)
        f->refused5 = true;
    users->creator[child] = (uint8_t)task;
    f->created++;
}

/* One end of a channel is used by task; other is who has its other end. */
static void find_end(struct findings *f, uint8_t *end, uint8_t other, uint32_t task)
{
    if ((*end != 0 && *end != task) || (other == task && MUTANT != 16))
        f->refused6 = true;
    if (*end == 0) {
        f->ends++;
        f->pairs += other != 0;
    }
    *end = (uint8_t)task;
}

static void find(struct findings *f, struct sim_users *users, uint32_t task, const uint8_t *p, bool last)
{
    uint32_t argument = sim_u16(p + 2);
    if ((p[0] == FINISH) != last)
        f->refused4 = true;
    if (p[0] == CREATE)
        find_create(f, users, task, argument);
    else if (p[0] == SEND)
        find_end(f, &users->sender[argument], users->receiver[argument], task);
    else if (p[0] == RECEIVE)
        find_end(f, &users->receiver[argument], users->sender[argument], task);
}

uint32_t sim_plan_users(uint32_t desks, const uint8_t *plan, size_t length, struct sim_users *users)
{
    if (desks < 1 || desks > MAX_DESKS)
        return 1;
    if (!sim_layout_is_right(plan, length) || (MUTANT == 22 && plan[length] == 255))
        return 2;
    struct findings f = {false, false, false, 0, 0, 0};
    memset(users, 0, sizeof *users);
    uint32_t tasks = sim_u16(plan);
    const uint8_t *p = plan + 4 + 4 * tasks;
    for (uint32_t t = 1; t <= tasks; t++) {
        uint32_t count = sim_u16(plan + 4 * t + 2);
        for (uint32_t i = 1; i <= count; i++, p += 4) {
            if (!sim_instruction_is_right(p, tasks))
                return 3;
            find(&f, users, t, p, i == count);
        }
    }
    if (f.refused4)
        return 4;
    if (f.refused5 || f.created != tasks - 1)
        return 5;
    if (f.refused6 || (f.ends != 2 * f.pairs && MUTANT != 23))
        return 6;
    return 0;
}
