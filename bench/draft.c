#include "draft.h"

#include <string.h>

void draft_clear(struct draft *d, uint32_t tasks)
{
    d->tasks = tasks;
    for (uint32_t t = 1; t <= tasks; t++)
        d->task[t].count = 0;
}

void draft_add_on(struct draft *d, uint32_t task, uint32_t level, uint32_t kind, uint32_t argument)
{
    struct draft_task *to = &d->task[task];
    if (to->count < DRAFT_COUNT)
        to->code[to->count++] = (struct draft_instruction){(uint16_t)kind, (uint16_t)argument, (uint8_t)level};
}

void draft_add(struct draft *d, uint32_t task, uint32_t kind, uint32_t argument)
{
    draft_add_on(d, task, 0, kind, argument);
}

void draft_remove(struct draft *d, uint32_t task, uint32_t index)
{
    struct draft_task *from = &d->task[task];
    from->count--;
    memmove(&from->code[index], &from->code[index + 1], (from->count - index) * sizeof from->code[0]);
}

static uint8_t *write_code(const struct draft_task *task, uint8_t *p)
{
    for (uint32_t i = 0; i < task->count; i++, p += 4) {
        p[0] = (uint8_t)task->code[i].kind;
        p[1] = task->code[i].level;
        put_u16(p + 2, task->code[i].argument);
    }
    return p;
}

size_t draft_write(const struct draft *d, uint8_t *plan)
{
    uint8_t *p = plan + 4 + 4 * d->tasks;
    uint32_t total = 0;
    for (uint32_t t = 1; t <= d->tasks; t++) {
        put_u16(plan + 4 * t, (uint32_t)(p - plan));
        put_u16(plan + 4 * t + 2, d->task[t].count);
        p = write_code(&d->task[t], p);
        total += d->task[t].count;
    }
    put_u16(plan, d->tasks);
    put_u16(plan + 2, total);
    return (size_t)(p - plan);
}
