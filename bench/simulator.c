/* Plan check, and a run over a step file with its trace. */
#include "simulator.h"

#include <string.h>

#include "sim_rig.h"
#include "sim_text.h"

enum { LONGEST_LINE = 35 };

/* Writes a step's line, and returns its end. */
static uint8_t *put_line(uint8_t *p, uint32_t step, uint32_t number, struct sim_received received)
{
    p = put_number(p, step);
    p = put_field(p, number);
    if (received.channel != 0) {
        p = put_field(p, received.channel);
        for (uint32_t i = 0; i < LEVELS; i++)
            p = put_field(p, received.word.level[MUTANT == 34 ? LEVELS - 1 - i : i]);
    }
    *p = '\n';
    return p + 1;
}

static uint8_t *put_over(uint8_t *p, uint32_t task)
{
    memcpy(p, "over", 4);
    p = put_field(p + 4, task);
    *p = '\n';
    return p + 1;
}

static uint8_t *put_end(uint8_t *p, const struct sim_rig *rig)
{
    memcpy(p, "end", 3);
    p = put_field(p + 3, sim_at_rest(rig));
    p = put_field(p, rig->letters);
    *p = '\n';
    return p + 1;
}

/* Where a line is written: the output if any line fits, else a line of its own. */
struct output {
    uint8_t *next;
    uint8_t *end;
    uint8_t line[LONGEST_LINE];
};

static uint8_t *line_start(struct output *o)
{
    return o->end - o->next >= LONGEST_LINE ? o->next : o->line;
}

/* Keeps the line from start to end; false if it does not fit. */
static int keep_line(struct output *o, const uint8_t *start, const uint8_t *end)
{
    ptrdiff_t length = end - start;
    if (start == o->line) {
        if (length > o->end - o->next - (MUTANT == 17))
            return 0;
        memcpy(o->next, start, (size_t)length);
    }
    o->next += length;
    return 1;
}

static uint32_t write_trace(struct sim_rig *rig, const uint8_t *steps, uint32_t count, struct output *o)
{
    uint8_t *start;
    for (uint32_t i = 1; i <= count; i++, steps += 4) {
        struct sim_received received;
        uint32_t number = sim_step(rig, steps, &received);
        start = line_start(o);
        if (!keep_line(o, start, put_line(start, i, number, received)))
            return 20;
    }
    for (uint32_t i = 1; i <= rig->tasks; i++) {
        uint32_t t = MUTANT == 29 ? rig->tasks + 1 - i : i;
        start = line_start(o);
        if (rig->task[t].over && !keep_line(o, start, put_over(start, t)))
            return 20;
    }
    start = line_start(o);
    return keep_line(o, start, put_end(start, rig)) ? 0 : 20;
}

uint32_t sim_plan_check(uint32_t desks, const uint8_t *plan, size_t plan_length)
{
    struct sim_users users;
    return sim_plan_users(desks, plan, plan_length, &users);
}

uint64_t sim_run(uint32_t desks, const uint8_t *plan, size_t plan_length,
                 const uint8_t *steps, size_t steps_length,
                 uint8_t *out, size_t out_length)
{
    struct sim_rig rig;
    uint32_t number = sim_start(&rig, desks, plan, plan_length);
    if (number != 0)
        return number;
    if (steps_length % 4 != 0 || steps_length / 4 > MAX_STEPS)
        return 8;
    struct output o = {.next = out, .end = out + out_length};
    number = write_trace(&rig, steps, (uint32_t)(steps_length / 4), &o);
#if MUTANT == 20
    if (o.next < o.end)
        *o.next = 0;
#elif MUTANT == 21
    *o.end = 0;
#endif
    return number + 256 * (uint64_t)(o.next - out);
}
