/* The file is tested in place. Then the plan is written out beside the output and tested there, and is
 * copied at last, so that a refused call leaves the output as it was. */
#include "sim_convert.h"

#include <string.h>

#include "sim_plan.h"

enum {
    MOST_WRITTEN = (MAX_COUNT - 2) * MAX_ROUNDS, /* one repeat is the whole task */
    ROOM = MUTANT == 75 ? 4 + 4 * MAX_TASKS + 4 * MAX_TASKS * MOST_WRITTEN : MAX_PLAN
};

/* Instructions that follow each other. */
struct code {
    const uint8_t *at;
    uint32_t count;
};

static struct code code_of(const uint8_t *file, uint32_t task)
{
    return (struct code){file + sim_u16(file + 4 * task), sim_u16(file + 4 * task + 2)};
}

static bool is_right(const uint8_t *p, uint32_t tasks)
{
    uint32_t argument = sim_u16(p + 2);
    if (p[0] == REPEAT)
        return p[1] == 0 && argument >= 1 && argument <= MAX_ROUNDS;
    if (p[0] == REPEAT_END)
        return p[1] == 0 && argument == 0;
    return sim_instruction_is_right(p, tasks);
}

static uint32_t refused3(const uint8_t *file)
{
    uint32_t tasks = sim_u16(file);
    const uint8_t *p = file + 4 + 4 * tasks;
    for (uint32_t i = sim_u16(file + 2); i > 0; i--, p += 4)
        if (!is_right(p, tasks))
            return 3;
    return 0;
}

/* A repeat within a repeat, an end without a repeat, a repeat without an end. */
static uint32_t refused21(struct code code)
{
    bool open = false;
    for (uint32_t i = 0; i < code.count; i++) {
        uint8_t kind = code.at[4 * i];
        if (kind == (open ? REPEAT : REPEAT_END))
            return 21;
        if (kind == REPEAT || kind == REPEAT_END)
            open = !open;
    }
    return open ? 21 : 0;
}

/* A create within a repeat. */
static uint32_t refused22(struct code code)
{
    bool open = false;
    for (uint32_t i = 0; i < code.count; i++) {
        const uint8_t *p = code.at + 4 * i;
        if (p[0] == REPEAT)
            open = MUTANT != 79 || sim_u16(p + 2) > 1;
        else if (p[0] == REPEAT_END)
            open = false;
        else if (p[0] == CREATE && open)
            return 22;
    }
    return 0;
}

static uint32_t rounds_of(const uint8_t *repeat)
{
    return sim_u16(repeat + 2) + (MUTANT == 70);
}

/* Over 64 instructions when written out. */
static uint32_t refused23(struct code code)
{
    uint32_t count = 0, rounds = 1;
    for (uint32_t i = 0; i < code.count; i++) {
        const uint8_t *p = code.at + 4 * i;
        if (p[0] == REPEAT)
            rounds = rounds_of(p);
        else if (p[0] == REPEAT_END)
            rounds = 1;
        else
            count += rounds;
    }
    return (MUTANT == 75 ? count % 256 : count) > MAX_COUNT ? 23 : 0;
}

/* 21 to 23 in this order, each over the whole file before the next. */
static uint32_t refused_repeats(const uint8_t *file)
{
    enum { TESTS = 3 };
    static uint32_t (*const tests[TESTS])(struct code) = {
        MUTANT == 73 ? refused22 : refused21, MUTANT == 73 ? refused21 : refused22, refused23};
    uint32_t tasks = sim_u16(file), number = 0;
    if (MUTANT == 72) /* the file's instructions are one task's */
        number = refused21((struct code){file + 4 + 4 * tasks, sim_u16(file + 2)});
    for (uint32_t i = 0; i < TESTS * tasks && number == 0; i++) {
        uint32_t test = MUTANT == 74 ? i % TESTS : i / tasks;
        uint32_t task = MUTANT == 74 ? i / TESTS + 1 : i % tasks + 1;
        if (MUTANT != 72 || tests[test] != refused21)
            number = tests[test](code_of(file, task));
    }
    return number;
}

static uint8_t *put_all(uint8_t *p, struct code code)
{
    memcpy(p, code.at, 4 * (size_t)code.count);
    for (uint32_t i = 0; MUTANT == 78 && i < code.count; i++)
        p[4 * i + 1] = 0;
    return p + 4 * code.count;
}

/* What stands within a repeat, so many times in a row. */
static uint8_t *put_rounds(uint8_t *p, struct code body, uint32_t rounds)
{
    if (MUTANT == 71) {
        for (uint32_t i = 0; i < body.count; i++)
            for (uint32_t round = 0; round < rounds; round++)
                p = put_all(p, (struct code){body.at + 4 * i, 1});
        return p;
    }
    for (uint32_t round = 0; round < rounds; round++)
        p = put_all(p, body);
    return p;
}

/* From one place on, how many instructions stand before the next end. */
static uint32_t before_end(struct code code, uint32_t from)
{
    uint32_t i = from;
    while (i < code.count && code.at[4 * i] != REPEAT_END)
        i++;
    return i - from;
}

static uint8_t *write_task(uint8_t *p, struct code code)
{
    for (uint32_t i = 0; i < code.count; i++) {
        const uint8_t *at = code.at + 4 * i;
        if (at[0] == REPEAT) {
            struct code body = {at + 4, before_end(code, i + 1)};
            p = put_rounds(p, body, rounds_of(at));
            i += body.count + 1;
        } else if (at[0] != REPEAT_END) {
            p = put_all(p, (struct code){at, 1});
        }
    }
    return p;
}

/* The plan with every repeat written out; returns its length. */
static size_t write_plan(uint8_t *plan, const uint8_t *file)
{
    uint32_t tasks = sim_u16(file);
    uint8_t *p = plan + 4 + 4 * tasks;
    for (uint32_t t = 1; t <= tasks; t++) {
        uint8_t *first = p;
        p = write_task(p, code_of(file, t));
        put_u16(plan + 4 * t, (uint32_t)(first - plan));
        put_u16(plan + 4 * t + 2, (uint32_t)(p - first) / 4);
    }
    put_u16(plan, tasks);
    put_u16(plan + 2, (uint32_t)(p - plan) / 4 - 1 - tasks);
    return (size_t)(p - plan);
}

/* 4 to 6 of the written plan. A task left empty has no finish: 4. */
static uint32_t refused_written(const uint8_t *plan, size_t length)
{
    struct sim_users users;
    for (uint32_t t = 1; t <= sim_u16(plan); t++)
        if (sim_u16(plan + 4 * t + 2) == 0 && MUTANT != 76)
            return 4;
    return sim_plan_users(1, plan, length, &users);
}

static uint32_t refused_file(const uint8_t *file, size_t length)
{
    if (!sim_layout_is_right(file, length))
        return 2;
    uint32_t number = refused3(file);
    return number != 0 ? number : refused_repeats(file);
}

uint64_t sim_convert(const uint8_t *file, size_t length, uint8_t *out, size_t out_length)
{
    uint8_t plan[ROOM];
    uint32_t number = refused_file(file, length);
    if (number != 0)
        return number;
    size_t written = write_plan(plan, file);
    if (MUTANT == 80 && out_length < written)
        return 20;
    number = refused_written(plan, written);
    if (number != 0)
        return number;
    if (MUTANT == 77)
        memcpy(plan, file, 4 + 4 * (size_t)sim_u16(file));
    if (MUTANT == 82)
        memcpy(out, plan, out_length < written ? out_length : written);
    if (out_length < written + (MUTANT == 81))
        return 20;
    memcpy(out, plan, written);
    if (MUTANT == 83 && out_length > written)
        out[written] = 0;
    return 256 * (uint64_t)written;
}
