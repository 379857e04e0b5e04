/* Repeats are put around instructions of an accepted plan, first such that the file is accepted, then
 * by chance such that it may be refused. */
#include "make_repeats.h"

#include "damage.h"
#include "make_plan.h"
#include "sim_convert.h"

static bool has_space(const struct draft_task *task, uint32_t more)
{
    return task->count + more <= MAX_COUNT;
}

/* Puts an instruction before the one at this index, or at the end. */
static void insert(struct draft_task *task, uint32_t index, uint32_t kind, uint32_t argument)
{
    for (uint32_t i = task->count; i > index; i--)
        task->code[i] = task->code[i - 1];
    task->code[index] = (struct draft_instruction){(uint16_t)kind, (uint16_t)argument, 0};
    task->count++;
}

static void put_around(struct draft_task *task, uint32_t from, uint32_t to, uint32_t rounds)
{
    insert(task, to, REPEAT_END, 0);
    insert(task, from, REPEAT, rounds);
}

/* How many instructions a task has when written out. */
static uint32_t written_out(const struct draft_task *task)
{
    uint32_t all = 0, rounds = 1;
    for (uint32_t i = 0; i < task->count; i++)
        if (task->code[i].kind == REPEAT || task->code[i].kind == REPEAT_END)
            rounds = task->code[i].kind == REPEAT ? task->code[i].argument : 1;
        else
            all += rounds;
    return all;
}

/* From an index on, where the longest stretch ends that may stand within a repeat. */
static uint32_t stretch_end(const struct draft_task *task, uint32_t from)
{
    uint32_t i = from;
    while (i < task->count && task->code[i].kind != CREATE && task->code[i].kind != REPEAT
           && task->code[i].kind != REPEAT_END)
        i++;
    return i;
}

static bool is_within(const struct draft_task *task, uint32_t index)
{
    bool open = false;
    for (uint32_t i = 0; i < index; i++)
        open = task->code[i].kind == REPEAT || (open && task->code[i].kind != REPEAT_END);
    return open;
}

/* A repeat that leaves the file accepted: as many rounds as fit, or fewer. One around the finish has one. */
static void add_repeat(struct random *r, struct draft_task *task)
{
    uint32_t from = random_below(r, task->count + 1);
    if (!has_space(task, 2) || is_within(task, from))
        return;
    uint32_t to = random_from(r, from, stretch_end(task, from)), most = MAX_ROUNDS;
    uint32_t out = written_out(task);
    if (to > from)
        most = out > MAX_COUNT ? 1 : 1 + (MAX_COUNT - out) / (to - from);
    if (most > MAX_ROUNDS)
        most = MAX_ROUNDS;
    for (uint32_t i = from; i < to; i++)
        if (task->code[i].kind == FINISH)
            most = 1;
    put_around(task, from, to, random_chance(r, 30) ? most : random_from(r, 1, most));
}

static void add_repeats(struct random *r, struct draft *d)
{
    for (uint32_t t = 1; t <= d->tasks; t++)
        for (uint32_t times = random_below(r, 4); times > 0; times--)
            add_repeat(r, &d->task[t]);
}

/* A repeat or an end of a task, chosen by chance; NULL if a short search finds none. */
static struct draft_instruction *any_repeat(struct random *r, struct draft *d)
{
    for (uint32_t tries = 0; tries < 40; tries++) {
        struct draft_task *task = &d->task[random_from(r, 1, d->tasks)];
        if (task->count == 0)
            continue;
        struct draft_instruction *it = &task->code[random_below(r, task->count)];
        if (it->kind == REPEAT || it->kind == REPEAT_END)
            return it;
    }
    return NULL;
}

/* Argument or second byte of a repeat or an end out of range, or just within it. */
static void wrong_repeat(struct random *r, struct draft *d)
{
    static const uint16_t edges[] = {0, 1, 63, 64, 65, 256, 257, 320, 65535};
    struct draft_instruction *it = any_repeat(r, d);
    if (it == NULL)
        return;
    if (random_chance(r, 25))
        it->level = (uint8_t)random_from(r, 1, random_chance(r, 50) ? 3 : 255);
    else
        it->argument = edges[random_below(r, sizeof edges / sizeof edges[0])];
}

/* A repeat or an end more, one less, or one for the other. */
static void wrong_pairs(struct random *r, struct draft *d)
{
    struct draft_task *task = &d->task[random_from(r, 1, d->tasks)];
    struct draft_instruction *it = any_repeat(r, d);
    uint32_t way = random_below(r, 4), at = random_below(r, task->count + 1);
    bool end = random_chance(r, 50);
    if (way == 0 && it != NULL)
        *it = (struct draft_instruction){ADD, 1, 0};
    else if (way == 1 && it != NULL)
        *it = it->kind == REPEAT ? (struct draft_instruction){REPEAT_END, 0, 0} : (struct draft_instruction){REPEAT, 2, 0};
    else if (way == 2 && has_space(task, 1))
        insert(task, at, end ? REPEAT_END : REPEAT, end ? 0 : 1);
    else if (has_space(task, 2))
        put_around(task, at, random_from(r, at, task->count), random_from(r, 1, 2));
}

/* One task's repeat is ended in the next task. */
static void into_next_task(struct random *r, struct draft *d)
{
    uint32_t t = random_from(r, 1, d->tasks);
    if (t == d->tasks || !has_space(&d->task[t], 1) || !has_space(&d->task[t + 1], 1))
        return;
    insert(&d->task[t], d->task[t].count, REPEAT, random_from(r, 1, 2));
    insert(&d->task[t + 1], 0, REPEAT_END, 0);
}

/* A repeat around a create. */
static void around_create(struct random *r, struct draft *d)
{
    struct draft_task *task = &d->task[random_chance(r, 50) ? 1 : random_from(r, 1, d->tasks)];
    for (uint32_t i = 0; i < task->count && has_space(task, 2); i++)
        if (task->code[i].kind == CREATE && !is_within(task, i) && random_chance(r, 50)) {
            put_around(task, i, i + 1, random_from(r, 1, 2));
            return;
        }
}

/* A repeat of sums brings a task to about this length when written out. */
static void lengthen(struct random *r, struct draft *d)
{
    static const uint32_t edges[] = {64, 65, 66, 128, 255, 256, 257, 300, 320, 321, 576};
    struct draft_task *task = &d->task[random_from(r, 1, d->tasks)];
    uint32_t body = random_from(r, 1, 12), out = written_out(task);
    uint32_t length = edges[random_below(r, sizeof edges / sizeof edges[0])];
    if (!has_space(task, body + 3) || length < out + body)
        return;
    uint32_t rounds = (length - out) / body;
    for (uint32_t i = 0; i < body; i++)
        insert(task, 0, ADD, i);
    put_around(task, 0, body, rounds < MAX_ROUNDS ? rounds : MAX_ROUNDS);
    if (written_out(task) < length && random_chance(r, 80))
        insert(task, 0, SET, 1);
}

/* The longest there is: a task of one repeat of 62 instructions, 64 times. */
static void longest(struct random *r, struct draft *d)
{
    struct draft_task *task = &d->task[random_from(r, 1, d->tasks)];
    while (has_space(task, 3))
        insert(task, 0, ADD, 1);
    if (has_space(task, 2))
        put_around(task, 0, task->count, MAX_ROUNDS);
}

/* A task of empty repeats only. */
static void empty_task(struct random *r, struct draft *d)
{
    struct draft_task *task = &d->task[random_from(r, 1, d->tasks)];
    task->count = 0;
    for (uint32_t times = random_from(r, 1, 3); times > 0; times--)
        put_around(task, 0, 0, random_from(r, 1, MAX_ROUNDS));
}

static void damage_repeats(struct random *r, struct draft *d)
{
    static void (*const ways[])(struct random *, struct draft *) = {
        wrong_repeat, wrong_pairs, wrong_pairs, into_next_task, around_create, lengthen, lengthen, longest, empty_task};
    ways[random_below(r, sizeof ways / sizeof ways[0])](r, d);
}

/* Short tasks, so that repeats fit. */
static void short_plan(struct random *r, struct draft *d)
{
    struct plan_style style = {.words = random_from(r, 30, 80), .wide = random_chance(r, 40)};
    style.tasks = random_chance(r, 60) ? random_from(r, 1, 5) : random_from(r, 5, random_chance(r, 20) ? MAX_TASKS : 12);
    style.channels = random_below(r, 2 * style.tasks + 1);
    style.events = random_below(r, 8 * style.tasks + 2);
    make_plan(r, &style, d);
}

void make_repeats(struct repeats_file *f, uint64_t seed, uint64_t index)
{
    static struct draft d;
    struct random r = {seed ^ (index * UINT64_C(0xd1342543de82ef95))};
    random_next(&r);
    uint32_t pick = random_below(&r, 100);
    short_plan(&r, &d);
    f->class_name = pick < 5 ? "plain" : pick < 45 ? "repeats" : pick < 90 ? "damaged" : "bytes";
    if (pick >= 5)
        add_repeats(&r, &d);
    for (uint32_t times = pick >= 45 && pick < 75 ? random_from(&r, 1, 2) : 0; times > 0; times--)
        damage_repeats(&r, &d);
    if (pick >= 65 && pick < 90)
        damage_draft(&r, &d);
    f->length = draft_write(&d, f->bytes);
    if (pick >= 90)
        damage_bytes(&r, f->bytes, &f->length);
    if (pick == 99)
        f->length = random_below(&r, 5);
}
