/* Instructions are added in one order of events for the whole rig: a send and
 * its receive at once, a create before the child's first event, a finish when
 * all children have one. So each plan can be run to its end, unless changes are
 * made afterwards; those leave each channel that is used with both ends. */
#include "make_plan.h"

#include <string.h>

struct maker {
    struct random *r;
    struct draft *d;
    uint32_t parent[MAX_TASKS + 1];
    uint32_t children[MAX_TASKS + 1];
    uint32_t unborn[MAX_TASKS + 1]; /* children to be created yet */
    uint32_t open[MAX_TASKS + 1];   /* children without a finish */
    bool born[MAX_TASKS + 1];
    bool closed[MAX_TASKS + 1];
    uint32_t channels;
    uint8_t name[MAX_CHANNELS]; /* the channels' numbers, shuffled */
    uint32_t sender[MAX_CHANNELS];
    uint32_t receiver[MAX_CHANNELS];
};

static void shuffle_names(struct maker *m)
{
    for (uint32_t i = 0; i < MAX_CHANNELS; i++)
        m->name[i] = (uint8_t)(i + 1);
    for (uint32_t i = MAX_CHANNELS - 1; i > 0; i--) {
        uint32_t j = random_below(m->r, i + 1);
        uint8_t name = m->name[i];
        m->name[i] = m->name[j];
        m->name[j] = name;
    }
}

static void adopt(struct maker *m, uint32_t parent, uint32_t child)
{
    m->parent[child] = parent;
    m->children[parent]++;
    m->unborn[parent]++;
    m->open[parent]++;
}

static void choose_parents(struct maker *m, bool wide)
{
    for (uint32_t t = 2; t <= m->d->tasks; t++)
        adopt(m, wide && random_chance(m->r, 90) ? 1 : random_from(m->r, 1, t - 1), t);
}

static void choose_ends(struct maker *m, uint32_t channels)
{
    uint32_t tasks = m->d->tasks;
    m->channels = tasks < 2 ? 0 : channels;
    for (uint32_t i = 0; i < m->channels; i++) {
        m->sender[i] = random_from(m->r, 1, tasks);
        m->receiver[i] = random_from(m->r, 1, tasks - 1);
        if (m->receiver[i] >= m->sender[i])
            m->receiver[i]++;
    }
}

/* Whether a task can take one more beside its creates, its sync and its finish. */
static bool has_space(const struct maker *m, uint32_t t)
{
    return !m->closed[t] && m->d->task[t].count + m->unborn[t] + 2 < MAX_COUNT;
}

static void bear(struct maker *m, uint32_t t)
{
    if (m->born[t])
        return;
    bear(m, m->parent[t]);
    draft_add(m->d, m->parent[t], CREATE, t);
    m->unborn[m->parent[t]]--;
    m->born[t] = true;
}

static void transfer(struct maker *m)
{
    if (m->channels == 0)
        return;
    uint32_t i = random_below(m->r, m->channels);
    uint32_t s = m->sender[i], r = m->receiver[i];
    if (!has_space(m, s) || !has_space(m, r))
        return;
    bear(m, s);
    bear(m, r);
    draft_add(m->d, s, SEND, m->name[i]);
    draft_add(m->d, r, RECEIVE, m->name[i]);
}

/* Any number, or one of those around which a sum goes over the top. */
static uint32_t any_number(struct maker *m)
{
    static const uint32_t edges[] = {0, 1, 2, 32767, 32768, 65533, 65534, 65535};
    if (random_chance(m->r, 40))
        return edges[random_below(m->r, sizeof edges / sizeof edges[0])];
    return random_below(m->r, random_chance(m->r, 50) ? 65536 : 256);
}

/* Level 0 for half of them, as in old plans. */
static uint32_t any_level(struct maker *m)
{
    return random_chance(m->r, 50) ? 0 : random_below(m->r, LEVELS);
}

static void reckon(struct maker *m)
{
    uint32_t t = random_from(m->r, 1, m->d->tasks);
    if (has_space(m, t))
        draft_add_on(m->d, t, any_level(m), random_chance(m->r, 50) ? SET : ADD, any_number(m));
}

static void close_task(struct maker *m, uint32_t t)
{
    if (m->d->task[t].count + 1 < MAX_COUNT && random_chance(m->r, m->children[t] > 0 ? 90 : 20))
        draft_add(m->d, t, SYNC, 0);
    draft_add(m->d, t, FINISH, 0);
    m->closed[t] = true;
    m->open[m->parent[t]]--;
}

/* A task whose children are all closed ends, or waits for them and goes on. */
static void end_early(struct maker *m)
{
    uint32_t t = random_from(m->r, 1, m->d->tasks);
    if (t == 1 || m->open[t] != 0 || !has_space(m, t))
        return;
    bear(m, t);
    if (random_chance(m->r, 50))
        draft_add(m->d, t, SYNC, 0);
    else
        close_task(m, t);
}

static void close_all(struct maker *m)
{
    for (uint32_t t = 1; t <= m->d->tasks; t++)
        bear(m, t);
    for (uint32_t t = m->d->tasks; t >= 1; t--)
        if (!m->closed[t])
            close_task(m, t);
}

static void swap_two(struct maker *m, struct draft_task *task)
{
    uint32_t i = random_below(m->r, task->count - 1);
    uint32_t j = random_below(m->r, task->count - 1);
    struct draft_instruction one = task->code[i];
    task->code[i] = task->code[j];
    task->code[j] = one;
}

/* A create stays, and a channel's only send or only receive. */
static bool may_go(const struct draft_task *task, uint32_t i)
{
    struct draft_instruction it = task->code[i];
    uint32_t alike = 0;
    for (uint32_t j = 0; j < task->count; j++)
        alike += task->code[j].kind == it.kind && task->code[j].argument == it.argument;
    return it.kind != CREATE && ((it.kind != SEND && it.kind != RECEIVE) || alike > 1);
}

/* A set or an add of the task, chosen by chance; NULL if it has none there. */
static struct draft_instruction *any_sum(struct maker *m, struct draft_task *task)
{
    struct draft_instruction *it = &task->code[random_below(m->r, task->count)];
    return it->kind == SET || it->kind == ADD ? it : NULL;
}

/* A set or an add each of two tasks become the ends of a new channel. */
static void new_channel(struct maker *m, uint32_t t)
{
    uint32_t u = random_from(m->r, 1, m->d->tasks);
    struct draft_instruction *one = any_sum(m, &m->d->task[t]);
    struct draft_instruction *two = any_sum(m, &m->d->task[u]);
    if (t == u || one == NULL || two == NULL || m->channels == MAX_CHANNELS)
        return;
    uint8_t channel = m->name[m->channels++];
    *one = (struct draft_instruction){SEND, channel, 0};
    *two = (struct draft_instruction){RECEIVE, channel, 0};
}

/* Two instructions change places, or one goes, or there is a channel more. */
static void change(struct maker *m)
{
    uint32_t t = random_from(m->r, 1, m->d->tasks);
    struct draft_task *task = &m->d->task[t];
    if (task->count < 2)
        return;
    uint32_t i = random_below(m->r, task->count - 1);
    uint32_t way = random_below(m->r, 3);
    if (way == 0)
        swap_two(m, task);
    else if (way == 1 && may_go(task, i))
        draft_remove(m->d, t, i);
    else
        new_channel(m, t);
}

static void begin(struct maker *m, struct random *r, struct draft *d, uint32_t tasks)
{
    memset(m, 0, sizeof *m);
    m->r = r;
    m->d = d;
    m->born[1] = true;
    draft_clear(d, tasks);
    shuffle_names(m);
}

void make_plan(struct random *r, const struct plan_style *style, struct draft *d)
{
    struct maker m;
    begin(&m, r, d, style->tasks);
    choose_parents(&m, style->wide);
    choose_ends(&m, style->channels);
    for (uint32_t i = 0; i < style->events; i++) {
        if (random_chance(r, style->words))
            transfer(&m);
        else if (random_chance(r, 85))
            reckon(&m);
        else
            end_early(&m);
    }
    close_all(&m);
    for (uint32_t i = 0; i < style->changes; i++)
        change(&m);
}

/* Tasks that only reckon for a while: they can be moved before the mail fills. */
static void idle_tasks(struct maker *m, uint32_t last)
{
    for (uint32_t t = 2; t <= last; t++) {
        bear(m, t);
        for (uint32_t i = random_from(m->r, 2, 12); i > 0; i--)
            draft_add(m->d, t, ADD, i);
    }
}

/* Channels from each sender to any receiver. */
static void crowd_ends(struct maker *m, uint32_t first, uint32_t senders)
{
    m->channels = senders + random_below(m->r, senders);
    for (uint32_t i = 0; i < m->channels; i++) {
        m->sender[i] = first + i % senders;
        m->receiver[i] = random_from(m->r, first + senders, MAX_TASKS);
    }
}

void make_crowd(struct random *r, struct draft *d)
{
    struct maker m;
    uint32_t idle = random_from(r, 1, 6);
    uint32_t senders = random_from(r, 45, 54);
    begin(&m, r, d, MAX_TASKS);
    for (uint32_t t = 2; t <= MAX_TASKS; t++)
        adopt(&m, t > MAX_TASKS - 3 ? 2 : 1, t);
    idle_tasks(&m, 1 + idle);
    crowd_ends(&m, 2 + idle, senders);
    for (uint32_t t = 2; t < 2 + idle + senders; t++)
        bear(&m, t);
    for (uint32_t i = 0; i < 4 * m.channels; i++)
        if (random_chance(r, 80))
            transfer(&m);
        else
            reckon(&m);
    close_all(&m);
}
