#include "rounds.h"

#include <string.h>

#include "sim_convert.h"

/* A task of the new edition: where it is, where its repeat begins, how many rounds are left. */
struct rounds_task {
    const uint8_t *at, *back;
    uint32_t rounds, parent;
    uint64_t children;
};

struct rounds {
    struct one_desk *o;
    const uint8_t *file;
    struct rounds_task task[MAX_TASKS + 1];
};

static void put_word(struct one_desk *o, uint32_t channel, const struct sim_word *word)
{
    if (o->words[channel] < MAX_COUNT)
        o->word[channel][o->words[channel]] = *word;
    o->words[channel]++;
}

/* A repeat and its end are no turns of their own. */
static void pass_repeats(struct rounds_task *task)
{
    for (;;) {
        if (task->at[0] == REPEAT) {
            task->rounds = sim_u16(task->at + 2);
            task->back = task->at + 4;
            task->at += 4;
        } else if (task->at[0] == REPEAT_END) {
            task->rounds--;
            task->at = task->rounds > 0 ? task->back : task->at + 4;
        } else {
            return;
        }
    }
}

static void bear(struct rounds *s, uint32_t t, uint32_t parent)
{
    s->o->task[t].born = true;
    s->task[t].at = s->file + sim_u16(s->file + 4 * t);
    s->task[t].parent = parent;
    s->task[parent].children |= t == 1 ? 0 : sim_bit(t);
    pass_repeats(&s->task[t]);
}

/* The task that receives on a channel next; 0 if there is none. */
static uint32_t receiver_on(const struct rounds *s, uint32_t channel)
{
    for (uint32_t t = 1; t <= sim_u16(s->file); t++)
        if (s->o->task[t].born && !s->o->task[t].done && s->task[t].at[0] == RECEIVE
            && sim_u16(s->task[t].at + 2) == channel)
            return t;
    return 0;
}

static void go_on(struct rounds_task *task)
{
    task->at += 4;
    pass_repeats(task);
}

/* A word passes where both ends are at it. */
static bool send_word(struct rounds *s, uint32_t t, uint32_t channel)
{
    uint32_t receiver = receiver_on(s, channel);
    if (receiver == 0)
        return false;
    s->o->task[receiver].word = s->o->task[t].word;
    put_word(s->o, channel, &s->o->task[t].word);
    go_on(&s->task[receiver]);
    return true;
}

static void add_level(struct rounds *s, uint32_t t, uint32_t level, uint32_t number)
{
    uint32_t sum = s->o->task[t].word.level[level] + number;
    s->o->task[t].word.level[level] = (uint16_t)sum;
    s->o->task[t].over |= sum > 65535;
}

/* The instruction where a task is; false if it cannot go on. */
static bool execute(struct rounds *s, uint32_t t)
{
    struct rounds_task *task = &s->task[t];
    uint32_t argument = sim_u16(task->at + 2);
    switch (task->at[0]) {
    case CREATE:
        bear(s, argument, t);
        return true;
    case SYNC:
        return task->children == 0;
    case SEND:
        return send_word(s, t, argument);
    case RECEIVE:
        return false; /* its sender's turn */
    case SET:
        s->o->task[t].word.level[task->at[1]] = (uint16_t)argument;
        return true;
    default:
        add_level(s, t, task->at[1], argument);
        return true;
    }
}

static bool take_turn(struct rounds *s, uint32_t t)
{
    if (!s->o->task[t].born || s->o->task[t].done)
        return false;
    if (s->task[t].at[0] == FINISH) {
        s->o->task[t].done = s->task[t].children == 0;
        if (s->o->task[t].done && t != 1)
            s->task[s->task[t].parent].children &= ~sim_bit(t);
        return s->o->task[t].done;
    }
    if (!execute(s, t))
        return false;
    go_on(&s->task[t]);
    return true;
}

void rounds_run(struct one_desk *o, const uint8_t *file, struct random *r)
{
    struct rounds s = {.o = o, .file = file};
    uint32_t tasks = sim_u16(file), refused = 0, t = 1;
    memset(o, 0, sizeof *o);
    bear(&s, 1, 0);
    while (refused < tasks) {
        bool gone = take_turn(&s, t);
        refused = gone ? 0 : refused + 1;
        if (!gone || random_chance(r, 30))
            t = t % tasks + 1;
    }
}

void plan_run(struct one_desk *o, const uint8_t *plan, size_t length)
{
    static struct sim_rig rig;
    struct sim_received received;
    uint32_t refused = 0;
    memset(o, 0, sizeof *o);
    if (sim_start(&rig, 1, plan, length) != 0)
        return;
    for (uint32_t t = 1; refused < rig.tasks; t = t % rig.tasks + 1) {
        uint8_t step[4] = {1, (uint8_t)t, 0, 0};
        refused = sim_step(&rig, step, &received) == 0 ? 0 : refused + 1;
        if (received.channel != 0)
            put_word(o, received.channel, &received.word);
    }
    for (uint32_t t = 1; t <= rig.tasks; t++) {
        o->task[t].born = rig.task[t].state != UNBORN;
        o->task[t].done = rig.task[t].state == DONE;
        o->task[t].over = rig.task[t].over;
        o->task[t].word = rig.task[t].word;
    }
}

static bool same_word(const struct sim_word *a, const struct sim_word *b)
{
    return memcmp(a->level, b->level, sizeof a->level) == 0;
}

bool one_desk_same(const struct one_desk *a, const struct one_desk *b)
{
    for (uint32_t c = 1; c <= MAX_CHANNELS; c++) {
        if (a->words[c] != b->words[c] || a->words[c] > MAX_COUNT)
            return false;
        for (uint32_t i = 0; i < a->words[c]; i++)
            if (!same_word(&a->word[c][i], &b->word[c][i]))
                return false;
    }
    for (uint32_t t = 1; t <= MAX_TASKS; t++)
        if (a->task[t].born != b->task[t].born || a->task[t].done != b->task[t].done
            || a->task[t].over != b->task[t].over || !same_word(&a->task[t].word, &b->task[t].word))
            return false;
    return true;
}
