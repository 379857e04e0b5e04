#include "sim_image.h"

#include <string.h>

static const uint8_t version[4] = {'R', 'I', 'G', '1'};

static void put(uint8_t *p, uint32_t bytes, uint64_t n)
{
    for (uint32_t i = 0; i < bytes; i++)
        p[i] = (uint8_t)(n >> 8 * i);
}

static uint64_t get(const uint8_t *p, uint32_t bytes)
{
    uint64_t n = 0;
    for (uint32_t i = 0; i < bytes; i++)
        n |= (uint64_t)p[i] << 8 * i;
    return n;
}

/* Where desk d's entry for a channel or a task is, of so many of them. */
static uint32_t entry(uint32_t d, uint32_t number, uint32_t many)
{
    return MUTANT == 115 ? (number - 1) * MAX_DESKS + d - 1 : many * (d - 1) + number - 1;
}

/* The second byte of an instruction: a level for set and add. */
static uint8_t second_byte(struct sim_instruction i)
{
    return i.kind == SET || i.kind == ADD ? i.number : 0;
}

/* A task's instructions end with its finish. Returns how many bytes the plan file has. */
static uint32_t write_plan(const struct sim_rig *rig, uint8_t *plan)
{
    uint32_t at = 4 + 4 * rig->tasks;
    for (uint32_t t = 1; t <= rig->tasks; t++) {
        const struct sim_instruction *code = &rig->code[rig->first[t]];
        uint32_t count = 0;
        put(plan + 4 * t, 2, at);
        do {
            plan[at] = code[count].kind;
            plan[at + 1] = second_byte(code[count]);
            put(plan + at + 2, 2, code[count].argument);
            at += 4;
        } while (code[count++].kind != FINISH);
        put(plan + 4 * t + 2, 2, count);
    }
    put(plan, 2, rig->tasks);
    put(plan + 2, 2, (at - 4 - 4 * rig->tasks) / 4);
    return at;
}

static void write_task(const struct sim_rig *rig, uint32_t t, uint8_t *image)
{
    const struct sim_task *task = &rig->task[t];
    uint8_t *p = image + IMAGE_TASK_WORDS + 16 * (t - 1);
    p[0] = (uint8_t)(task->state + (task->over ? 128 : 0));
    p[1] = task->desk;
    p[2] = (uint8_t)(task->place - rig->first[t] + 1);
    p[3] = task->own.desk;
    put(p + 4, 2, task->own.count);
    put(p + 6, 2, task->count);
    put(p + 8, 8, task->children);
    for (uint32_t i = 0; i < LEVELS; i++)
        put(image + IMAGE_WORDS + 8 * (t - 1) + 2 * i, 2, task->word.level[i]);
}

static void read_task(struct sim_rig *rig, uint32_t t, const uint8_t *image)
{
    struct sim_task *task = &rig->task[t];
    const uint8_t *p = image + IMAGE_TASK_WORDS + 16 * (t - 1);
    task->state = p[0] % 128 < DONE ? p[0] % 128 : DONE;
    task->over = p[0] >= 128;
    task->desk = p[1];
    task->place = (uint16_t)(rig->first[t] + p[2] - 1);
    task->own.desk = p[3];
    task->own.count = (uint16_t)get(p + 4, 2);
    task->count = (uint16_t)get(p + 6, 2);
    task->children = get(p + 8, 8);
    for (uint32_t i = 0; i < LEVELS; i++)
        task->word.level[i] = (uint16_t)get(image + IMAGE_WORDS + 8 * (t - 1) + 2 * i, 2);
}

static void write_channel(const struct sim_rig *rig, uint32_t c, uint8_t *image)
{
    const struct sim_channel *channel = &rig->channel[c];
    uint8_t *p = image + IMAGE_CHANNEL_WORDS + 8 * (c - 1);
    put(p, 2, channel->travelling.count);
    p[2] = channel->travelling.desk;
    p[3] = channel->carried.desk;
    p[4] = channel->carried.number;
    p[5] = channel->called;
    p[6] = channel->has_called && MUTANT != 116;
    for (uint32_t d = 1; d <= MAX_DESKS; d++) {
        const struct sim_cell *cell = &channel->at[d];
        uint32_t i = entry(d, c, MAX_CHANNELS);
        image[IMAGE_POINTER_DESKS + i] = cell->pointer.desk;
        put(image + IMAGE_POINTER_COUNTS + 2 * i, 2, cell->pointer.count);
        image[IMAGE_HELD_DESKS + i] = cell->held.desk;
        image[IMAGE_HELD_NUMBERS + i] = cell->held.number;
        image[IMAGE_ADVERTS + i] = cell->advert;
    }
}

static void read_channel(struct sim_rig *rig, uint32_t c, const uint8_t *image)
{
    struct sim_channel *channel = &rig->channel[c];
    const uint8_t *p = image + IMAGE_CHANNEL_WORDS + 8 * (c - 1);
    channel->travelling = (struct sim_pointer){.count = (uint16_t)get(p, 2), .desk = p[2]};
    channel->carried = (struct sim_offer){.desk = p[3], .number = p[4]};
    channel->called = p[5];
    channel->has_called = p[6] % 2 == 1;
    for (uint32_t d = 1; d <= MAX_DESKS; d++) {
        struct sim_cell *cell = &channel->at[d];
        uint32_t i = entry(d, c, MAX_CHANNELS);
        cell->pointer.desk = image[IMAGE_POINTER_DESKS + i];
        cell->pointer.count = (uint16_t)get(image + IMAGE_POINTER_COUNTS + 2 * i, 2);
        cell->held.desk = image[IMAGE_HELD_DESKS + i];
        cell->held.number = image[IMAGE_HELD_NUMBERS + i];
        cell->advert = image[IMAGE_ADVERTS + i];
    }
}

static void write_parent(const struct sim_parent *parent, uint8_t *p)
{
    put(p, 2, parent->pointer.count);
    p[2] = parent->pointer.desk;
    put(p + 8, 8, parent->held);
}

static void read_parent(struct sim_parent *parent, const uint8_t *p)
{
    parent->pointer = (struct sim_pointer){.count = (uint16_t)get(p, 2), .desk = p[2]};
    parent->held = get(p + 8, 8);
}

/* What a kind does not have is 0. */
static void write_letter(const struct sim_letter *letter, uint8_t *p)
{
    p[0] = letter->kind;
    p[1] = letter->subject;
    p[2] = letter->desk;
    if (letter->kind == OFFER || letter->kind == ADVERT || letter->kind == CALL)
        p[3] = letter->from;
    if (letter->kind == OFFER)
        p[4] = letter->number;
    if (letter->kind == OFFER || letter->kind == CALL || letter->kind == ENDED)
        put(p + 6, 2, letter->value);
    for (uint32_t i = 0; letter->kind == WORD && i < LEVELS; i++)
        put(p + 8 + 2 * i, 2, letter->word.level[i]);
}

static void read_letter(struct sim_letter *letter, const uint8_t *p)
{
    letter->kind = p[0];
    letter->subject = p[1];
    letter->desk = p[2];
    letter->from = p[3];
    letter->number = p[4];
    letter->value = (uint16_t)get(p + 6, 2);
    for (uint32_t i = 0; i < LEVELS; i++)
        letter->word.level[i] = (uint16_t)get(p + 8 + 2 * i, 2);
}

void sim_image_write(const struct sim_rig *rig, uint8_t image[IMAGE_BYTES])
{
    memset(image, 0, IMAGE_BYTES);
    memcpy(image + IMAGE_VERSION, version, sizeof version);
    put(image + IMAGE_PLAN_LENGTH, 4, write_plan(rig, image + IMAGE_PLAN));
    put(image + IMAGE_LETTERS, 4, rig->letters);
    image[IMAGE_DESKS] = (uint8_t)rig->desks;
    for (uint32_t t = 1; t <= MAX_TASKS; t++)
        write_task(rig, t, image);
    for (uint32_t c = 1; c <= MAX_CHANNELS; c++)
        write_channel(rig, c, image);
    for (uint32_t d = 1; d <= MAX_DESKS; d++) {
        image[IMAGE_CHOSEN + d - 1] = rig->chosen[d];
        put(image + IMAGE_READY + 8 * (d - 1), 8, sim_ready(rig, d));
        for (uint32_t t = 1; t <= MAX_TASKS; t++)
            write_parent(&rig->parent[t][d], image + IMAGE_PARENTS + 16 * entry(d, t, MAX_TASKS));
    }
    for (uint32_t i = 0; i < rig->letters; i++)
        write_letter(&rig->mail[i], image + IMAGE_MAIL + 16 * i);
}

/* Of an unknown kind there is no letter. */
static bool kinds_are_known(const struct sim_rig *rig)
{
    for (uint32_t i = 0; i < rig->letters; i++)
        if (rig->mail[i].kind < OFFER || rig->mail[i].kind > MOVER + (MUTANT == 103))
            return false;
    return true;
}

/* Places that a wrong test passes over. */
static bool is_passed_over(uint32_t at)
{
    return (MUTANT == 100 && at < IMAGE_PLAN_LENGTH) || (MUTANT == 101 && at >= IMAGE_PLAN && at < IMAGE_CHANNEL_WORDS)
        || (MUTANT == 102 && at >= IMAGE_MAIL) || (MUTANT == 104 && at >= IMAGE_READY && at < IMAGE_POINTER_DESKS)
        || (MUTANT == 105 && at == IMAGE_ZERO);
}

static bool is_same(const uint8_t *image, const uint8_t *again)
{
    for (uint32_t i = 0; i < IMAGE_BYTES; i++)
        if (image[i] != again[i] && !is_passed_over(i))
            return false;
    return true;
}

static void read_parts(struct sim_rig *rig, const uint8_t *image)
{
    for (uint32_t t = 1; t <= MAX_TASKS; t++)
        read_task(rig, t, image);
    for (uint32_t c = 1; c <= MAX_CHANNELS; c++)
        read_channel(rig, c, image);
    for (uint32_t d = 1; d <= MAX_DESKS; d++) {
        rig->chosen[d] = image[IMAGE_CHOSEN + d - 1];
        for (uint32_t t = 1; t <= MAX_TASKS; t++)
            read_parent(&rig->parent[t][d], image + IMAGE_PARENTS + 16 * entry(d, t, MAX_TASKS));
    }
    for (uint32_t i = 0; i < rig->letters; i++)
        read_letter(&rig->mail[i], image + IMAGE_MAIL + 16 * i);
}

/* Bytes are an image if they are the image of the rig that was read from them. */
bool sim_image_read(const uint8_t image[IMAGE_BYTES], struct sim_rig *rig)
{
    uint8_t again[IMAGE_BYTES];
    uint64_t plan_length = get(image + IMAGE_PLAN_LENGTH, 4), letters = get(image + IMAGE_LETTERS, 4);
    memset(rig, 0, sizeof *rig);
    if (plan_length > MAX_PLAN || letters > MAX_MAIL
        || sim_start(rig, image[IMAGE_DESKS], image + IMAGE_PLAN, (size_t)plan_length) != 0)
        return false;
    rig->letters = (uint32_t)letters;
    read_parts(rig, image);
    if (!kinds_are_known(rig))
        return false;
    sim_image_write(rig, again);
    return is_same(image, again);
}
