/* Numbers of a rig become others within the limits, whatever a run would have; or one just outside. */
#include "live_doctor.h"

static uint8_t some_desk(struct random *r, const struct sim_rig *rig)
{
    return (uint8_t)random_from(r, 1, rig->desks);
}

static uint16_t some_count(struct random *r)
{
    return (uint16_t)(random_chance(r, 70) ? random_from(r, 1, 5) : random_from(r, MAX_MOVE_COUNT - 2, MAX_MOVE_COUNT));
}

static struct sim_pointer some_pointer(struct random *r, const struct sim_rig *rig)
{
    struct sim_pointer known = {.count = some_count(r), .desk = some_desk(r, rig)}, none = {0, 0};
    return random_chance(r, 85) ? known : none;
}

static struct sim_offer some_offer(struct random *r, const struct sim_rig *rig)
{
    struct sim_offer made = {.desk = some_desk(r, rig), .number = (uint8_t)random_from(r, 1, random_chance(r, 80) ? 4 : 64)};
    struct sim_offer none = {0, 0};
    return random_chance(r, 85) ? made : none;
}

static uint64_t some_tasks(struct random *r, const struct sim_rig *rig)
{
    uint64_t set = random_next(r) & random_next(r);
    return rig->tasks == MAX_TASKS ? set : set & (sim_bit(rig->tasks + 1) - 1);
}

/* A channel of the plan more often than another. */
static uint32_t some_channel(struct random *r, const struct sim_rig *rig)
{
    uint32_t c = random_from(r, 1, MAX_CHANNELS);
    for (uint32_t i = 0; i < MAX_CHANNELS && rig->channel[c].sender == 0; i++)
        c = c % MAX_CHANNELS + 1;
    return random_chance(r, 95) ? c : random_from(r, 1, MAX_CHANNELS);
}

static void doctor_channel(struct random *r, struct sim_rig *rig)
{
    struct sim_channel *channel = &rig->channel[some_channel(r, rig)];
    struct sim_cell *cell = &channel->at[random_from(r, 1, MAX_DESKS)];
    switch (random_below(r, 7)) {
    case 0:
        channel->travelling = some_pointer(r, rig);
        break;
    case 1:
        channel->carried = some_offer(r, rig);
        break;
    case 2:
        channel->called = (uint8_t)(random_chance(r, 80) ? random_below(r, 4) : random_from(r, 62, 64));
        break;
    case 3:
        channel->has_called = !channel->has_called;
        break;
    case 4:
        cell->pointer = some_pointer(r, rig);
        break;
    case 5:
        cell->held = some_offer(r, rig);
        break;
    default:
        cell->advert = (uint8_t)random_below(r, rig->desks + 1);
        break;
    }
}

static void doctor_letter(struct random *r, struct sim_rig *rig)
{
    uint32_t at = rig->letters > 0 && random_chance(r, 50) ? random_below(r, rig->letters) : rig->letters;
    if (at == MAX_MAIL)
        return;
    if (at == rig->letters)
        rig->letters++;
    uint8_t kind = (uint8_t)random_from(r, OFFER, MOVER);
    uint32_t subject = kind == ENDED || kind == MOVER ? random_from(r, 1, rig->tasks) : some_channel(r, rig);
    rig->mail[at] = (struct sim_letter){.kind = kind, .subject = (uint8_t)subject, .desk = some_desk(r, rig),
                                        .from = some_desk(r, rig), .value = some_count(r),
                                        .number = (uint8_t)random_from(r, 1, random_chance(r, 80) ? 4 : 64)};
    for (uint32_t i = 0; i < LEVELS; i++)
        rig->mail[at].word.level[i] = (uint16_t)random_next(r);
}

/* A place among a task's instructions, where it sends or receives if its state says so. */
static void doctor_place(struct random *r, struct sim_rig *rig, uint32_t t)
{
    struct sim_task *task = &rig->task[t];
    uint32_t count = 1, kind = task->state == SENDING ? SEND : RECEIVE;
    while (rig->code[rig->first[t] + count - 1].kind != FINISH)
        count++;
    task->place = (uint16_t)(rig->first[t] + random_below(r, count + (task->state == DONE)));
    for (uint32_t i = 0; task->state == SENDING || task->state == RECEIVING; i++) {
        if (task->place > rig->first[t] && rig->code[task->place - 1].kind == kind)
            return;
        task->place = (uint16_t)(rig->first[t] + (task->place - rig->first[t] + 1) % (int)count);
        if (i == count)
            task->state = WAITING;
    }
}

/* Another state, with what belongs to it. */
static void doctor_state(struct random *r, struct sim_rig *rig, uint32_t t)
{
    struct sim_task *task = &rig->task[t];
    task->state = (uint8_t)random_from(r, UNBORN, DONE);
    if (task->state == UNBORN) {
        uint64_t children = task->children;
        struct sim_task unborn = {.place = rig->first[t], .children = children, .parent = task->parent,
                                  .sends = task->sends, .receives = task->receives};
        *task = unborn;
        return;
    }
    task->desk = task->state == MOVING ? 0 : some_desk(r, rig);
    task->count = task->count == 0 || random_chance(r, 30) ? some_count(r) : task->count;
    if (t != 1 && task->own.desk == 0)
        task->own = (struct sim_pointer){.count = some_count(r), .desk = some_desk(r, rig)};
    doctor_place(r, rig, t);
}

static void doctor_task(struct random *r, struct sim_rig *rig)
{
    uint32_t t = random_from(r, 1, rig->tasks);
    struct sim_task *task = &rig->task[t];
    if (random_chance(r, 50)) {
        doctor_state(r, rig, t);
        return;
    }
    task->children = random_chance(r, 50) ? some_tasks(r, rig) : task->children;
    if (task->state == UNBORN)
        return;
    task->over = random_chance(r, 50);
    task->count = some_count(r);
    for (uint32_t i = 0; i < LEVELS; i++)
        task->word.level[i] = (uint16_t)random_next(r);
    if (t != 1)
        task->own = (struct sim_pointer){.count = some_count(r), .desk = some_desk(r, rig)};
}

static void doctor_desk(struct random *r, struct sim_rig *rig)
{
    uint32_t d = random_from(r, 1, MAX_DESKS), t = random_from(r, 1, rig->tasks);
    if (random_chance(r, 30))
        rig->chosen[d] = (uint8_t)random_below(r, rig->tasks + 1);
    else if (random_chance(r, 50))
        rig->parent[t][d].pointer = some_pointer(r, rig);
    else
        rig->parent[t][d].held = some_tasks(r, rig);
}

static void doctor(struct random *r, struct sim_rig *rig, uint32_t changes)
{
    for (; changes > 0; changes--)
        switch (random_below(r, 5)) {
        case 0:
        case 1:
            doctor_channel(r, rig);
            break;
        case 2:
            doctor_letter(r, rig);
            break;
        case 3:
            doctor_task(r, rig);
            break;
        default:
            doctor_desk(r, rig);
            break;
        }
}

/* Numbers just outside. */

static uint8_t bad_desk(struct random *r, const struct sim_rig *rig)
{
    return (uint8_t)(random_chance(r, 70) ? rig->desks + 1 : random_from(r, rig->desks + 1, 255));
}

static void bad_pointer(struct random *r, const struct sim_rig *rig, struct sim_pointer *pointer)
{
    uint32_t way = random_below(r, 4);
    *pointer = (struct sim_pointer){.count = some_count(r), .desk = some_desk(r, rig)};
    if (way == 0)
        pointer->count = MAX_MOVE_COUNT + 1;
    else if (way == 1)
        pointer->count = 0;
    else
        pointer->desk = way == 2 ? 0 : bad_desk(r, rig);
}

static void bad_offer(struct random *r, const struct sim_rig *rig, struct sim_offer *offer)
{
    uint32_t way = random_below(r, 4);
    *offer = (struct sim_offer){.desk = some_desk(r, rig), .number = (uint8_t)random_from(r, 1, 64)};
    if (way < 2)
        offer->number = way == 0 ? 65 : 0;
    else
        offer->desk = way == 2 ? 0 : bad_desk(r, rig);
}

/* A set with a task that the rig has not; none if it has 64. */
static void bad_set(const struct sim_rig *rig, uint64_t *set)
{
    if (rig->tasks < MAX_TASKS)
        *set |= sim_bit(rig->tasks + 1);
}

static void overstep_channel(struct random *r, struct sim_rig *rig)
{
    struct sim_channel *channel = &rig->channel[random_from(r, 1, MAX_CHANNELS)];
    struct sim_cell *cell = &channel->at[random_from(r, 1, MAX_DESKS)];
    switch (random_below(r, 6)) {
    case 0:
        bad_pointer(r, rig, &channel->travelling);
        break;
    case 1:
        bad_offer(r, rig, &channel->carried);
        break;
    case 2:
        channel->called = 65;
        break;
    case 3:
        bad_pointer(r, rig, &cell->pointer);
        break;
    case 4:
        bad_offer(r, rig, &cell->held);
        break;
    default:
        cell->advert = bad_desk(r, rig);
        break;
    }
}

static void overstep_letter(struct random *r, struct sim_rig *rig)
{
    if (rig->letters == MAX_MAIL)
        rig->letters--;
    doctor_letter(r, rig);
    struct sim_letter *letter = &rig->mail[rig->letters - 1];
    uint32_t most = letter->kind == ENDED || letter->kind == MOVER ? rig->tasks : MAX_CHANNELS;
    switch (random_below(r, 7)) {
    case 0:
        letter->subject = (uint8_t)(random_chance(r, 50) ? 0 : most + 1);
        break;
    case 5:
        letter->kind = (uint8_t)(random_chance(r, 70) ? MOVER + 1 : random_from(r, MOVER + 1, 255));
        break;
    case 6: /* no letter where there should be one */
        *letter = (struct sim_letter){.kind = 0};
        break;
    case 1:
        letter->desk = random_chance(r, 50) ? 0 : bad_desk(r, rig);
        break;
    case 2:
        letter->from = random_chance(r, 50) ? 0 : bad_desk(r, rig);
        break;
    case 3:
        letter->number = random_chance(r, 50) ? 0 : 65;
        break;
    default:
        letter->value = random_chance(r, 50) ? 0 : MAX_MOVE_COUNT + 1;
        break;
    }
}

/* One number of an unborn task that is not as it is said of it. */
static void overstep_unborn(struct random *r, struct sim_task *task)
{
    switch (random_below(r, 7)) {
    case 0:
        task->desk = 1;
        break;
    case 1:
        task->place++;
        break;
    case 2:
        task->word.level[random_below(r, LEVELS)] = 1;
        break;
    case 3:
        task->over = true;
        break;
    case 4:
        task->count = 1;
        break;
    case 5:
        task->own.desk = 1;
        break;
    default:
        task->own.count = 1;
        break;
    }
}

/* One of a task that is born. */
static void overstep_born(struct random *r, struct sim_rig *rig, uint32_t t)
{
    struct sim_task *task = &rig->task[t];
    uint32_t count = 1;
    while (rig->code[rig->first[t] + count - 1].kind != FINISH)
        count++;
    switch (random_below(r, 5)) {
    case 0:
        task->desk = task->state == MOVING ? 1 : random_chance(r, 50) ? 0 : bad_desk(r, rig);
        break;
    case 1:
        task->place = (uint16_t)(rig->first[t] + count + (task->state == DONE));
        break;
    case 2:
        task->place = (uint16_t)(rig->first[t] - 1);
        break;
    case 3:
        task->count = random_chance(r, 50) ? 0 : MAX_MOVE_COUNT + 1;
        break;
    default:
        if (t == 1)
            task->own = some_pointer(r, rig);
        else
            bad_pointer(r, rig, &task->own);
        break;
    }
}

static void overstep_task(struct random *r, struct sim_rig *rig)
{
    uint32_t t = random_from(r, 1, rig->tasks);
    if (random_chance(r, 40))
        doctor_state(r, rig, t);
    if (random_chance(r, 15))
        bad_set(rig, &rig->task[t].children);
    else if (rig->task[t].state == UNBORN)
        overstep_unborn(r, &rig->task[t]);
    else
        overstep_born(r, rig, t);
}

static void overstep_desk(struct random *r, struct sim_rig *rig)
{
    uint32_t d = random_from(r, 1, MAX_DESKS), t = random_from(r, 1, MAX_TASKS);
    if (random_chance(r, 30))
        rig->chosen[d] = (uint8_t)(rig->tasks + 1);
    else if (random_chance(r, 50))
        bad_pointer(r, rig, &rig->parent[t][d].pointer);
    else
        bad_set(rig, &rig->parent[t][d].held);
}

void doctor_image(struct random *r, uint8_t *image)
{
    static struct sim_rig rig;
    if (!sim_image_read(image, &rig))
        return;
    doctor(r, &rig, random_from(r, 1, 12));
    sim_image_write(&rig, image);
}

void overstep_image(struct random *r, uint8_t *image)
{
    static void (*const oversteps[])(struct random *, struct sim_rig *) = {overstep_channel, overstep_letter, overstep_task,
                                                                          overstep_task, overstep_desk};
    static struct sim_rig rig;
    if (!sim_image_read(image, &rig))
        return;
    doctor(r, &rig, random_below(r, 3));
    oversteps[random_below(r, 5)](r, &rig);
    sim_image_write(&rig, image);
}
