/* Run: one instruction of a ready task. */
#include "sim_shared.h"

/* In a run the child is unborn; in a rig that anybody wrote it may be anything, and is born all the same. */
void sim_birth(struct sim_rig *rig, uint32_t t, uint8_t d, struct sim_pointer own)
{
    struct sim_task *task = &rig->task[t];
    task->state = READY;
    task->desk = d;
    task->place = rig->first[t];
    task->own = own;
    if (MUTANT != 128)
        task->word = (struct sim_word){{0, 0, 0, 0}};
    task->over = false;
    task->count = 1;
    task->children = MUTANT == 129 ? task->children : 0;
    rig->parent[t][d].pointer = (struct sim_pointer){.count = 1, .desk = d};
    if (MUTANT != 14)
        point(rig, task, d, d);
}

static void run_set(struct sim_task *task, struct sim_instruction set)
{
    if (MUTANT == 25)
        task->over = false;
    if (MUTANT == 31)
        task->word = (struct sim_word){{0, 0, 0, 0}};
    task->word.level[set.number] = set.argument;
}

/* One level wraps; a sum over 65,535 marks the task. */
static void run_add(struct sim_task *task, struct sim_instruction add)
{
    uint16_t *level = &task->word.level[MUTANT == 32 ? 0 : add.number];
    uint32_t sum = (uint32_t)*level + add.argument;
    if (sum > (MUTANT == 24 ? 65534 : 65535) && !(MUTANT == 33 && add.number != 0))
        task->over = true;
    *level = (uint16_t)sum;
}

static uint32_t run_create(struct sim_rig *rig, struct sim_task *task, uint32_t child)
{
    sim_birth(rig, child, task->desk, (struct sim_pointer){.count = task->count, .desk = task->desk});
    task->children |= sim_bit(child);
    return 0;
}

static uint32_t run_sync(struct sim_task *task)
{
    if (task->children != 0)
        task->state = WAITING;
    return 0;
}

/* A parent that is not at its child's desk: a letter goes along the newer of the desk's pointer and the child's own. */
static uint32_t tell_parent(struct sim_rig *rig, const struct sim_task *task, uint8_t t)
{
    struct sim_parent *entry = &rig->parent[task->parent][task->desk];
    struct sim_pointer along = entry->pointer;
    if (MUTANT != 36 || along.desk == 0)
        newer(&along, task->own);
    if (MUTANT == 35)
        along = task->own;
    if (along.desk == task->desk) {
        entry->held |= sim_bit(t);
        return 0;
    }
    if (!has_room(rig, MUTANT != 13))
        return 13;
    post(rig, (struct sim_letter){.kind = ENDED, .desk = along.desk, .subject = t, .value = along.count});
    return 0;
}

static uint32_t run_finish(struct sim_rig *rig, struct sim_task *task, uint8_t t)
{
    struct sim_task *parent = &rig->task[task->parent];
    if (task->children != 0 && !(MUTANT == 19 && parent->desk != task->desk && !has_room(rig, 1)))
        return 12;
    if (task->parent != 0 && parent->desk == task->desk) {
        lose_child(parent, t);
    } else if (task->parent != 0) {
        uint32_t number = tell_parent(rig, task, t);
        if (number != 0)
            return number;
    }
    task->state = DONE;
    if (MUTANT == 26)
        task->over = false;
    return 0;
}

static uint32_t post_adverts(struct sim_rig *rig, uint8_t c, uint8_t d)
{
    if (!has_room(rig, MUTANT == 12 ? 1 : rig->desks - 1))
        return 13;
    for (uint8_t e = 1; e <= rig->desks; e++)
        if (e != d || MUTANT == 1)
            post(rig, (struct sim_letter){.kind = ADVERT, .desk = e, .subject = c, .from = d});
    return 0;
}

/* A send whose receiver is not at the sender's desk. */
static uint32_t send_away(struct sim_rig *rig, uint8_t c, struct sim_offer offer)
{
    struct sim_cell *cell = &rig->channel[c].at[offer.desk];
    if (cell->pointer.desk == 0)
        return post_adverts(rig, c, offer.desk);
    if (cell->pointer.desk == offer.desk) {
        keep(&cell->held, offer);
        return 0;
    }
    if (!has_room(rig, 1))
        return 13;
    post(rig, (struct sim_letter){.kind = OFFER, .desk = cell->pointer.desk, .subject = c,
                                  .from = offer.desk, .number = offer.number,
                                  .value = cell->pointer.count});
    return 0;
}

static uint32_t run_send(struct sim_rig *rig, struct sim_task *task, struct sim_instruction send,
                         struct sim_received *received)
{
    uint8_t c = (uint8_t)send.argument;
    struct sim_channel *channel = &rig->channel[c];
    struct sim_task *receiver = &rig->task[channel->receiver];
    struct sim_offer offer = {.desk = task->desk, .number = send.number};
    if (receiver->desk == task->desk) {
        if (is_on(rig, receiver, RECEIVING, c) && !channel->has_called) {
            receive_word(receiver, c, task->word, received);
            receiver->over |= MUTANT == 27 && task->over;
            channel->called = send.number;
            return 0;
        }
        keep(&channel->carried, offer);
    } else {
        uint32_t number = send_away(rig, c, offer);
        if (number != 0)
            return number;
    }
    task->state = SENDING;
    return 0;
}

/* The receiver is receiving: a carried offer, else an advert, is answered. */
static uint32_t await_word(struct sim_rig *rig, struct sim_task *task, uint8_t c)
{
    struct sim_channel *channel = &rig->channel[c];
    struct sim_cell *cell = &channel->at[task->desk];
    bool by_offer = counts(channel, channel->carried);
    bool by_advert = !by_offer && channel->called == 0 && cell->advert != 0;
    if ((by_offer || by_advert) && !has_room(rig, 1))
        return 13;
    task->state = RECEIVING;
    if (by_offer) {
        uint8_t offering = channel->carried.desk;
        channel->carried = (struct sim_offer){0, 0};
        answer(rig, c, offering);
    } else if (by_advert) {
        uint8_t offering = cell->advert;
        cell->advert = 0;
        answer(rig, c, offering);
    }
    return 0;
}

static uint32_t run_receive(struct sim_rig *rig, struct sim_task *task, uint8_t c, struct sim_received *received)
{
    struct sim_channel *channel = &rig->channel[c];
    struct sim_task *sender = &rig->task[channel->sender];
    if (sender->desk != task->desk || !is_on(rig, sender, SENDING, c))
        return await_word(rig, task, c);
    receive_word(task, c, sender->word, received);
    channel->called = last(rig, sender)->number;
    channel->has_called = channel->has_called && MUTANT == 130;
    channel->carried = (struct sim_offer){0, 0};
    sender->state = READY;
    return 0;
}

uint32_t sim_run_task(struct sim_rig *rig, uint8_t t, struct sim_received *received)
{
    if (t == 0 || t > rig->tasks)
        return 10;
    struct sim_task *task = &rig->task[t];
    if (task->state != READY)
        return 11;
    struct sim_instruction next = rig->code[task->place];
    uint32_t number = 0;
    switch (next.kind) {
    case CREATE:
        number = run_create(rig, task, next.argument);
        break;
    case SYNC:
        number = run_sync(task);
        break;
    case FINISH:
        number = run_finish(rig, task, t);
        break;
    case SEND:
        number = run_send(rig, task, next, received);
        break;
    case RECEIVE:
        number = run_receive(rig, task, (uint8_t)next.argument, received);
        break;
    case SET:
        run_set(task, next);
        break;
    case ADD:
        run_add(task, next);
        break;
    }
    if (number == 0)
        task->place++;
    return number;
}
