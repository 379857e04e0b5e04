/* Deliver: one letter, by its position. */
#include "sim_shared.h"

#include <string.h>

/* Taking one closes the gap. */
static struct sim_letter take(struct sim_rig *rig, uint32_t index)
{
    struct sim_letter letter = rig->mail[index];
    rig->letters--;
#if MUTANT == 2
    rig->mail[index] = rig->mail[rig->letters];
#else
    memmove(&rig->mail[index], &rig->mail[index + 1],
            (rig->letters - index) * sizeof rig->mail[0]);
#endif
    return letter;
}

/* An offer or an ended letter that does not find its task here. */
static bool forwarded(struct sim_rig *rig, struct sim_letter letter, struct sim_pointer pointer)
{
    if (pointer.desk == letter.desk || pointer.count <= letter.value || (MUTANT == 42 && letter.kind == ENDED))
        return false;
    letter.desk = pointer.desk;
    letter.value = MUTANT == (letter.kind == OFFER ? 8 : 37) ? letter.value : pointer.count;
    post(rig, letter);
    return true;
}

static void open_offer(struct sim_rig *rig, struct sim_letter letter)
{
    struct sim_channel *channel = &rig->channel[letter.subject];
    const struct sim_task *receiver = &rig->task[channel->receiver];
    struct sim_cell *cell = &channel->at[letter.desk];
    struct sim_offer offer = {.desk = letter.from, .number = letter.number};
    if (receiver->desk != letter.desk) {
        if (!forwarded(rig, letter, cell->pointer))
            keep(&cell->held, offer);
    } else if (!counts(channel, offer) && MUTANT != 9) {
        return;
    } else if (is_on(rig, receiver, RECEIVING, letter.subject) && (!channel->has_called || MUTANT == 10)) {
        answer(rig, letter.subject, letter.from);
    } else {
        keep(&channel->carried, offer);
    }
}

static void open_advert(struct sim_rig *rig, struct sim_letter letter)
{
    struct sim_channel *channel = &rig->channel[letter.subject];
    const struct sim_task *receiver = &rig->task[channel->receiver];
    struct sim_cell *cell = &channel->at[letter.desk];
    if (receiver->desk == letter.desk && is_on(rig, receiver, RECEIVING, letter.subject) && channel->called == 0)
        answer(rig, letter.subject, letter.from);
    else if (cell->advert == 0)
        cell->advert = letter.from;
}

static void open_call(struct sim_rig *rig, struct sim_letter letter)
{
    struct sim_channel *channel = &rig->channel[letter.subject];
    struct sim_task *sender = &rig->task[channel->sender];
    if (sender->desk != letter.desk || !is_on(rig, sender, SENDING, letter.subject))
        return;
    sender->state = READY;
    newer(&channel->at[letter.desk].pointer, (struct sim_pointer){.count = letter.value, .desk = letter.from});
    post(rig, (struct sim_letter){.kind = WORD, .desk = letter.from, .subject = letter.subject, .word = sender->word});
}

static void open_word(struct sim_rig *rig, struct sim_letter letter, struct sim_received *received)
{
    struct sim_channel *channel = &rig->channel[letter.subject];
    struct sim_task *receiver = &rig->task[channel->receiver];
    if (receiver->desk != letter.desk || !is_on(rig, receiver, RECEIVING, letter.subject) || !channel->has_called)
        return;
    receive_word(receiver, letter.subject, letter.word, received);
    channel->has_called = false;
#if MUTANT == 3
    post(rig, letter);
#endif
}

static void open_ended(struct sim_rig *rig, struct sim_letter letter)
{
    uint8_t p = rig->task[letter.subject].parent;
    struct sim_task *parent = &rig->task[p];
    struct sim_parent *entry = &rig->parent[p][letter.desk];
    if ((parent->children & sim_bit(letter.subject)) == 0)
        return;
    if (parent->desk == letter.desk)
        lose_child(parent, letter.subject);
    else if (!forwarded(rig, letter, entry->pointer) && MUTANT != 43)
        entry->held |= sim_bit(letter.subject);
}

/* Children that are held for an arriving parent leave its set. */
static void take_children(struct sim_task *task, struct sim_parent *entry)
{
    uint64_t held = MUTANT == 39 ? entry->held & (0 - entry->held) : entry->held;
    if (MUTANT != 38)
        task->children &= ~held;
    entry->held = 0;
}

/* A held offer that counts is taken over, another is dropped. */
static void take_over(struct sim_channel *channel, struct sim_cell *cell)
{
    if (counts(channel, cell->held) && MUTANT != 7)
        keep(&channel->carried, cell->held);
    cell->held = (struct sim_offer){0, 0};
}

static void open_mover(struct sim_rig *rig, struct sim_letter letter)
{
    struct sim_task *task = &rig->task[letter.subject];
    uint8_t d = letter.desk;
    if (task->state != MOVING)
        return;
    task->state = READY;
    task->desk = d;
    rig->parent[letter.subject][d].pointer = (struct sim_pointer){.count = task->count, .desk = d};
    take_children(task, &rig->parent[letter.subject][d]);
    point(rig, task, d, d);
    for (uint32_t c = task->receives; c != 0; c = rig->channel[c].next_received)
        take_over(&rig->channel[c], &rig->channel[c].at[d]);
    for (uint32_t c = task->sends; c != 0; c = rig->channel[c].next_sent) {
        struct sim_channel *channel = &rig->channel[c];
        newer(&channel->at[d].pointer, channel->travelling);
        channel->travelling = (struct sim_pointer){0, 0};
    }
}

uint32_t sim_deliver(struct sim_rig *rig, uint32_t position, struct sim_received *received)
{
    if (position == 0 || position > rig->letters)
        return 14;
    struct sim_letter letter = take(rig, position - 1);
    switch (letter.kind) {
    case OFFER:
        open_offer(rig, letter);
        break;
    case ADVERT:
        open_advert(rig, letter);
        break;
    case CALL:
        open_call(rig, letter);
        break;
    case WORD:
        open_word(rig, letter, received);
        break;
    case ENDED:
        open_ended(rig, letter);
        break;
    case MOVER:
        open_mover(rig, letter);
        break;
    }
    return 0;
}
