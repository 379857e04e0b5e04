/* What the rules share: posting, pointers and offers, who is at which end. */
#ifndef SIM_SHARED_H
#define SIM_SHARED_H

#include "sim_rig.h"

/* The steps, each by its kind: the answer. */
uint32_t sim_run_task(struct sim_rig *rig, uint8_t t, struct sim_received *received);
uint32_t sim_deliver(struct sim_rig *rig, uint32_t position, struct sim_received *received);
uint32_t sim_move(struct sim_rig *rig, uint8_t t, uint32_t e);

static inline bool has_room(const struct sim_rig *rig, uint32_t letters)
{
    return rig->letters + letters <= MAX_MAIL - (MUTANT == 4);
}

static inline void post(struct sim_rig *rig, struct sim_letter letter)
{
    rig->mail[rig->letters++] = letter;
}

static inline void newer(struct sim_pointer *own, struct sim_pointer other)
{
    if (other.count > own->count || MUTANT == 6)
        *own = other;
}

static inline bool counts(const struct sim_channel *channel, struct sim_offer offer)
{
    return offer.number > channel->called;
}

/* Of two offers the larger number is kept, of equals the earlier. */
static inline void keep(struct sim_offer *kept, struct sim_offer offer)
{
    if (offer.number > kept->number || MUTANT == 15)
        *kept = offer;
}

/* Pointers at desk d, for each channel the task receives on, become (desk, its count). */
static inline void point(struct sim_rig *rig, const struct sim_task *task, uint8_t d, uint8_t desk)
{
    for (uint32_t c = task->receives; c != 0; c = rig->channel[c].next_received) {
        struct sim_pointer *pointer = &rig->channel[c].at[d].pointer;
        pointer->count = task->count;
        pointer->desk = desk;
    }
}

/* The instruction that a task executed last. */
static inline const struct sim_instruction *last(const struct sim_rig *rig, const struct sim_task *task)
{
    return &rig->code[task->place - 1];
}

/* Whether a task is sending, or receiving, on c. */
static inline bool is_on(const struct sim_rig *rig, const struct sim_task *task, uint8_t state, uint32_t c)
{
    return task->state == state && last(rig, task)->argument == c;
}

/* The receiver answers: a call letter goes to the offering desk. */
static inline void answer(struct sim_rig *rig, uint8_t c, uint8_t offering)
{
    struct sim_channel *channel = &rig->channel[c];
    const struct sim_task *receiver = &rig->task[channel->receiver];
    channel->called++;
    channel->has_called = true;
    post(rig, (struct sim_letter){.kind = CALL, .desk = offering, .subject = c,
                                  .from = receiver->desk, .value = receiver->count});
}

static inline void receive_word(struct sim_task *receiver, uint8_t c, struct sim_word word, struct sim_received *received)
{
    receiver->word = word;
    receiver->state = READY;
    received->channel = c;
    received->word = word;
}

/* A child leaves its parent's set; a parent that waits for the last is ready. */
static inline void lose_child(struct sim_task *parent, uint32_t child)
{
    parent->children &= ~sim_bit(child);
    if (parent->children == 0 && parent->state == WAITING)
        parent->state = READY;
}

#endif
