/* The rig of the simulator: tasks, channels at desks, and the mail. */
#ifndef SIM_RIG_H
#define SIM_RIG_H

#include <stdbool.h>

#include "sim_plan.h"

enum { MAX_MAIL = 256, MAX_MOVE_COUNT = 9999 };

enum { UNBORN, READY, WAITING, SENDING, RECEIVING, MOVING, DONE };

enum { OFFER = 1, ADVERT, CALL, WORD, ENDED, MOVER };

struct sim_instruction {
    uint8_t kind;
    uint8_t number; /* of a send: its number on the channel, from 1; of a set or an add: the level */
    uint16_t argument;
};

struct sim_word {
    uint16_t level[LEVELS];
};

struct sim_pointer {
    uint16_t count;
    uint8_t desk; /* 0: unknown */
};

struct sim_task {
    uint64_t children; /* living: bit t - 1 for task t */
    struct sim_word word;
    uint16_t place; /* index of the next instruction in the rig's code */
    uint16_t count; /* of moves, 1 at birth */
    uint8_t state;
    uint8_t desk; /* 0: unborn or moving */
    bool over;    /* it met a sum over the top */
    uint8_t parent;
    struct sim_pointer own; /* to its parent, as it was at the create */
    uint8_t sends;    /* first of the channels it sends on, 0 is none */
    uint8_t receives; /* first of the channels it receives on */
};

/* What a desk keeps for a parent. */
struct sim_parent {
    struct sim_pointer pointer;
    uint64_t held; /* children that have ended: bit t - 1 for task t */
};

struct sim_offer {
    uint8_t desk;
    uint8_t number; /* 0: none */
};

/* What a desk keeps for a channel. */
struct sim_cell {
    struct sim_pointer pointer;
    struct sim_offer held;
    uint8_t advert; /* the sender's desk, 0: none noted */
};

struct sim_channel {
    struct sim_cell at[MAX_DESKS + 1]; /* by desk */
    struct sim_pointer travelling;
    struct sim_offer carried;
    uint8_t called;
    bool has_called;
    uint8_t sender;
    uint8_t receiver;
    uint8_t next_sent;     /* the sender's next channel */
    uint8_t next_received; /* the receiver's next channel */
};

struct sim_letter {
    struct sim_word word; /* word: the word */
    uint16_t value;       /* offer, call and ended: a pointer's count */
    uint8_t kind;
    uint8_t desk;    /* where it goes */
    uint8_t subject; /* a channel; ended: the child; mover: the task */
    uint8_t from;    /* offer, advert: the sender's desk; call: the receiver's */
    uint8_t number;  /* offer: its number */
};

/* task[0] is nobody: at desk 0, in no state that a rule asks for. */
struct sim_rig {
    uint32_t desks;
    uint32_t tasks;
    uint32_t letters;
    uint8_t chosen[MAX_DESKS + 1]; /* by desk: the task that its dispatcher chose last, 0 at first */
    struct sim_task task[MAX_TASKS + 1];
    uint16_t first[MAX_TASKS + 1]; /* each task's first instruction in the code */
    struct sim_letter mail[MAX_MAIL + (MUTANT == 12 || MUTANT == 13 ? 64 : 0)];
    struct sim_parent parent[MAX_TASKS + 1][MAX_DESKS + 1]; /* by task and desk */
    struct sim_channel channel[MAX_CHANNELS + 1]; /* only the plan's are set */
    struct sim_instruction code[MAX_CODE];
};

/* What a step received: channel 0 is nothing. */
struct sim_received {
    uint8_t channel;
    struct sim_word word;
};

/* The rig at the start of a plan, or the refusal's number and no rig. */
uint32_t sim_start(struct sim_rig *rig, uint32_t desks, const uint8_t *plan, size_t length);

/* The birth of task t at desk d: start and create. */
void sim_birth(struct sim_rig *rig, uint32_t t, uint8_t d, struct sim_pointer own);

/* One step of 4 bytes: its answer, and what was received. */
uint32_t sim_step(struct sim_rig *rig, const uint8_t *step, struct sim_received *received);

bool sim_at_rest(const struct sim_rig *rig);

/* A step that a dispatcher made. */
struct sim_made {
    uint8_t step[4];
    uint32_t answer;
    struct sim_received received;
};

/* A call of desk d's dispatcher: its answer, and the steps that it made, none, one or two. */
uint32_t sim_call(struct sim_rig *rig, uint32_t d, struct sim_made made[2], uint32_t *count);

/* The ready tasks of desk d. */
uint64_t sim_ready(const struct sim_rig *rig, uint32_t d);

static inline uint64_t sim_bit(uint32_t task)
{
    return (uint64_t)1 << (task - 1);
}

#endif
