/* The rig at the start of an accepted plan. */
#include "sim_rig.h"

#include <string.h>

/* Sends are numbered in the order of the file: a channel has one sender. */
static void read_code(struct sim_rig *rig, const uint8_t *p, uint32_t total)
{
    uint8_t sent[MAX_CHANNELS + 1] = {0};
    for (uint32_t i = 0; i < total; i++, p += 4) {
        struct sim_instruction *to = &rig->code[i];
        to->kind = p[0];
        to->number = p[1];
        to->argument = (uint16_t)sim_u16(p + 2);
        if (to->kind == SEND)
            to->number = ++sent[to->argument];
    }
}

static void lay_out_tasks(struct sim_rig *rig, const uint8_t *plan, const struct sim_users *users)
{
    uint32_t place = 0;
    memset(rig->task, 0, (rig->tasks + 1) * sizeof rig->task[0]);
    memset(rig->parent, 0, (rig->tasks + 1) * sizeof rig->parent[0]);
    for (uint32_t t = 1; t <= rig->tasks; t++) {
        rig->first[t] = (uint16_t)place;
        rig->task[t].place = rig->first[t];
        rig->task[t].parent = users->creator[t];
        place += sim_u16(plan + 4 * t + 2);
    }
}

static void link_channels(struct sim_rig *rig, const struct sim_users *users)
{
    for (uint32_t c = 1; c <= MAX_CHANNELS; c++) {
        uint8_t sender = users->sender[c];
        uint8_t receiver = users->receiver[c];
        if (sender == 0 && receiver == 0)
            continue;
        struct sim_channel *channel = &rig->channel[c];
        memset(channel, 0, sizeof *channel);
        channel->sender = sender;
        channel->receiver = receiver;
        if (sender != 0) {
            channel->next_sent = rig->task[sender].sends;
            rig->task[sender].sends = (uint8_t)c;
        }
        if (receiver != 0) {
            channel->next_received = rig->task[receiver].receives;
            rig->task[receiver].receives = (uint8_t)c;
        }
    }
}

uint32_t sim_start(struct sim_rig *rig, uint32_t desks, const uint8_t *plan, size_t length)
{
    struct sim_users users;
    uint32_t number = sim_plan_users(desks, plan, length, &users);
    if (number != 0)
        return number;
    rig->desks = desks;
    rig->tasks = sim_u16(plan);
    rig->letters = 0;
    memset(rig->chosen, 0, sizeof rig->chosen);
    read_code(rig, plan + 4 + 4 * rig->tasks, sim_u16(plan + 2));
    lay_out_tasks(rig, plan, &users);
    link_channels(rig, &users);
    sim_birth(rig, 1, 1, (struct sim_pointer){0, 0});
    return 0;
}
