/* What desks, channels and parents keep. */
#include "tell.h"

/* The channels of a plan: only those are set in the simulator's rig. */
static void find_used(const struct sim_rig *rig, bool used[MAX_CHANNELS + 1])
{
    for (uint32_t c = 0; c <= MAX_CHANNELS; c++)
        used[c] = false;
    for (uint32_t t = 1; t <= rig->tasks; t++)
        for (uint32_t c = rig->task[t].receives; c != 0; c = rig->channel[c].next_received)
            used[c] = true;
}

static void tell_channel(const struct teller *teller, const struct sim_rig *rig, uint32_t c, const char *beginning)
{
    const struct sim_channel *channel = &rig->channel[c];
    for (uint32_t d = 1; d <= rig->desks; d++) {
        const struct sim_cell *cell = &channel->at[d];
        if (cell->held.number != 0) {
            text_put(teller->to, "%soffer %u on ", beginning, cell->held.number);
            put_channel(teller->to, teller->names, c);
            text_put(teller->to, " from desk %u is held at desk %u\n", cell->held.desk, d);
        }
        if (cell->advert != 0 && channel->called == 0) {
            text_put(teller->to, "%san advert on ", beginning);
            put_channel(teller->to, teller->names, c);
            text_put(teller->to, " from desk %u is noted at desk %u\n", cell->advert, d);
        }
    }
    if (channel->carried.number > channel->called) {
        text_put(teller->to, "%soffer %u on ", beginning, channel->carried.number);
        put_channel(teller->to, teller->names, c);
        text_put(teller->to, " from desk %u is carried by ", channel->carried.desk);
        put_task(teller->to, teller->names, channel->receiver);
        text_put(teller->to, "\n");
    }
}

static void tell_parent(const struct teller *teller, const struct sim_rig *rig, uint32_t task, const char *beginning)
{
    for (uint32_t d = 1; d <= rig->desks; d++)
        if (rig->parent[task][d].held != 0) {
            text_put(teller->to, "%sthe end of ", beginning);
            tell_tasks(teller, rig->parent[task][d].held);
            text_put(teller->to, " is held at desk %u for ", d);
            put_task(teller->to, teller->names, task);
            text_put(teller->to, "\n");
        }
}

void tell_kept(const struct teller *teller, const struct sim_rig *rig, const char *beginning)
{
    bool used[MAX_CHANNELS + 1];
    find_used(rig, used);
    for (uint32_t c = 1; c <= MAX_CHANNELS; c++)
        if (used[c])
            tell_channel(teller, rig, c, beginning);
    for (uint32_t t = 1; t <= rig->tasks; t++)
        tell_parent(teller, rig, t, beginning);
}
