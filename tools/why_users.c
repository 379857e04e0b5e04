/* 5 and 6: who creates a task, who uses a channel. */
#include "spot.h"

/* Where something is used first, and how often. */
struct use {
    uint32_t task, index, count;
};

/* The uses of a kind with this argument: those by one task only, if task is not 0. */
static struct use first_use(const struct search *search, uint8_t kind, uint32_t argument, uint32_t but)
{
    struct use use = {0, 0, 0};
    for (uint32_t t = 1; t <= u16(search->input->given); t++)
        for (uint32_t i = 1; i <= task_count(search, t); i++) {
            const uint8_t *at = task_code(search, t, i);
            if (at[0] != kind || u16(at + 2) != argument || t == but)
                continue;
            if (use.count++ == 0) {
                use.task = t;
                use.index = i;
            }
        }
    return use;
}

static void find_child(struct search *search, uint32_t child)
{
    struct use first = first_use(search, MORTARSEDGE_INSTRUCTION_CREATE, child, 0);
    if (first.count == 0) {
        spot(search, child, 0, "no task creates it");
        return;
    }
    uint32_t seen = 0;
    for (uint32_t t = 1; t <= u16(search->input->given); t++)
        for (uint32_t i = 1; i <= task_count(search, t); i++) {
            const uint8_t *at = task_code(search, t, i);
            if (at[0] != MORTARSEDGE_INSTRUCTION_CREATE || u16(at + 2) != child)
                continue;
            if (t >= child)
                spot(search, t, i, "only a task of a lower number than %u may create it", child);
            else if (seen > 0)
                spot(search, t, i, "task %u is created before, by task %u, instruction %u", child, first.task, first.index);
            seen++;
        }
}

void find_creates(struct search *search)
{
    for (uint32_t child = 2; child <= u16(search->input->given); child++)
        find_child(search, child);
}

/* Two tasks at one end. */
static void find_second(struct search *search, uint8_t kind, uint32_t channel, struct use first)
{
    struct use second = first_use(search, kind, channel, first.task);
    if (first.count > 0 && second.count > 0)
        spot(search, second.task, second.index, "%s has task %u already, which %s on it at its instruction %u",
             channel_label(search, channel).bytes, first.task,
             kind == MORTARSEDGE_INSTRUCTION_SEND ? "sends" : "receives", first.index);
}

void find_channels(struct search *search)
{
    for (uint32_t c = 1; c <= MORTARSEDGE_MAX_CHANNELS; c++) {
        struct use send = first_use(search, MORTARSEDGE_INSTRUCTION_SEND, c, 0);
        struct use receive = first_use(search, MORTARSEDGE_INSTRUCTION_RECEIVE, c, 0);
        find_second(search, MORTARSEDGE_INSTRUCTION_SEND, c, send);
        find_second(search, MORTARSEDGE_INSTRUCTION_RECEIVE, c, receive);
        if (send.count > 0 && receive.count == 0)
            spot(search, send.task, send.index, "%s has a sender and no receiver", channel_label(search, c).bytes);
        else if (send.count == 0 && receive.count > 0)
            spot(search, receive.task, receive.index, "%s has a receiver and no sender",
                 channel_label(search, c).bytes);
        else if (send.count > 0 && send.task == receive.task)
            spot(search, receive.task, receive.index, "task %u sends and receives on %s", send.task,
                 channel_label(search, c).bytes);
    }
}
