#include "unplan.h"

#include <string.h>

enum { BESIDE = 28 }; /* the column of comments */

/* Who uses which channel. */
struct ends {
    uint8_t sender[MORTARSEDGE_MAX_CHANNELS + 1], receiver[MORTARSEDGE_MAX_CHANNELS + 1];
};

static void find_ends(const uint8_t *plan, struct ends *ends)
{
    memset(ends, 0, sizeof *ends);
    for (uint32_t t = 1; t <= u16(plan); t++) {
        const uint8_t *at = plan + u16(plan + 4 * t);
        for (uint32_t i = u16(plan + 4 * t + 2); i > 0; i--, at += 4)
            if (at[0] == MORTARSEDGE_INSTRUCTION_SEND)
                ends->sender[u16(at + 2)] = (uint8_t)t;
            else if (at[0] == MORTARSEDGE_INSTRUCTION_RECEIVE)
                ends->receiver[u16(at + 2)] = (uint8_t)t;
    }
}

/* Where a plan's text is written. */
struct writing {
    const struct names *names;
    struct ends ends;
    struct text *to;
};

/* The other end of a channel, beside. */
static void put_end(const struct writing *writing, const uint8_t *at)
{
    bool sends = at[0] == MORTARSEDGE_INSTRUCTION_SEND;
    if (!sends && at[0] != MORTARSEDGE_INSTRUCTION_RECEIVE)
        return;
    text_pad(writing->to, BESIDE);
    text_put(writing->to, sends ? "# to " : "# from ");
    put_task(writing->to, writing->names, (sends ? writing->ends.receiver : writing->ends.sender)[u16(at + 2)]);
}

static void put_code(const struct writing *writing, const uint8_t *at, uint32_t count)
{
    bool within = false;
    for (; count > 0; count--, at += 4) {
        within = within && at[0] != MORTARSEDGE_INSTRUCTION_REPEAT_END;
        text_put(writing->to, within ? "        " : "    ");
        put_instruction(writing->to, writing->names, at);
        put_end(writing, at);
        text_put(writing->to, "\n");
        within = within || at[0] == MORTARSEDGE_INSTRUCTION_REPEAT;
    }
}

static void put_channels(const struct writing *writing)
{
    for (uint32_t c = 1; c <= MORTARSEDGE_MAX_CHANNELS; c++)
        if (writing->names->channel[c] != NULL && writing->ends.sender[c] != 0)
            text_put(writing->to, "channel %u %s\n", c, writing->names->channel[c]);
}

void unplan(const uint8_t *plan, const struct names *names, struct text *to)
{
    struct writing writing = {.names = names, .to = to};
    uint32_t tasks = u16(plan), total = u16(plan + 2);
    find_ends(plan, &writing.ends);
    text_put(to, "# %u task%s, %u instruction%s\n", tasks, tasks == 1 ? "" : "s", total, total == 1 ? "" : "s");
    put_channels(&writing);
    for (uint32_t t = 1; t <= tasks; t++) {
        text_put(to, "\ntask %u%s%s\n", t, names->task[t] == NULL ? "" : " ", names->task[t] == NULL ? "" : names->task[t]);
        put_code(&writing, plan + u16(plan + 4 * t), u16(plan + 4 * t + 2));
    }
}
