#include "names.h"

#include <string.h>

void names_of(const struct source *source, struct names *names)
{
    memset(names, 0, sizeof *names);
    if (source == NULL)
        return;
    for (uint32_t t = 1; t <= source->tasks && t <= MORTARSEDGE_MAX_TASKS; t++)
        if (source->task[t].name[0] != '\0')
            names->task[t] = source->task[t].name;
    for (uint32_t i = 0; i < source->channels; i++)
        if (source->channel[i].number <= MORTARSEDGE_MAX_CHANNELS)
            names->channel[source->channel[i].number] = source->channel[i].name;
}

static const char *task_name(const struct names *names, uint32_t task)
{
    return task <= MORTARSEDGE_MAX_TASKS ? names->task[task] : NULL;
}

static const char *channel_name(const struct names *names, uint32_t channel)
{
    return channel <= MORTARSEDGE_MAX_CHANNELS ? names->channel[channel] : NULL;
}

static void put_named(struct text *to, const char *what, uint32_t number, const char *name)
{
    text_put(to, "%s %u", what, number);
    if (name != NULL)
        text_put(to, " (%s)", name);
}

void put_task(struct text *to, const struct names *names, uint32_t task)
{
    put_named(to, "task", task, task_name(names, task));
}

void put_channel(struct text *to, const struct names *names, uint32_t channel)
{
    put_named(to, "channel", channel, channel_name(names, channel));
}

static void put_name(struct text *to, uint32_t number, const char *name)
{
    if (name != NULL)
        text_put(to, "%s", name);
    else
        text_put(to, "%u", number);
}

void put_task_name(struct text *to, const struct names *names, uint32_t task)
{
    put_name(to, task, task_name(names, task));
}

void put_channel_name(struct text *to, const struct names *names, uint32_t channel)
{
    put_name(to, channel, channel_name(names, channel));
}

void put_instruction(struct text *to, const struct names *names, const uint8_t *bytes)
{
    static const char *const word[] = {"", "create", "sync", "finish", "send", "receive", "set", "add", "repeat", "end"};
    uint32_t kind = bytes[0], argument = u16(bytes + 2);
    if (kind == 0 || kind >= sizeof word / sizeof word[0]) {
        text_put(to, "kind %u", kind);
        return;
    }
    text_put(to, "%s", word[kind]);
    if (kind == MORTARSEDGE_INSTRUCTION_SYNC || kind == MORTARSEDGE_INSTRUCTION_FINISH
        || kind == MORTARSEDGE_INSTRUCTION_REPEAT_END)
        return;
    text_put(to, " ");
    if (kind == MORTARSEDGE_INSTRUCTION_CREATE)
        put_task_name(to, names, argument);
    else if (kind == MORTARSEDGE_INSTRUCTION_SEND || kind == MORTARSEDGE_INSTRUCTION_RECEIVE)
        put_channel_name(to, names, argument);
    else
        text_put(to, "%u", argument);
    if (bytes[1] != 0)
        text_put(to, " level %u", bytes[1]);
}
