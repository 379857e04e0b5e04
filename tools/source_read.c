/* The notation of a plan, line by line. */
#include <string.h>

#include "library.h"
#include "source.h"

enum argument { NOTHING, TASK, CHANNEL, LEVEL, NUMBER };

static const struct {
    const char *word;
    uint8_t kind;
    enum argument argument;
} instructions[] = {
    {"create", MORTARSEDGE_INSTRUCTION_CREATE, TASK},       {"sync", MORTARSEDGE_INSTRUCTION_SYNC, NOTHING},
    {"finish", MORTARSEDGE_INSTRUCTION_FINISH, NOTHING},    {"send", MORTARSEDGE_INSTRUCTION_SEND, CHANNEL},
    {"receive", MORTARSEDGE_INSTRUCTION_RECEIVE, CHANNEL},  {"set", MORTARSEDGE_INSTRUCTION_SET, LEVEL},
    {"add", MORTARSEDGE_INSTRUCTION_ADD, LEVEL},            {"repeat", MORTARSEDGE_INSTRUCTION_REPEAT, NUMBER},
    {"end", MORTARSEDGE_INSTRUCTION_REPEAT_END, NOTHING},
};

/* `task NAME`, `task NUMBER` or `task NUMBER NAME`. Tasks are numbered as they come. */
static bool read_task(struct source *source, struct line *line)
{
    struct word word;
    uint32_t number = source->tasks + 1;
    struct source_task *task = &source->task[number];
    if (number > SOURCE_TASKS) {
        fail_at(source->file, line->word[0].place, "over %d tasks: a plan has at most 64", SOURCE_TASKS);
        return false;
    }
    *task = (struct source_task){.place = line->word[0].place, .first = source->code_length};
    if (!take_any(line, "the task's name or number", &word))
        return false;
    if (is_number(&word)) {
        if (number_value(&word, SOURCE_TASKS) != number) {
            fail_at(source->file, word.place, "this is task %u: tasks are numbered as they come", number);
            return false;
        }
        source->tasks = number;
        if (line->next == line->count || !take_any(line, "", &word))
            return true;
    }
    if (source_task_number(source, &word) != 0) {
        fail_at(source->file, word.place, "'%.*s' is task %u's name already", shown(&word), word.at,
                source_task_number(source, &word));
        return false;
    }
    source->tasks = number;
    return take_name(source->file, &word, task->name);
}

/* A channel's name, if it is new; number 0 is given later. */
static bool add_channel(struct source *source, const struct word *word, uint32_t number)
{
    struct source_channel *channel = &source->channel[source->channels];
    for (uint32_t i = 0; i < source->channels; i++)
        if (word_is(word, source->channel[i].name)) {
            if (number != 0)
                fail_at(source->file, word->place, "'%.*s' is a channel's name already", shown(word), word->at);
            return number == 0;
        }
    if (source->channels == SOURCE_CHANNELS) {
        fail_at(source->file, word->place, "over %d names of channels: there are 128 channels", SOURCE_CHANNELS);
        return false;
    }
    channel->number = number;
    source->channels++;
    return take_name(source->file, word, channel->name);
}

/* `channel NUMBER NAME`. */
static bool read_channel(struct source *source, struct line *line)
{
    struct word word;
    uint32_t number;
    if (!take_number(line, "the channel's number", 65535, &number))
        return false;
    if (number < 1 || number > MORTARSEDGE_MAX_CHANNELS) {
        fail_at(source->file, line->word[1].place, "a channel's number is 1 to 128");
        return false;
    }
    for (uint32_t i = 0; i < source->channels; i++)
        if (source->channel[i].number == number) {
            fail_at(source->file, line->word[1].place, "channel %u has the name '%s'", number, source->channel[i].name);
            return false;
        }
    return take_any(line, "the channel's name", &word) && add_channel(source, &word, number);
}

/* A task or a channel: its name is kept until all names are known. */
static bool read_subject(struct source *source, struct line *line, bool channel, struct source_instruction *to)
{
    struct word word;
    uint32_t number = 0;
    if (!take_any(line, channel ? "the channel" : "the task", &word))
        return false;
    if (!is_number(&word)) {
        to->name = word;
        return !channel || add_channel(source, &word, 0);
    }
    line->next--;
    bool taken = take_number(line, channel ? "a channel" : "a task", 65535, &number);
    to->argument = (uint16_t)number;
    return taken;
}

/* A number of 16 bits and, if it is said, a level. */
static bool read_level(struct line *line, struct source_instruction *to)
{
    uint32_t number, level = 0;
    if (!take_number(line, "the number", 65535, &number))
        return false;
    if (take_word(line, "level") && !take_number(line, "the level", 255, &level))
        return false;
    to->argument = (uint16_t)number;
    to->level = (uint8_t)level;
    return true;
}

static bool read_argument(struct source *source, struct line *line, enum argument argument, struct source_instruction *to)
{
    uint32_t number;
    switch (argument) {
    case TASK:
    case CHANNEL:
        return read_subject(source, line, argument == CHANNEL, to);
    case LEVEL:
        return read_level(line, to);
    case NUMBER:
        if (!take_number(line, "the number of rounds", 65535, &number))
            return false;
        to->argument = (uint16_t)number;
        source->repeats = true;
        return true;
    case NOTHING:
        break;
    }
    return true;
}

static bool read_instruction(struct source *source, struct line *line)
{
    const struct word *word = &line->word[0];
    struct source_instruction *to = &source->code[source->code_length];
    for (size_t i = 0; i < sizeof instructions / sizeof instructions[0]; i++) {
        if (!word_is(word, instructions[i].word))
            continue;
        if (source->tasks == 0) {
            fail_at(source->file, word->place, "an instruction before the first task");
            return false;
        }
        if (source->code_length == SOURCE_CODE) {
            fail_at(source->file, word->place, "over %d instructions: a plan has at most 4096", SOURCE_CODE);
            return false;
        }
        *to = (struct source_instruction){.kind = instructions[i].kind, .place = word->place};
        if (to->kind == MORTARSEDGE_INSTRUCTION_REPEAT_END)
            source->repeats = true;
        source->code_length++;
        source->task[source->tasks].count++;
        return read_argument(source, line, instructions[i].argument, to);
    }
    fail_at(source->file, word->place, "'%.*s' is no instruction, nor task or channel", shown(word), word->at);
    return false;
}

static bool read_line(struct source *source, struct line *line)
{
    if (take_word(line, "task"))
        return read_task(source, line);
    if (take_word(line, "channel"))
        return read_channel(source, line);
    line->next = 1;
    return read_instruction(source, line);
}

int source_read(const struct file *file, struct source *source)
{
    struct lines lines = {file, 0, 0};
    struct line line;
    int status;
    memset(source, 0, sizeof *source);
    source->file = file->name;
    while (next_line(&lines, &line, &status))
        if (!read_line(source, &line) || !line_ends(&line))
            return FAILED;
    if (status == ACCEPTED && source->tasks == 0)
        return fail_at(file->name, (struct place){lines.number, 1}, "the text has no task");
    return status == ACCEPTED ? source_resolve(source) : status;
}
