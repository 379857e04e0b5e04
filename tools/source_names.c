/* Names become numbers. */
#include <string.h>

#include "library.h"
#include "source.h"

bool take_name(const char *file, const struct word *word, char name[NAME_ROOM])
{
    static const char first[] = "abcdefghijklmnopqrstuvwxyzABCDEFGHIJKLMNOPQRSTUVWXYZ_";
    static const char rest[] = "abcdefghijklmnopqrstuvwxyzABCDEFGHIJKLMNOPQRSTUVWXYZ_0123456789-";
    if (word->length >= NAME_ROOM) {
        fail_at(file, word->place, "a name has at most %d letters", NAME_ROOM - 1);
        return false;
    }
    memcpy(name, word->at, word->length);
    name[word->length] = '\0';
    if (strspn(name, first) >= 1 && strspn(name, rest) == word->length)
        return true;
    fail_at(file, word->place, "'%s' is no name: a letter, then letters, digits, _ and -", name);
    return false;
}

uint32_t source_task_number(const struct source *source, const struct word *name)
{
    for (uint32_t t = 1; t <= source->tasks; t++)
        if (source->task[t].name[0] != '\0' && word_is(name, source->task[t].name))
            return t;
    return 0;
}

uint32_t source_channel_number(const struct source *source, const struct word *name)
{
    for (uint32_t i = 0; i < source->channels; i++)
        if (word_is(name, source->channel[i].name))
            return source->channel[i].number;
    return 0;
}

static bool has_channel(const struct source_instruction *instruction)
{
    return instruction->kind == MORTARSEDGE_INSTRUCTION_SEND || instruction->kind == MORTARSEDGE_INSTRUCTION_RECEIVE;
}

/* A name without a number of its own gets the lowest that the text does not use. */
static void number_channels(struct source *source)
{
    static bool used[65536];
    uint32_t next = 1;
    memset(used, 0, sizeof used);
    for (uint32_t i = 0; i < source->code_length; i++)
        if (has_channel(&source->code[i]))
            used[source->code[i].argument] = true;
    for (uint32_t i = 0; i < source->channels; i++)
        used[source->channel[i].number] = true;
    for (uint32_t i = 0; i < source->channels; i++)
        if (source->channel[i].number == 0) {
            while (used[next])
                next++;
            source->channel[i].number = next++;
        }
}

int source_resolve(struct source *source)
{
    number_channels(source);
    for (uint32_t i = 0; i < source->code_length; i++) {
        struct source_instruction *instruction = &source->code[i];
        const struct word *name = &instruction->name;
        if (name->length == 0)
            continue;
        uint32_t number = has_channel(instruction) ? source_channel_number(source, name)
                                                   : source_task_number(source, name);
        if (number == 0)
            return fail_at(source->file, name->place, "there is no task '%.*s'", shown(name), name->at);
        instruction->argument = (uint16_t)number;
    }
    return ACCEPTED;
}

static uint8_t *put_u16(uint8_t *to, uint32_t number)
{
    to[0] = (uint8_t)(number % 256);
    to[1] = (uint8_t)(number / 256);
    return to + 2;
}

size_t source_bytes(const struct source *source, uint8_t *plan)
{
    uint32_t offset = 4 + 4 * source->tasks;
    uint8_t *to = put_u16(put_u16(plan, source->tasks), source->code_length);
    for (uint32_t t = 1; t <= source->tasks; t++) {
        to = put_u16(put_u16(to, offset), source->task[t].count);
        offset += 4 * source->task[t].count;
    }
    for (uint32_t i = 0; i < source->code_length; i++) {
        *to++ = source->code[i].kind;
        *to++ = source->code[i].level;
        to = put_u16(to, source->code[i].argument);
    }
    return (size_t)(to - plan);
}
