#include "spot.h"

#include <stdarg.h>
#include <stdio.h>

uint32_t task_count(const struct search *search, uint32_t task)
{
    return u16(search->input->given + 4 * task + 2);
}

const uint8_t *task_code(const struct search *search, uint32_t task, uint32_t index)
{
    return search->input->given + u16(search->input->given + 4 * task) + 4 * (index - 1);
}

struct label channel_label(const struct search *search, uint32_t channel)
{
    struct label label;
    const char *name = search->input->names.channel[channel];
    if (name == NULL)
        snprintf(label.bytes, sizeof label.bytes, "channel %u", channel);
    else
        snprintf(label.bytes, sizeof label.bytes, "channel %u (%s)", channel, name);
    return label;
}

/* Whether one more is told. */
static bool is_told(struct search *search)
{
    return search->found++ < SPOTS;
}

/* "FILE:LINE:COLUMN: " of a text, "FILE: byte N: " of a plan file. */
static void tell_place(const struct search *search, uint32_t task, uint32_t index, struct text *to)
{
    const struct source *source = search->input->source;
    const char *file = search->input->file.name;
    if (source == NULL) {
        size_t byte = index == 0 ? 4 * task : (size_t)(task_code(search, task, index) - search->input->given);
        text_put(to, "%s: byte %zu: ", file, byte);
        return;
    }
    struct place place = index == 0 ? source->task[task].place : source->code[source->task[task].first + index - 1].place;
    text_put(to, "%s:%u:%u: ", file, place.line, place.column);
}

void spot(struct search *search, uint32_t task, uint32_t index, const char *format, ...)
{
    struct text line = {NULL, 0, 0};
    va_list words;
    if (!is_told(search))
        return;
    tell_place(search, task, index, &line);
    put_task(&line, &search->input->names, task);
    if (index != 0) {
        text_put(&line, ", instruction %u, ", index);
        put_instruction(&line, &search->input->names, task_code(search, task, index));
    }
    fprintf(stderr, "%s: ", line.bytes);
    va_start(words, format);
    vfprintf(stderr, format, words);
    va_end(words);
    fputc('\n', stderr);
    text_free(&line);
}

void spot_byte(struct search *search, size_t byte, const char *format, ...)
{
    va_list words;
    if (!is_told(search))
        return;
    fprintf(stderr, "%s: byte %zu: ", search->input->file.name, byte);
    va_start(words, format);
    vfprintf(stderr, format, words);
    va_end(words);
    fputc('\n', stderr);
}
