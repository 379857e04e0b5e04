#include "words.h"

#include <string.h>

static bool is_space(uint8_t byte)
{
    return byte == ' ' || byte == '\t' || byte == '\r';
}

static bool is_letter(uint8_t byte)
{
    return byte > ' ' && byte < 127 && byte != '#';
}

static struct place place_at(const struct lines *lines, size_t start, size_t at)
{
    return (struct place){lines->number, (uint32_t)(at - start) + 1};
}

/* The words of the line from at to end. */
static int split(const struct lines *lines, size_t start, size_t end, struct line *line)
{
    const uint8_t *bytes = lines->file->bytes;
    size_t at = start;
    *line = (struct line){.file = lines->file->name};
    for (;;) {
        while (at < end && is_space(bytes[at]))
            at++;
        if (at == end || bytes[at] == '#')
            return ACCEPTED;
        if (!is_letter(bytes[at]))
            return fail_at(line->file, place_at(lines, start, at), "byte %u is no part of a word", bytes[at]);
        struct word word = {(const char *)bytes + at, 0, place_at(lines, start, at)};
        while (at < end && is_letter(bytes[at]))
            at++;
        word.length = (size_t)((const char *)bytes + at - word.at);
        if (line->count == WORDS)
            return fail_at(line->file, word.place, "'%.*s' is too many", shown(&word), word.at);
        line->word[line->count++] = word;
        line->end = place_at(lines, start, at);
    }
}

bool next_line(struct lines *lines, struct line *line, int *status)
{
    const struct file *file = lines->file;
    while (lines->at < file->length) {
        const uint8_t *start = file->bytes + lines->at;
        const uint8_t *end = memchr(start, '\n', file->length - lines->at);
        size_t from = lines->at, to = end == NULL ? file->length : (size_t)(end - file->bytes);
        lines->at = to + 1;
        lines->number++;
        *status = split(lines, from, to, line);
        if (*status != ACCEPTED)
            return false;
        if (line->count > 0)
            return true;
    }
    *status = ACCEPTED;
    return false;
}

bool word_is(const struct word *word, const char *text)
{
    return strlen(text) == word->length && memcmp(text, word->at, word->length) == 0;
}

int shown(const struct word *word)
{
    return word->length < 40 ? (int)word->length : 40;
}

bool take_word(struct line *line, const char *text)
{
    if (line->next == line->count || !word_is(&line->word[line->next], text))
        return false;
    line->next++;
    return true;
}

bool take_any(struct line *line, const char *missing, struct word *word)
{
    if (line->next == line->count) {
        fail_at(line->file, line->end, "%s is missing", missing);
        return false;
    }
    *word = line->word[line->next++];
    return true;
}

bool is_number(const struct word *word)
{
    for (size_t i = 0; i < word->length; i++)
        if (word->at[i] < '0' || word->at[i] > '9')
            return false;
    return true;
}

uint32_t number_value(const struct word *word, uint32_t most)
{
    uint32_t value = 0;
    for (size_t i = 0; i < word->length && value <= most; i++)
        value = 10 * value + (uint32_t)(word->at[i] - '0');
    return value;
}

bool take_number(struct line *line, const char *what, uint32_t most, uint32_t *number)
{
    struct word word;
    if (!take_any(line, what, &word))
        return false;
    if (!is_number(&word)) {
        fail_at(line->file, word.place, "'%.*s' is no number: %s is due", shown(&word), word.at, what);
        return false;
    }
    *number = number_value(&word, most);
    if (*number > most) {
        fail_at(line->file, word.place, "%.*s does not fit: %s is at most %u", shown(&word), word.at, what, most);
        return false;
    }
    return true;
}

bool line_ends(const struct line *line)
{
    const struct word *word = &line->word[line->next];
    if (line->next == line->count)
        return true;
    fail_at(line->file, word->place, "'%.*s' is too many", shown(word), word->at);
    return false;
}
