/* A text line by line, each line as words. A comment goes from # to the line's end. */
#ifndef WORDS_H
#define WORDS_H

#include <stdbool.h>
#include <stddef.h>

#include "file.h"
#include "say.h"

enum { WORDS = 8 }; /* on a line; no line of a notation has more */

struct word {
    const char *at;
    size_t length;
    struct place place;
};

struct line {
    const char *file;
    uint32_t count, next; /* words, and how many are taken */
    struct word word[WORDS];
    struct place end; /* behind the last word */
};

struct lines {
    const struct file *file;
    size_t at;
    uint32_t number; /* of the line before */
};

/* The next line that has a word. False at the text's end, and where it is no text: then status is FAILED. */
bool next_line(struct lines *lines, struct line *line, int *status);

bool word_is(const struct word *word, const char *text);

/* For messages: as "%.*s". */
int shown(const struct word *word);

/* Takes the next word of the line if it is this one. */
bool take_word(struct line *line, const char *text);

/* Takes the next word; if there is none, says what is missing. */
bool take_any(struct line *line, const char *missing, struct word *word);

/* Takes a number from 0 to most; else says that this is none. */
bool take_number(struct line *line, const char *what, uint32_t most, uint32_t *number);

/* True if all words are taken; else says what is too many. */
bool line_ends(const struct line *line);

bool is_number(const struct word *word);

/* The value of a number; of one above most, some value above most. */
uint32_t number_value(const struct word *word, uint32_t most);

#endif
