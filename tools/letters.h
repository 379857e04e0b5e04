/* Letters of the mail, by what they are. */
#ifndef LETTERS_H
#define LETTERS_H

#include "../bench/sim_rig.h"
#include "names.h"

/* offer, advert, call, word, ended, mover; 0 if it is none. */
uint8_t letter_kind(const struct word *word);
const char *kind_name(uint8_t kind);

/* What is looked for: 0 stands for any. */
struct wanted {
    uint32_t kind, subject; /* a channel, or a task */
    uint32_t number;        /* of an offer */
    uint32_t desk;          /* where it goes */
};

/* The position of the earliest letter that is wanted, from 1; 0 if there is none. */
uint32_t letter_position(const struct sim_rig *rig, const struct wanted *wanted);

/* The letter at a position as a step's text names it: `offer 3`, and further words only if the earliest such letter is
 * another; the position where no words tell it. */
void put_wanted(struct text *to, const struct names *names, const struct sim_rig *rig, uint32_t position);

/* A letter in words: "offer 1 on channel 3 (cue) from desk 1 to desk 2, count 2". */
void put_letter(struct text *to, const struct names *names, const struct sim_letter *letter);

/* The mail in one line, with positions: its first letters, and how many more there are. */
void put_mail(struct text *to, const struct names *names, const struct sim_rig *rig);

#endif
