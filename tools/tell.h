/* A step in words: what was asked, what happened, why it was refused. */
#ifndef TELL_H
#define TELL_H

#include "letters.h"
#include "watch.h"

/* What a teller needs: where it writes, and the names. */
struct teller {
    struct text *to;
    const struct names *names;
};

/* "run main: create lamp", "deliver 2: offer 1 on channel 3 .." , "move lamp to 2". */
void tell_step(const struct teller *teller, const struct moment *moment);

/* What an accepted step did. */
void tell_outcome(const struct teller *teller, const struct moment *moment);

/* Of a refused step: why, by the state of its task or the mail. */
void tell_refusal(const struct teller *teller, const struct moment *moment);

/* "ready at desk 1", "sending on channel 3 (cue) at desk 1". */
void tell_state(const struct teller *teller, const struct sim_rig *rig, uint32_t task);

/* "7 0 0 0". */
void tell_word(const struct teller *teller, const struct sim_word *word);

/* For tell_outcome: an accepted run, an accepted delivery, the tasks of a set. */
void tell_run(const struct teller *teller, const struct moment *moment);
void tell_delivery(const struct teller *teller, const struct moment *moment);
void tell_tasks(const struct teller *teller, uint64_t set);

/* "task 2 (lamp)". */
void tell_task(const struct teller *teller, uint32_t task);

/* What desks keep: offers held and carried, adverts noted, ended children held. Each on a line of its own, behind a
 * beginning. */
void tell_kept(const struct teller *teller, const struct sim_rig *rig, const char *beginning);

#endif
