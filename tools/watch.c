#include "watch.h"

#include <string.h>

bool watch_start(struct watch *watch, uint32_t desks, const uint8_t *plan, size_t length)
{
    memset(watch, 0, sizeof *watch);
    if (sim_start(&watch->after, desks, plan, length) != 0)
        return false;
    watch->before = watch->after;
    return true;
}

/* The letter at a position leaves the tracked mail as it left the rig's. */
static void take(struct watch *watch, uint32_t index, struct moment *moment)
{
    moment->taken = &watch->before.mail[index];
    moment->tracked = watch->mail[index];
    memmove(&watch->mail[index], &watch->mail[index + 1], (watch->before.letters - index - 1) * sizeof watch->mail[0]);
}

/* An offer or an ended letter that was posted again by its delivery. */
static bool is_forwarded(const struct moment *moment)
{
    const struct sim_letter *from = moment->taken, *to = moment->posted;
    return from != NULL && moment->posted_count == 1 && from->kind == to->kind && from->subject == to->subject
        && (from->kind == OFFER || from->kind == ENDED);
}

/* Letters join the mail's end. */
static void post(struct watch *watch, struct moment *moment)
{
    uint32_t left = watch->before.letters - (moment->taken != NULL);
    moment->posted = &watch->after.mail[left];
    moment->posts = &watch->mail[left];
    moment->posted_count = watch->after.letters - left;
    moment->forwarded = is_forwarded(moment);
    for (uint32_t i = left; i < watch->after.letters; i++) {
        watch->posted++;
        watch->mail[i] = (struct tracked){watch->posted, moment->forwarded ? moment->tracked.forwards + 1 : 0};
    }
}

void watch_step(struct watch *watch, const uint8_t *step, struct moment *moment)
{
    memset(moment, 0, sizeof *moment);
    watch->before = watch->after;
    moment->number = ++watch->steps;
    moment->step = step;
    moment->before = &watch->before;
    moment->after = &watch->after;
    moment->answer = sim_step(&watch->after, step, &moment->received);
    if (moment->answer == 0 && step[0] == 2)
        take(watch, sim_u16(step + 2) - 1, moment);
    post(watch, moment);
}

const struct sim_instruction *next_instruction(const struct sim_rig *rig, uint32_t task)
{
    return &rig->code[rig->task[task].place];
}

uint32_t channel_of(const struct sim_rig *rig, uint32_t task)
{
    return rig->code[rig->task[task].place - 1].argument;
}

bool went_over(const struct moment *moment)
{
    uint32_t task = moment->step[1];
    if (moment->answer != 0 || moment->step[0] != 1)
        return false;
    const struct sim_instruction *executed = next_instruction(moment->before, task);
    return executed->kind == ADD
        && moment->after->task[task].word.level[executed->number] < moment->before->task[task].word.level[executed->number];
}
