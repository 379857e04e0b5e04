#include "tell.h"

void tell_word(const struct teller *teller, const struct sim_word *word)
{
    text_put(teller->to, "%u %u %u %u", word->level[0], word->level[1], word->level[2], word->level[3]);
}

void tell_task(const struct teller *teller, uint32_t task)
{
    put_task(teller->to, teller->names, task);
}

void tell_tasks(const struct teller *teller, uint64_t set)
{
    const char *between = "";
    for (uint32_t t = 1; t <= MAX_TASKS; t++)
        if ((set & sim_bit(t)) != 0) {
            text_put(teller->to, "%s", between);
            put_task_name(teller->to, teller->names, t);
            between = ", ";
        }
}

static void tell_instruction(const struct teller *teller, const struct sim_instruction *instruction)
{
    bool levels = instruction->kind == SET || instruction->kind == ADD;
    uint8_t bytes[4] = {instruction->kind, levels ? instruction->number : 0, (uint8_t)(instruction->argument % 256),
                        (uint8_t)(instruction->argument / 256)};
    put_instruction(teller->to, teller->names, bytes);
}

static void tell_run_step(const struct teller *teller, const struct moment *moment)
{
    uint32_t t = moment->step[1];
    text_put(teller->to, "run ");
    put_task_name(teller->to, teller->names, t);
    if (t >= 1 && t <= moment->before->tasks && moment->before->task[t].state == READY) {
        text_put(teller->to, ": ");
        tell_instruction(teller, next_instruction(moment->before, t));
    }
}

void tell_step(const struct teller *teller, const struct moment *moment)
{
    const uint8_t *step = moment->step;
    uint32_t number = sim_u16(step + 2);
    if (moment->answer == MORTARSEDGE_BAD_STEP) {
        text_put(teller->to, "step %u %u %u", step[0], step[1], number);
    } else if (step[0] == MORTARSEDGE_STEP_RUN) {
        tell_run_step(teller, moment);
    } else if (step[0] == MORTARSEDGE_STEP_DELIVER) {
        text_put(teller->to, "deliver ");
        put_wanted(teller->to, teller->names, moment->before, number);
    } else {
        text_put(teller->to, "move ");
        put_task_name(teller->to, teller->names, step[1]);
        text_put(teller->to, " to %u", number);
    }
}

/* Where the mover letter of a task goes. */
static uint32_t bound_for(const struct sim_rig *rig, uint32_t task)
{
    for (uint32_t i = 0; i < rig->letters; i++)
        if (rig->mail[i].kind == MOVER && rig->mail[i].subject == task)
            return rig->mail[i].desk;
    return 0;
}

void tell_state(const struct teller *teller, const struct sim_rig *rig, uint32_t task)
{
    static const char *const state[] = {"unborn", "ready", "waiting for ", "sending on ", "receiving on ", "under way", "done"};
    const struct sim_task *at = &rig->task[task];
    text_put(teller->to, "%s", state[at->state]);
    if (at->state == SENDING || at->state == RECEIVING)
        put_channel(teller->to, teller->names, channel_of(rig, task));
    if (at->state == WAITING)
        tell_tasks(teller, at->children);
    if (at->state == MOVING)
        text_put(teller->to, " to desk %u", bound_for(rig, task));
    else if (at->state != UNBORN)
        text_put(teller->to, " at desk %u", at->desk);
}

/* Of a task that is not ready: what it waits for. */
static void tell_not_ready(const struct teller *teller, const struct sim_rig *rig, uint32_t task)
{
    const struct sim_task *at = &rig->task[task];
    text_put(teller->to, ": ");
    tell_task(teller, task);
    text_put(teller->to, " is ");
    tell_state(teller, rig, task);
    if (at->state == SENDING || at->state == RECEIVING) {
        const struct sim_channel *channel = &rig->channel[channel_of(rig, task)];
        uint32_t other = at->state == SENDING ? channel->receiver : channel->sender;
        text_put(teller->to, "; the other end is ");
        tell_task(teller, other);
        text_put(teller->to, ", ");
        tell_state(teller, rig, other);
    } else if (at->state == UNBORN) {
        text_put(teller->to, ": ");
        tell_task(teller, at->parent);
        text_put(teller->to, " has not created it");
    }
}

static void tell_numbers(const struct teller *teller, const struct moment *moment)
{
    const struct sim_rig *rig = moment->before;
    uint32_t task = moment->step[1], number = sim_u16(moment->step + 2);
    switch (moment->answer) {
    case MORTARSEDGE_NO_TASK:
        text_put(teller->to, ": task %u, and the plan has tasks 1 to %u", task, rig->tasks);
        break;
    case MORTARSEDGE_NOT_READY:
        tell_not_ready(teller, rig, task);
        break;
    case MORTARSEDGE_FINISH_CHILDREN:
        text_put(teller->to, ": of ");
        tell_task(teller, task);
        text_put(teller->to, "'s children these live: ");
        tell_tasks(teller, rig->task[task].children);
        break;
    case MORTARSEDGE_MAIL_FULL:
        text_put(teller->to, ": it has %u letters, and 256 are possible: deliver some first", rig->letters);
        break;
    case MORTARSEDGE_NO_LETTER:
        text_put(teller->to, ": position %u, and the mail has %u letter%s", number, rig->letters,
                 rig->letters == 1 ? "" : "s");
        break;
    case MORTARSEDGE_NO_DESK:
        text_put(teller->to, ": desk %u, and the rig has desks 1 to %u", number, rig->desks);
        break;
    case MORTARSEDGE_SAME_DESK:
        text_put(teller->to, ": ");
        tell_task(teller, task);
        text_put(teller->to, " is at desk %u", number);
        break;
    case MORTARSEDGE_BAD_STEP:
        text_put(teller->to, ": kind %u, task %u, number %u", moment->step[0], task, number);
        break;
    default:
        break;
    }
}

void tell_refusal(const struct teller *teller, const struct moment *moment)
{
    text_put(teller->to, "refused, %u: %s", moment->answer, mortarsedge_refusal_text(moment->answer));
    tell_numbers(teller, moment);
}

void tell_outcome(const struct teller *teller, const struct moment *moment)
{
    uint32_t task = moment->step[1];
    if (moment->step[0] == MORTARSEDGE_STEP_RUN) {
        tell_run(teller, moment);
    } else if (moment->step[0] == MORTARSEDGE_STEP_DELIVER) {
        tell_delivery(teller, moment);
    } else {
        tell_task(teller, task);
        text_put(teller->to, " leaves desk %u for desk %u, move count %u", moment->before->task[task].desk,
                 sim_u16(moment->step + 2), moment->after->task[task].count);
    }
}
