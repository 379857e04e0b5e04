/* What an accepted run did: told by the rig before and after. */
#include "tell.h"

static void tell_ready(const struct teller *teller, const struct moment *moment, uint32_t task)
{
    if (moment->before->task[task].state != READY && moment->after->task[task].state == READY)
        text_put(teller->to, ", which is ready");
}

static void tell_create(const struct teller *teller, const struct moment *moment, uint32_t child)
{
    tell_task(teller, child);
    text_put(teller->to, " is born at desk %u", moment->after->task[child].desk);
}

static void tell_sync(const struct teller *teller, const struct moment *moment, uint32_t task)
{
    if (moment->after->task[task].state != WAITING) {
        text_put(teller->to, "no child lives, it goes on");
        return;
    }
    text_put(teller->to, "it waits for ");
    tell_tasks(teller, moment->after->task[task].children);
}

static void tell_finish(const struct teller *teller, const struct moment *moment, uint32_t task)
{
    uint32_t parent = moment->after->task[task].parent;
    tell_task(teller, task);
    text_put(teller->to, " is done");
    if (parent == 0)
        return;
    text_put(teller->to, "; its parent, ");
    tell_task(teller, parent);
    if (moment->posted_count > 0)
        text_put(teller->to, ", is elsewhere: an ended letter leaves for desk %u", moment->posted[0].desk);
    else if ((moment->after->task[parent].children & sim_bit(task)) != 0)
        text_put(teller->to, ", is on its way here: its end is held at desk %u", moment->after->task[task].desk);
    else {
        text_put(teller->to, ", is here");
        tell_ready(teller, moment, parent);
    }
}

/* A send that does not pass directly. */
static void tell_offered(const struct teller *teller, const struct moment *moment, const struct sim_instruction *send,
                         uint32_t desk)
{
    uint32_t receiver = moment->after->channel[send->argument].receiver;
    if (moment->posted_count > 0 && moment->posted[0].kind == ADVERT) {
        text_put(teller->to, "desk %u knows nothing of ", desk);
        tell_task(teller, receiver);
        text_put(teller->to, ": adverts leave for desk%s", moment->posted_count == 1 ? "" : "s");
        for (uint32_t i = 0; i < moment->posted_count; i++)
            text_put(teller->to, "%s%u", i == 0 ? " " : ", ", moment->posted[i].desk);
    } else if (moment->posted_count > 0) {
        text_put(teller->to, "offer %u leaves for desk %u, count %u", send->number, moment->posted[0].desk,
                 moment->posted[0].value);
    } else {
        bool here = moment->after->task[receiver].desk == desk;
        tell_task(teller, receiver);
        if (here)
            text_put(teller->to, " is here, but does not wait for this word: it carries offer %u", send->number);
        else if (moment->after->channel[send->argument].at[desk].pointer.desk == desk)
            text_put(teller->to, " is on its way here: offer %u is held at desk %u", send->number, desk);
        else /* a rig of one desk has nobody to advertise to */
            text_put(teller->to, " is unborn, and there is no other desk to ask");
    }
    text_put(teller->to, "; the sender waits");
}

static void tell_send(const struct teller *teller, const struct moment *moment, const struct sim_instruction *send,
                      uint32_t desk)
{
    if (moment->received.channel == 0) {
        tell_offered(teller, moment, send, desk);
        return;
    }
    text_put(teller->to, "its word ");
    tell_word(teller, &moment->received.word);
    text_put(teller->to, " passes directly to ");
    tell_task(teller, moment->after->channel[send->argument].receiver);
}

static void tell_receive(const struct teller *teller, const struct moment *moment, uint32_t channel)
{
    if (moment->received.channel != 0) {
        text_put(teller->to, "the word ");
        tell_word(teller, &moment->received.word);
        text_put(teller->to, " passes directly from ");
        tell_task(teller, moment->after->channel[channel].sender);
        tell_ready(teller, moment, moment->after->channel[channel].sender);
    } else if (moment->posted_count > 0) {
        bool carried = moment->before->channel[channel].carried.number > moment->before->channel[channel].called;
        text_put(teller->to, "it answers %s: a call leaves for desk %u",
                 carried ? "the offer that it carries" : "the advert noted here", moment->posted[0].desk);
    } else {
        text_put(teller->to, "nothing is offered yet: it waits");
    }
}

static void tell_level(const struct teller *teller, const struct moment *moment, const struct sim_instruction *change)
{
    uint32_t task = moment->step[1], from = moment->before->task[task].word.level[change->number];
    text_put(teller->to, "its word is ");
    tell_word(teller, &moment->after->task[task].word);
    if (went_over(moment))
        text_put(teller->to, "; %u + %u went over the top, and the task is marked", from, change->argument);
}

void tell_run(const struct teller *teller, const struct moment *moment)
{
    uint32_t task = moment->step[1];
    const struct sim_instruction *executed = next_instruction(moment->before, task);
    switch (executed->kind) {
    case CREATE:
        tell_create(teller, moment, executed->argument);
        break;
    case SYNC:
        tell_sync(teller, moment, task);
        break;
    case FINISH:
        tell_finish(teller, moment, task);
        break;
    case SEND:
        tell_send(teller, moment, executed, moment->before->task[task].desk);
        break;
    case RECEIVE:
        tell_receive(teller, moment, executed->argument);
        break;
    default:
        tell_level(teller, moment, executed);
        break;
    }
}
