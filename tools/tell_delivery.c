/* What an accepted delivery did: told by the rig before and after. */
#include "tell.h"

static void tell_forward(const struct teller *teller, const struct moment *moment)
{
    text_put(teller->to, " is not at desk %u, which knows better: forwarded to desk %u, count %u (forwarding %u)",
             moment->taken->desk, moment->posted[0].desk, moment->posted[0].value, moment->posts[0].forwards);
}

static void tell_offer(const struct teller *teller, const struct moment *moment)
{
    const struct sim_letter *letter = moment->taken;
    const struct sim_channel *before = &moment->before->channel[letter->subject];
    const struct sim_channel *after = &moment->after->channel[letter->subject];
    tell_task(teller, before->receiver);
    if (moment->forwarded)
        tell_forward(teller, moment);
    else if (moment->before->task[before->receiver].desk != letter->desk)
        text_put(teller->to, " is on its way: offer %u is held at desk %u", after->at[letter->desk].held.number, letter->desk);
    else if (moment->posted_count > 0)
        text_put(teller->to, " answers: a call leaves for desk %u", moment->posted[0].desk);
    else if (letter->number <= before->called)
        text_put(teller->to, " has had or called for word %u: the offer is dropped", letter->number);
    else
        text_put(teller->to, before->has_called ? " has called for another word: it carries offer %u"
                                                : " does not wait for a word now: it carries offer %u", after->carried.number);
}

static void tell_advert(const struct teller *teller, const struct moment *moment)
{
    const struct sim_letter *letter = moment->taken;
    if (moment->posted_count > 0) {
        tell_task(teller, moment->before->channel[letter->subject].receiver);
        text_put(teller->to, " answers: a call leaves for desk %u", moment->posted[0].desk);
    } else {
        text_put(teller->to, "it is noted at desk %u", letter->desk);
    }
}

static void tell_call(const struct teller *teller, const struct moment *moment)
{
    const struct sim_letter *letter = moment->taken;
    if (moment->posted_count == 0) {
        text_put(teller->to, "it is removed without effect");
        return;
    }
    tell_task(teller, moment->before->channel[letter->subject].sender);
    text_put(teller->to, " is ready; its word ");
    tell_word(teller, &moment->posted[0].word);
    text_put(teller->to, " leaves for desk %u", moment->posted[0].desk);
}

static void tell_taken_word(const struct teller *teller, const struct moment *moment)
{
    if (moment->received.channel == 0) {
        text_put(teller->to, "it is removed without effect");
        return;
    }
    tell_task(teller, moment->before->channel[moment->taken->subject].receiver);
    text_put(teller->to, " takes the word ");
    tell_word(teller, &moment->received.word);
}

static void tell_ended(const struct teller *teller, const struct moment *moment)
{
    const struct sim_letter *letter = moment->taken;
    uint32_t parent = moment->before->task[letter->subject].parent;
    tell_task(teller, parent);
    if (moment->forwarded)
        tell_forward(teller, moment);
    else if ((moment->before->task[parent].children & sim_bit(letter->subject)) == 0)
        text_put(teller->to, " has no such child: it is removed without effect");
    else if (moment->before->task[parent].desk != letter->desk)
        text_put(teller->to, " is on its way: the end of its child is held at desk %u", letter->desk);
    else {
        text_put(teller->to, " knows that ");
        tell_task(teller, letter->subject);
        text_put(teller->to, " has ended");
        if (moment->before->task[parent].state == WAITING && moment->after->task[parent].state == READY)
            text_put(teller->to, ", and is ready");
    }
}

static void tell_mover(const struct teller *teller, const struct moment *moment)
{
    const struct sim_letter *letter = moment->taken;
    const struct sim_rig *before = moment->before, *after = moment->after;
    uint64_t ended = before->task[letter->subject].children & ~after->task[letter->subject].children;
    tell_task(teller, letter->subject);
    text_put(teller->to, " arrives at desk %u", letter->desk);
    for (uint32_t c = after->task[letter->subject].receives; c != 0; c = after->channel[c].next_received) {
        struct sim_offer held = before->channel[c].at[letter->desk].held;
        if (held.number == 0)
            continue;
        text_put(teller->to, held.number > before->channel[c].called ? "; takes over the held offer %u on "
                                                                     : "; drops the held offer %u on ", held.number);
        put_channel(teller->to, teller->names, c);
    }
    if (ended != 0) {
        text_put(teller->to, "; learns here that these ended: ");
        tell_tasks(teller, ended);
    }
}

void tell_delivery(const struct teller *teller, const struct moment *moment)
{
    switch (moment->taken->kind) {
    case OFFER:
        tell_offer(teller, moment);
        break;
    case ADVERT:
        tell_advert(teller, moment);
        break;
    case CALL:
        tell_call(teller, moment);
        break;
    case WORD:
        tell_taken_word(teller, moment);
        break;
    case ENDED:
        tell_ended(teller, moment);
        break;
    default:
        tell_mover(teller, moment);
        break;
    }
}
