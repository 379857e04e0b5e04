#include "junk.h"

#include <stdio.h>
#include <string.h>

#include "../../bench/generate.h"
#include "../explain.h"
#include "../unplan.h"

static void put_bytes(struct random *r, struct text *to, uint32_t least)
{
    for (uint32_t n = random_below(r, 200); n > 0; n--) {
        uint8_t byte = (uint8_t)(least + random_below(r, 256 - least));
        text_add(to, &byte, 1);
    }
}

/* Words of both notations, and some that are of none. */
static void put_words(struct random *r, struct text *to)
{
    static const char *const words[] = {
        "task", "channel", "create", "sync", "finish", "send", "receive", "set", "add", "repeat", "end", "level", "run",
        "deliver", "move", "to", "step", "offer", "advert", "call", "word", "ended", "mover", "number", "a", "b", "-x", "1", "2",
        "3", "0", "64", "65", "128", "129", "255", "256", "65535", "65536", "99999999999999999999", "#", "\t", "\r", "\x7f"};
    for (uint32_t n = random_below(r, 60); n > 0; n--)
        text_put(to, "%s%s", words[random_below(r, sizeof words / sizeof words[0])], random_chance(r, 40) ? "\n" : " ");
}

/* Some bytes changed, left out or doubled. */
static void damage(struct random *r, struct text *text)
{
    for (uint32_t n = random_from(r, 1, 4); n > 0 && text->length > 1; n--) {
        size_t at = random_below(r, (uint32_t)text->length);
        switch (random_below(r, 4)) {
        case 0:
            text->bytes[at] = (char)random_below(r, 256);
            break;
        case 1:
            text->bytes[at] = (char)('0' + random_below(r, 10));
            break;
        case 2:
            memmove(text->bytes + at, text->bytes + at + 1, text->length - at - 1);
            text->length--;
            break;
        default:
            text->length = at;
            break;
        }
    }
}

/* A generated show, as files or as texts. */
static void put_show(struct random *r, bool texts, struct text *plan, struct text *steps)
{
    static struct generated g;
    static struct show show;
    static struct witness witness;
    generate(&g, 7, random_next(r));
    memset(&show, 0, sizeof show);
    show.desks = g.desks;
    show.plan.plan = g.plan;
    show.plan.length = g.plan_length;
    show.steps.file.name = "steps";
    show.steps.steps = g.steps;
    show.steps.length = g.steps_length;
    bool accepted = mortarsedge_plan_check(g.desks, g.plan, g.plan_length) == MORTARSEDGE_ACCEPTED
        && g.steps_length % 4 == 0 && g.steps_length / 4 <= MORTARSEDGE_MAX_STEPS;
    if (texts && accepted && witness_run(&witness, &show) == ACCEPTED) {
        unplan(g.plan, &show.plan.names, plan);
        unsteps(&witness, random_chance(r, 30), steps);
    } else {
        text_add(plan, g.plan, g.plan_length);
        text_add(steps, g.steps, g.steps_length);
    }
}

void make_junk(struct random *r, struct text *plan, struct text *steps)
{
    uint32_t class = random_below(r, JUNK_CLASSES);
    put_show(r, class % 2 == 1, plan, steps);
    switch (class) {
    case 0:
        text_free(plan);
        put_bytes(r, plan, random_chance(r, 50) ? 0 : 1);
        break;
    case 1:
        text_free(steps);
        put_bytes(r, steps, random_chance(r, 50) ? 0 : 1);
        break;
    case 2:
        text_free(plan);
        put_words(r, plan);
        break;
    case 3:
        text_free(steps);
        put_words(r, steps);
        break;
    case 4:
    case 5:
        damage(r, plan);
        break;
    case 6:
        damage(r, steps);
        break;
    default:
        damage(r, steps);
        damage(r, plan);
        break;
    }
}
