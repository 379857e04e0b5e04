/* round_trips SEED COUNT: plans and steps as text and back, on COUNT accepted plans of bench's generator; and of every
 * fourth run what is told of it: its explanation, its charts. */
#include <stdio.h>
#include <stdlib.h>
#include <string.h>

#include "../../bench/generate.h"
#include "../../bench/make_repeats.h"
#include "../chart.h"
#include "../explain.h"
#include "../unplan.h"
#include "xml.h"

static struct show show;
static struct witness witness;
static struct chart chart;
static struct source source;
static unsigned plans, runs, steps, charts, repeats;

static void fault(uint64_t index, const char *what)
{
    fprintf(stderr, "round trips: index %llu: %s\n", (unsigned long long)index, what);
    exit(1);
}

/* A name for each task and each channel; some of them are words of the notation. */
static void make_names(struct names *names)
{
    static char text[2][MORTARSEDGE_MAX_CHANNELS + 1][NAME_ROOM];
    memset(names, 0, sizeof *names);
    for (uint32_t i = 1; i <= MORTARSEDGE_MAX_CHANNELS; i++) {
        snprintf(text[0][i], NAME_ROOM, i % 7 == 0 ? "task-%u" : "t%u_", i);
        snprintf(text[1][i], NAME_ROOM, i % 5 == 0 ? "send%u" : "c-%u", i);
        names->channel[i] = text[1][i];
        if (i <= MORTARSEDGE_MAX_TASKS)
            names->task[i] = text[0][i];
    }
    names->task[1] = "task";
    names->channel[1] = "channel";
}

/* The text of a plan file, read again. */
static void plan_and_back(uint64_t index, const uint8_t *plan, size_t length, const struct names *names)
{
    static uint8_t made[SOURCE_BYTES];
    struct text text = {NULL, 0, 0};
    unplan(plan, names, &text);
    struct file file = {"text", (uint8_t *)text.bytes, text.length};
    if (!file_is_text(&file) || source_read(&file, &source) != ACCEPTED)
        fault(index, "the text of a plan is not read");
    if (source_bytes(&source, made) != length || memcmp(made, plan, length) != 0)
        fault(index, "the plan is not the same");
    text_free(&text);
}

static void lend(const struct generated *g)
{
    memset(&show, 0, sizeof show);
    show.desks = g->desks;
    show.plan.file.name = "plan";
    show.plan.given = show.plan.plan = g->plan;
    show.plan.given_length = show.plan.length = g->plan_length;
    show.steps.file.name = "steps";
    show.steps.steps = g->steps;
    show.steps.length = g->steps_length;
}

/* The text of a step file, made to steps again. */
static void steps_and_back(uint64_t index, const struct generated *g, bool positions)
{
    struct text text = {NULL, 0, 0};
    if (unsteps(&witness, positions, &text) != ACCEPTED)
        fault(index, "steps are not told");
    show.steps.file.bytes = (uint8_t *)text.bytes;
    show.steps.file.length = text.length;
    if (steps_make(&show) != ACCEPTED)
        fault(index, "the text of steps is not read");
    if (show.steps.length != g->steps_length || (g->steps_length > 0 && memcmp(show.steps.made, g->steps, g->steps_length) != 0))
        fault(index, "the steps are not the same");
    free(show.steps.place);
    free(show.steps.made);
    show.steps.place = NULL;
    show.steps.made = NULL;
    show.steps.steps = g->steps;
    text_free(&text);
}

static void picture(uint64_t index)
{
    struct text text = {NULL, 0, 0};
    if (explain_run(&witness, &text) != ACCEPTED || chart_make(&witness, &chart) != ACCEPTED)
        fault(index, "the simulator differs");
    text_free(&text);
    chart_text(&chart, &text);
    text_free(&text);
    chart_svg(&chart, &text);
    if (!xml_is_well_formed(text.bytes, text.length))
        fault(index, "the chart is not well-formed");
    text_free(&text);
    chart_free(&chart);
}

static void one(uint64_t index, const struct generated *g)
{
    struct names none, names;
    names_of(NULL, &none);
    make_names(&names);
    plan_and_back(index, g->plan, g->plan_length, &none);
    plan_and_back(index, g->plan, g->plan_length, &names);
    lend(g);
    if (g->steps_length % 4 != 0 || g->steps_length / 4 > MORTARSEDGE_MAX_STEPS)
        return;
    if (witness_run(&witness, &show) != ACCEPTED)
        fault(index, "a step file is refused");
    steps_and_back(index, g, true);
    show.plan.source = &source; /* from the text with names */
    names_of(&source, &show.plan.names);
    steps_and_back(index, g, false);
    if (runs % 4 == 0) {
        picture(index);
        charts++;
    }
    runs++;
    steps += (unsigned)(g->steps_length / 4);
}

/* Files of the new edition: the text has the repeats, and the converter writes them out alike. */
static void one_with_repeats(uint64_t index, const struct repeats_file *f)
{
    static uint8_t written[MORTARSEDGE_MAX_PLAN];
    struct names none;
    names_of(NULL, &none);
    if (mortarsedge_number(mortarsedge_convert(f->bytes, f->length, written, sizeof written)) != MORTARSEDGE_ACCEPTED)
        return;
    plan_and_back(index, f->bytes, f->length, &none);
    repeats++;
}

int main(int argc, char **argv)
{
    static struct generated g;
    static struct repeats_file f;
    if (argc != 3) {
        fprintf(stderr, "usage: round_trips SEED COUNT\n");
        return 2;
    }
    uint64_t seed = strtoull(argv[1], NULL, 10);
    unsigned count = (unsigned)strtoul(argv[2], NULL, 10);
    for (uint64_t index = 0; plans < count; index++) {
        generate(&g, seed, index);
        if (mortarsedge_plan_check(g.desks, g.plan, g.plan_length) != MORTARSEDGE_ACCEPTED)
            continue;
        one(index, &g);
        plans++;
    }
    for (uint64_t index = 0; index < count; index++) {
        make_repeats(&f, seed, index);
        one_with_repeats(index, &f);
    }
    printf("round trips: %u plans with and without names, %u of them with steps, %u in all; %u charts; %u plans with repeats\n",
           plans, runs, steps, charts, repeats);
    return 0;
}
