#include "chart_bars.h"

#include <stdlib.h>
#include <string.h>

#include "tell.h"

/* The task that a letter is for. */
static uint32_t addressee(const struct sim_rig *rig, const struct sim_letter *letter)
{
    switch (letter->kind) {
    case CALL:
        return rig->channel[letter->subject].sender;
    case ENDED:
        return rig->task[letter->subject].parent;
    case MOVER:
        return letter->subject;
    default:
        return rig->channel[letter->subject].receiver;
    }
}

/* Where a run or a move happens. It is looked for before the bars follow: a departing task still has its bar. */
static struct spot_at place_of(const struct bars *bars, const struct moment *moment)
{
    uint32_t task = moment->step[1];
    if (task < 1 || task > moment->before->tasks || bars->stay[task] == NONE || moment->step[0] == MORTARSEDGE_STEP_DELIVER)
        return (struct spot_at){0, 0, 0};
    return bars_spot(bars, bars->chart->stay[bars->stay[task]].desk, task);
}

static void add_arrows(struct bars *bars, const struct moment *moment, struct spot_at at)
{
    struct chart *chart = bars->chart;
    for (uint32_t i = 0; i < moment->posted_count; i++) {
        struct spot_at from = moment->forwarded ? bars_spot(bars, at.desk, 0) : at;
        chart->arrow = chart_more(chart->arrow, chart->arrows, sizeof chart->arrow[0]);
        chart->arrow[chart->arrows++] = (struct arrow){.letter = moment->posted[i], .forward = moment->forwarded,
                                                       .posted = moment->number, .from = from,
                                                       .to = {moment->posted[i].desk, 0, 0}};
    }
}

static char *kept(struct text *text)
{
    char *bytes = text->bytes;
    *text = (struct text){NULL, 0, 0};
    return bytes;
}

/* The words of a row. */
static void write_row(const struct chart *chart, const struct moment *moment, struct row *row)
{
    struct text text = {NULL, 0, 0};
    const struct teller teller = {&text, chart->names};
    tell_step(&teller, moment);
    row->step = kept(&text);
    if (moment->answer == MORTARSEDGE_ACCEPTED)
        tell_outcome(&teller, moment);
    else
        tell_refusal(&teller, moment);
    row->outcome = kept(&text);
    if (moment->received.channel != 0) {
        put_channel(&text, chart->names, moment->received.channel);
        text_put(&text, ": ");
        tell_word(&teller, &moment->received.word);
        row->received = kept(&text);
    }
}

static void add_row(struct bars *bars, const struct moment *moment)
{
    struct chart *chart = bars->chart;
    struct row *row = &chart->row[moment->number];
    row->answer = moment->answer;
    row->over = went_over(moment);
    write_row(chart, moment, row);
    row->at = place_of(bars, moment);
    for (uint32_t t = 1; t <= chart->tasks; t++)
        bars_follow(bars, t, &moment->after->task[t], moment->number);
    if (moment->taken != NULL) {
        struct arrow *arrow = &chart->arrow[moment->tracked.id - 1];
        row->at = bars_spot(bars, moment->taken->desk, addressee(moment->before, moment->taken));
        arrow->delivered = moment->number;
        arrow->to = row->at;
    }
    add_arrows(bars, moment, row->at);
}

static void end_chart(struct chart *chart, const struct sim_rig *rig)
{
    for (uint32_t t = 1; t <= chart->tasks; t++)
        if (rig->task[t].over)
            chart->over |= sim_bit(t);
    chart->at_rest = sim_at_rest(rig);
}

int chart_make(struct witness *witness, struct chart *chart)
{
    static struct bars bars;
    struct moment moment;
    int status = witness_start(witness);
    memset(chart, 0, sizeof *chart);
    bars_start(&bars, chart);
    if (status != ACCEPTED)
        return status;
    chart->names = &witness->show->plan.names;
    chart->desks = witness->show->desks;
    chart->tasks = witness->watch.after.tasks;
    chart->steps = (uint32_t)(witness->show->steps.length / MORTARSEDGE_STEP_BYTES);
    chart->row = memory(NULL, (chart->steps + 2) * sizeof chart->row[0]);
    memset(chart->row, 0, (chart->steps + 2) * sizeof chart->row[0]);
    bars_follow(&bars, 1, &witness->watch.after.task[1], 0);
    while (witness_next(witness, &moment))
        add_row(&bars, &moment);
    bars_end(&bars);
    end_chart(chart, &witness->watch.after);
    return witness_end(witness);
}

void chart_free(struct chart *chart)
{
    for (uint32_t i = 1; chart->row != NULL && i <= chart->steps; i++) {
        free(chart->row[i].step);
        free(chart->row[i].outcome);
        free(chart->row[i].received);
    }
    free(chart->row);
    free(chart->stay);
    free(chart->phase);
    free(chart->arrow);
    memset(chart, 0, sizeof *chart);
}

void chart_end_words(const struct chart *chart, struct text *to)
{
    const struct teller teller = {to, chart->names};
    uint32_t under_way = 0;
    for (uint32_t i = 0; i < chart->arrows; i++)
        under_way += chart->arrow[i].delivered == 0;
    if (chart->at_rest)
        text_put(to, "at rest");
    else
        text_put(to, "not at rest, %u letter%s under way", under_way, under_way == 1 ? "" : "s");
    if (chart->over != 0) {
        text_put(to, "; went over the top: ");
        tell_tasks(&teller, chart->over);
    }
}
