#include "tally.h"

#include <inttypes.h>
#include <stdio.h>

#include "../include/mortarsedge.h"
#include "sim_rig.h"

static const unsigned run_answers[] = {0, 1, 2, 3, 4, 5, 6, 8};
/* 17 is answered no more; 18 needs 9,999 moves, more than a step file has. */
static const unsigned step_answers[] = {0, 10, 11, 12, 13, 14, 15, 16, 19};

enum {
    RUN_ANSWERS = sizeof run_answers / sizeof run_answers[0],
    STEP_ANSWERS = sizeof step_answers / sizeof step_answers[0]
};

/* The same run in the simulator: the longest mail, and the rig then. */
static uint32_t longest_mail(const struct generated *g, struct sim_rig *rig)
{
    struct sim_received received;
    uint32_t longest = 0;
    sim_start(rig, g->desks, g->plan, g->plan_length);
    for (size_t i = 0; i + 4 <= g->steps_length; i += 4) {
        sim_step(rig, g->steps + i, &received);
        if (rig->letters > longest)
            longest = rig->letters;
    }
    return longest;
}

/* Whether every task that was born is done. */
static bool has_finished(const struct sim_rig *rig)
{
    for (uint32_t t = 1; t <= rig->tasks; t++)
        if (rig->task[t].state != UNBORN && rig->task[t].state != DONE)
            return false;
    return true;
}

/* What a trace tells with the plan and the steps beside it. */
struct count {
    uint32_t runs;       /* accepted runs, */
    uint32_t first_runs; /* and those of task 1 */
};

static void tally_step(struct tally *t, const uint8_t *step, const struct mortarsedge_line *line, struct count *count)
{
    t->steps[line->answer]++;
    t->words += line->received;
    if (line->answer != MORTARSEDGE_ACCEPTED)
        return;
    t->moves += step[0] == MORTARSEDGE_STEP_MOVE;
    count->runs += step[0] == MORTARSEDGE_STEP_RUN;
    count->first_runs += step[0] == MORTARSEDGE_STEP_RUN && step[1] == 1;
}

/* The show has finished when task 1 has executed all its instructions, and then
 * all tasks have: docs/FORMATS.md says why. */
static bool tally_finish(struct tally *t, const struct generated *g, const struct sim_rig *rig, const struct count *count)
{
    bool finished = has_finished(rig);
    t->finished += finished;
    return (count->runs == sim_u16(g->plan + 2)) == finished && (count->first_runs == sim_u16(g->plan + 6)) == finished;
}

/* The lines of a trace, taken one behind the other. */
struct lines {
    const uint8_t *text;
    size_t left;
    struct mortarsedge_line line;
};

static enum mortarsedge_line_kind next_line(struct lines *l)
{
    size_t taken = mortarsedge_take_line(l->text, l->left, &l->line);
    l->text += taken;
    l->left -= taken;
    return l->line.kind;
}

/* The lines behind those of the steps: marked tasks by rising number, and the last line. */
static bool tally_rest(struct tally *t, struct lines *l)
{
    uint32_t task = 0;
    while (next_line(l) == MORTARSEDGE_LINE_OVER) {
        if (l->line.task <= task)
            return false;
        task = l->line.task;
        t->over++;
    }
    t->at_rest += l->line.at_rest;
    return l->line.kind == MORTARSEDGE_LINE_END && l->left == 0;
}

bool tally_trace(struct tally *t, const struct generated *g, const uint8_t *trace, size_t length)
{
    static struct sim_rig rig;
    struct lines lines = {.text = trace, .left = length};
    struct count count = {0, 0};
    for (uint32_t step = 1; step <= g->steps_length / 4; step++) {
        if (next_line(&lines) != MORTARSEDGE_LINE_STEP || lines.line.step != step)
            return false;
        tally_step(t, g->steps + 4 * (step - 1), &lines.line, &count);
    }
    uint32_t mail = longest_mail(g, &rig);
    if (mail > t->longest_mail)
        t->longest_mail = mail;
    return tally_rest(t, &lines) && tally_finish(t, g, &rig, &count);
}

void tally_print(const struct tally *t)
{
    printf("runs %" PRIu64 "\nanswers of runs:", t->runs);
    for (unsigned i = 0; i < RUN_ANSWERS; i++)
        printf(" %u: %" PRIu64, run_answers[i], t->answers[run_answers[i]]);
    printf("\nanswers of all %" PRIu64 " calls, short outputs too: 20: %" PRIu64, t->calls, t->short_outputs);
    printf("\nanswers of steps:");
    for (unsigned i = 0; i < STEP_ANSWERS; i++)
        printf(" %u: %" PRIu64, step_answers[i], t->steps[step_answers[i]]);
    printf("\nwords received %" PRIu64 ", moves accepted %" PRIu64 ", tasks over the top %" PRIu64 ", runs at rest %" PRIu64
           ", finished %" PRIu64 ", longest mail %" PRIu32 "\n", t->words, t->moves, t->over, t->at_rest, t->finished,
           t->longest_mail);
}

bool tally_is_full(const struct tally *t)
{
    bool full = t->short_outputs > 0 && t->words > 0 && t->moves > 0 && t->over > 0 && t->at_rest > 0 && t->finished > 0
        && t->longest_mail == MAX_MAIL;
    for (unsigned i = 0; i < RUN_ANSWERS; i++)
        full = full && t->answers[run_answers[i]] > 0;
    for (unsigned i = 0; i < STEP_ANSWERS; i++)
        full = full && t->steps[step_answers[i]] > 0;
    return full;
}
