#include "view.h"

#include <string.h>

struct live {
    const struct show *show;
    struct view_style style;
    struct text *to;
    uint32_t tasks;
    uint8_t rig[MORTARSEDGE_RIG_SIZE];
    uint8_t shown[MORTARSEDGE_MAX_TASKS + 1][MORTARSEDGE_DRIVER_VIEW]; /* by task: the view before */
};

static void put_levels(struct text *to, const uint32_t level[MORTARSEDGE_LEVELS])
{
    for (size_t i = 0; i < MORTARSEDGE_LEVELS; i++)
        text_put(to, " %u", level[i]);
}

/* A line of numbers: task, state, desk and place; of the driver's view the levels, how many children live, and which. */
static void put_numbers(const struct live *live, const struct mortarsedge_view *view)
{
    text_put(live->to, "%u %s %u %u", view->task, mortarsedge_state_text(view->state), view->desk, view->place);
    if (!live->style.tablet) {
        put_levels(live->to, view->level);
        text_put(live->to, " %u", view->living);
        for (uint32_t t = 1; t <= live->tasks; t++)
            if ((view->children >> (t - 1)) % 2 == 1)
                text_put(live->to, " %u", t);
    }
    text_put(live->to, "\n");
}

/* An instruction of a task in the notation of plans, from 1. */
static void put_code(const struct live *live, uint32_t task, uint32_t index)
{
    const uint8_t *plan = live->show->plan.plan;
    put_instruction(live->to, &live->show->plan.names, plan + u16(plan + 4 * task) + 4 * (index - 1));
}

static void explain_place(const struct live *live, const struct mortarsedge_view *view)
{
    uint32_t count = u16(live->show->plan.plan + 4 * view->task + 2);
    if (view->state == MORTARSEDGE_SENDING || view->state == MORTARSEDGE_RECEIVING) {
        text_put(live->to, " (");
        put_code(live, view->task, view->place - 1);
        text_put(live->to, ")");
    }
    if (view->state != MORTARSEDGE_MOVING)
        text_put(live->to, " at desk %u", view->desk);
    if (view->state != MORTARSEDGE_DONE) {
        text_put(live->to, ", next instruction %u of %u: ", view->place, count);
        put_code(live, view->task, view->place);
    }
}

static void explain_children(const struct live *live, const struct mortarsedge_view *view)
{
    const char *between = ": ";
    if (view->living == 0)
        text_put(live->to, "; no living children");
    else
        text_put(live->to, "; %u living child%s", view->living, view->living == 1 ? "" : "ren");
    for (uint32_t t = 1; t <= live->tasks; t++)
        if ((view->children >> (t - 1)) % 2 == 1) {
            text_put(live->to, "%s", between);
            put_task_name(live->to, &live->show->plan.names, t);
            between = ", ";
        }
}

/* "task 1 (console): sending (send cue) at desk 1, next instruction 4 of 5: sync; word 7 0 0 0; 1 living child: lamp". */
static void put_words(const struct live *live, const struct mortarsedge_view *view)
{
    if (live->style.along)
        text_put(live->to, "    ");
    put_task(live->to, &live->show->plan.names, view->task);
    text_put(live->to, ": %s", mortarsedge_state_text(view->state));
    if (view->state != MORTARSEDGE_UNBORN) {
        explain_place(live, view);
        if (!live->style.tablet) {
            text_put(live->to, "; word");
            put_levels(live->to, view->level);
            explain_children(live, view);
        }
    }
    text_put(live->to, "\n");
}

/* Asks the library; the status. */
static int look(const struct live *live, uint32_t task, uint8_t out[MORTARSEDGE_DRIVER_VIEW], struct mortarsedge_view *view)
{
    uint32_t answer;
    memset(out, 0, MORTARSEDGE_DRIVER_VIEW);
    if (live->style.tablet)
        answer = mortarsedge_tablet_view(live->rig, sizeof live->rig, task, out, MORTARSEDGE_DRIVER_VIEW);
    else
        answer = mortarsedge_driver_view(live->rig, sizeof live->rig, task, out, MORTARSEDGE_DRIVER_VIEW);
    mortarsedge_take_view(out, view);
    return answer == MORTARSEDGE_ACCEPTED ? ACCEPTED : refuse(live->show->plan.file.name, answer);
}

/* "start", "step 3", "step 15, refused by 11": a heading in words. */
static void put_heading(const struct live *live, uint32_t step, uint32_t answer)
{
    if (!live->style.along || !live->style.explained)
        return;
    if (step == 0)
        text_put(live->to, "start\n");
    else if (answer == MORTARSEDGE_ACCEPTED)
        text_put(live->to, "step %u\n", step);
    else
        text_put(live->to, "step %u, refused by %u\n", step, answer);
}

/* The views that differ from those before; all of them where they are asked for. Step 0 is the start. */
static int put_views(struct live *live, uint32_t step, bool all)
{
    uint8_t out[MORTARSEDGE_DRIVER_VIEW];
    struct mortarsedge_view view;
    int status = ACCEPTED;
    for (uint32_t t = 1; status == ACCEPTED && t <= live->tasks; t++) {
        status = look(live, t, out, &view);
        if (status != ACCEPTED || (!all && memcmp(out, live->shown[t], sizeof out) == 0))
            continue;
        memcpy(live->shown[t], out, sizeof out);
        if (live->style.along && !live->style.explained)
            text_put(live->to, "%u ", step);
        if (live->style.explained)
            put_words(live, &view);
        else
            put_numbers(live, &view);
    }
    return status;
}

/* Whether the live rig's answer and word are those of the trace's line. */
static bool agrees(const struct mortarsedge_line *line, uint32_t answer, const struct mortarsedge_word *word)
{
    bool same = line->answer == answer && line->channel == word->channel;
    for (size_t i = 0; i < MORTARSEDGE_LEVELS; i++)
        same = same && line->level[i] == word->level[i];
    return same;
}

/* One step of the rig; the status. */
static int make_step(struct live *live, const uint8_t *step, const struct mortarsedge_line *line)
{
    uint8_t record[MORTARSEDGE_LOG_RECORD];
    struct mortarsedge_word word;
    uint32_t answer = mortarsedge_step(live->rig, sizeof live->rig, step[0], step[1], u16(step + 2), record, sizeof record);
    mortarsedge_take_word(record, &word);
    if (agrees(line, answer, &word))
        return ACCEPTED;
    return fail(live->show->steps.file.name, "at step %u the live rig does not agree with the trace", line->step);
}

int write_views(const struct witness *witness, struct view_style style, struct text *to)
{
    static struct live live;
    const struct show *show = witness->show;
    live.show = show;
    live.style = style;
    live.to = to;
    live.tasks = u16(show->plan.plan);
    uint32_t number = mortarsedge_start(show->desks, show->plan.plan, show->plan.length, live.rig, sizeof live.rig);
    if (number != MORTARSEDGE_ACCEPTED)
        return refuse(show->plan.file.name, number);
    put_heading(&live, 0, MORTARSEDGE_ACCEPTED);
    int status = style.along ? put_views(&live, 0, true) : ACCEPTED;
    struct mortarsedge_line line;
    size_t at = 0;
    for (size_t i = 0; status == ACCEPTED && i < show->steps.length; i += MORTARSEDGE_STEP_BYTES) {
        at += mortarsedge_take_line(witness->trace + at, witness->filled - at, &line);
        status = make_step(&live, show->steps.steps + i, &line);
        put_heading(&live, line.step, line.answer);
        if (status == ACCEPTED && style.along)
            status = put_views(&live, line.step, false);
    }
    return status == ACCEPTED && !style.along ? put_views(&live, 0, true) : status;
}
