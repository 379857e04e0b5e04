#include "witness.h"

#include <string.h>

#include "why.h"

int witness_run(struct witness *witness, const struct show *show)
{
    const struct steps_input *steps = &show->steps;
    witness->show = show;
    witness->at = 0;
    witness->differs = false;
    witness->is_asked = false;
    uint64_t answer = mortarsedge_run(show->desks, show->plan.plan, show->plan.length, steps->steps, steps->length,
                                      witness->trace, sizeof witness->trace);
    uint32_t number = mortarsedge_number(answer);
    witness->filled = mortarsedge_filled(answer);
    if (number == MORTARSEDGE_BAD_STEP_FILE)
        return why_steps(&steps->file, steps->length);
    return number == MORTARSEDGE_ACCEPTED ? ACCEPTED : refuse(steps->file.name, number);
}

/* The library's word holds; the simulator's is wrong. */
static int differ(struct witness *witness, uint32_t step)
{
    struct text where = {NULL, 0, 0};
    witness->differs = true;
    if (step != 0)
        text_put(&where, "at step %u", step);
    else
        text_put(&where, "behind the steps");
    int status = fail(witness->show->steps.file.name,
                      "%s the simulator does not agree with the proved trace: nothing is told of this run", where.bytes);
    text_free(&where);
    return status;
}

int witness_start(struct witness *witness)
{
    const struct show *show = witness->show;
    witness->at = 0;
    if (!witness->is_asked && !ask_all(show, witness->asked))
        return fail(show->steps.file.name, "the library does not answer a beginning of the steps");
    witness->is_asked = true;
    return watch_start(&witness->watch, show->desks, show->plan.plan, show->plan.length) ? ACCEPTED : differ(witness, 0);
}

/* The rig after a step, as far as the library tells of it. */
static bool agrees_after(const struct asked *asked, const struct sim_rig *rig)
{
    uint64_t over = 0;
    for (uint32_t t = 1; t <= rig->tasks; t++)
        if (rig->task[t].over)
            over |= sim_bit(t);
    return asked->letters == rig->letters && asked->at_rest == sim_at_rest(rig) && asked->over == over;
}

static bool agrees(const struct mortarsedge_line *line, const struct moment *moment)
{
    bool same = line->kind == MORTARSEDGE_LINE_STEP && line->step == moment->number && line->answer == moment->answer
        && line->channel == moment->received.channel;
    for (size_t i = 0; same && line->received && i < MORTARSEDGE_LEVELS; i++)
        same = line->level[i] == moment->received.word.level[i];
    return same;
}

bool witness_next(struct witness *witness, struct moment *moment)
{
    const struct steps_input *steps = &witness->show->steps;
    struct mortarsedge_line line;
    size_t next = MORTARSEDGE_STEP_BYTES * (size_t)witness->watch.steps;
    if (witness->differs || next == steps->length)
        return false;
    watch_step(&witness->watch, steps->steps + next, moment);
    witness->at += mortarsedge_take_line(witness->trace + witness->at, witness->filled - witness->at, &line);
    if (agrees(&line, moment) && agrees_after(&witness->asked[moment->number], moment->after))
        return true;
    differ(witness, moment->number);
    return false;
}

int witness_end(struct witness *witness)
{
    const struct watch *watch = &witness->watch;
    if (witness->differs)
        return FAILED;
    return agrees_after(&witness->asked[watch->steps], &watch->after) ? ACCEPTED : differ(witness, 0);
}

int witness_hold(struct witness *witness)
{
    struct moment moment;
    int status = witness_start(witness);
    while (status == ACCEPTED && witness_next(witness, &moment))
        continue;
    return status == ACCEPTED ? witness_end(witness) : status;
}
