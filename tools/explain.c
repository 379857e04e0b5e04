#include "explain.h"

#include "tell.h"

static void explain_start(const struct witness *witness, struct text *to)
{
    const struct sim_rig *rig = &witness->watch.after;
    text_put(to, "start: %u desk%s, %u task%s; ", rig->desks, rig->desks == 1 ? "" : "s", rig->tasks,
             rig->tasks == 1 ? "" : "s");
    put_task(to, &witness->show->plan.names, 1);
    text_put(to, " is ready at desk 1\n");
}

/* The letters under way, a line each, those that were forwarded told so. */
static void explain_mail(const struct witness *witness, struct text *to)
{
    const struct sim_rig *rig = &witness->watch.after;
    if (rig->letters == 0)
        text_put(to, "    mail: empty\n");
    for (uint32_t i = 0; i < rig->letters; i++) {
        uint32_t forwards = witness->watch.mail[i].forwards;
        text_put(to, i == 0 ? "    mail: %u " : "          %u ", i + 1);
        put_letter(to, &witness->show->plan.names, &rig->mail[i]);
        if (forwards > 0)
            text_put(to, ", forwarded %u time%s", forwards, forwards == 1 ? "" : "s");
        text_put(to, "\n");
    }
}

static void explain_step(const struct witness *witness, const struct moment *moment, struct text *to)
{
    const struct teller teller = {to, &witness->show->plan.names};
    text_put(to, "\n%u ", moment->number);
    tell_step(&teller, moment);
    if (moment->step[0] == MORTARSEDGE_STEP_DELIVER && moment->taken != NULL) {
        text_put(to, ", position %u: ", sim_u16(moment->step + 2));
        put_letter(to, teller.names, moment->taken);
    }
    text_put(to, "\n    ");
    if (moment->answer != MORTARSEDGE_ACCEPTED) {
        tell_refusal(&teller, moment);
        text_put(to, "\n");
        return;
    }
    tell_outcome(&teller, moment);
    text_put(to, "\n");
    if (moment->received.channel != 0) {
        text_put(to, "    received on ");
        put_channel(to, teller.names, moment->received.channel);
        text_put(to, ": ");
        tell_word(&teller, &moment->received.word);
        text_put(to, "\n");
    }
    explain_mail(witness, to);
    tell_kept(&teller, moment->after, "    kept: ");
}

static void explain_end(const struct witness *witness, struct text *to)
{
    const struct sim_rig *rig = &witness->watch.after;
    const struct teller teller = {to, &witness->show->plan.names};
    text_put(to, "\nend: ");
    if (sim_at_rest(rig))
        text_put(to, "at rest\n");
    else
        text_put(to, "not at rest, %u letter%s in the mail\n", rig->letters, rig->letters == 1 ? "" : "s");
    for (uint32_t t = 1; t <= rig->tasks; t++) {
        text_put(to, "    ");
        put_task(to, teller.names, t);
        text_put(to, ": ");
        tell_state(&teller, rig, t);
        if (rig->task[t].state != UNBORN) {
            text_put(to, ", word ");
            tell_word(&teller, &rig->task[t].word);
        }
        text_put(to, rig->task[t].over ? ", went over the top\n" : "\n");
    }
}

int explain_run(struct witness *witness, struct text *to)
{
    struct moment moment;
    int status = witness_start(witness);
    if (status != ACCEPTED)
        return status;
    explain_start(witness, to);
    while (witness_next(witness, &moment))
        explain_step(witness, &moment, to);
    explain_end(witness, to);
    return witness_end(witness);
}

int explain_refused(struct witness *witness, struct text *to)
{
    const struct teller teller = {to, &witness->show->plan.names};
    struct moment moment;
    int status = witness_start(witness);
    while (status == ACCEPTED && witness_next(witness, &moment))
        if (moment.answer != MORTARSEDGE_ACCEPTED) {
            put_step_place(to, &witness->show->steps, moment.number);
            text_put(to, "step %u, ", moment.number);
            tell_step(&teller, &moment);
            text_put(to, ": ");
            tell_refusal(&teller, &moment);
            text_put(to, "\n");
        }
    return status == ACCEPTED ? witness_end(witness) : status;
}

/* One step in the notation of steps; beside it what it is. */
static void unstep(const struct teller *teller, const struct moment *moment, bool positions)
{
    const uint8_t *step = moment->step;
    uint32_t number = sim_u16(step + 2);
    if (moment->answer == MORTARSEDGE_BAD_STEP) {
        text_put(teller->to, "step %u %u %u", step[0], step[1], number);
    } else if (step[0] == MORTARSEDGE_STEP_RUN) {
        text_put(teller->to, "run ");
        put_task_name(teller->to, teller->names, step[1]);
    } else if (step[0] == MORTARSEDGE_STEP_DELIVER && positions) {
        text_put(teller->to, "deliver %u", number);
    } else {
        tell_step(teller, moment);
    }
    text_pad(teller->to, 31);
    text_put(teller->to, "# %u", moment->number);
    if (moment->answer != MORTARSEDGE_ACCEPTED)
        text_put(teller->to, ", refused %u", moment->answer);
    else if (step[0] == MORTARSEDGE_STEP_DELIVER)
        text_put(teller->to, ", position %u", number);
    text_put(teller->to, "\n");
}

int unsteps(struct witness *witness, bool positions, struct text *to)
{
    const struct teller teller = {to, &witness->show->plan.names};
    struct moment moment;
    int status = witness_start(witness);
    text_put(to, "# %zu steps on %u desk%s\n", witness->show->steps.length / MORTARSEDGE_STEP_BYTES, witness->show->desks,
             witness->show->desks == 1 ? "" : "s");
    while (status == ACCEPTED && witness_next(witness, &moment))
        unstep(&teller, &moment, positions);
    return status == ACCEPTED ? witness_end(witness) : status;
}
