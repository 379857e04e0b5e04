/* dispatch: the steps that the dispatchers of the desks choose. */
#include <stdio.h>

#include "command.h"
#include "explain.h"

static struct show show;
static struct witness witness;

/* The steps as text. */
static int write_text(const struct call *call)
{
    struct text text = {NULL, 0, 0};
    int status = witness_run(&witness, &show);
    if (status == ACCEPTED)
        status = unsteps(&witness, false, &text);
    if (status == ACCEPTED)
        status = file_write(call->output, text.bytes, text.length);
    text_free(&text);
    return status;
}

static int choose(const struct call *call)
{
    static uint8_t steps[MORTARSEDGE_MAX_STEP_FILE];
    uint64_t answer = mortarsedge_choose(call->desks, show.plan.plan, show.plan.length, steps, sizeof steps);
    if (mortarsedge_number(answer) == MORTARSEDGE_OUTPUT_SHORT) {
        fprintf(stderr, "mortarsedge: %s on %u desks refused, %u: more than 2,000 steps are needed until the rig is at rest\n",
                show.plan.file.name, call->desks, MORTARSEDGE_OUTPUT_SHORT);
        return REFUSED;
    }
    if (mortarsedge_number(answer) != MORTARSEDGE_ACCEPTED)
        return refuse(show.plan.file.name, mortarsedge_number(answer));
    show.desks = call->desks;
    show.steps.file.name = "the steps chosen";
    show.steps.steps = steps;
    show.steps.length = mortarsedge_filled(answer);
    return (call->options & OPTION_TEXT) != 0 ? write_text(call) : file_write(call->output, steps, show.steps.length);
}

int command_dispatch(const struct call *call)
{
    int status = plan_read(call->argument[1], (call->options & OPTION_BYTES) != 0, &show.plan);
    if (status == ACCEPTED)
        status = plan_check(&show.plan, call->desks);
    if (status == ACCEPTED)
        status = choose(call);
    plan_free(&show.plan);
    return status;
}
