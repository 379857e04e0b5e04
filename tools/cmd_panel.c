/* panel: what can be pressed now, after the steps. */
#include "command.h"
#include "witness.h"

static struct show show;

/* A line for each answer that some step would get. */
static void put_counts(const uint32_t *counts, bool explained, struct text *to)
{
    for (uint32_t answer = 0; answer < MORTARSEDGE_PANEL_COUNTS; answer++) {
        if (counts[answer] == 0)
            continue;
        if (!explained)
            text_put(to, "%u %u\n", answer, counts[answer]);
        else if (answer == MORTARSEDGE_ACCEPTED)
            text_put(to, "%5u accepted\n", counts[answer]);
        else
            text_put(to, "%5u refused, %u: %s\n", counts[answer], answer, mortarsedge_refusal_text(answer));
    }
}

static int write_panel(const struct call *call)
{
    uint32_t counts[MORTARSEDGE_PANEL_COUNTS];
    struct text lines = {NULL, 0, 0};
    uint32_t number = mortarsedge_panel_after(show.desks, show.plan.plan, show.plan.length, show.steps.steps,
                                              show.steps.length, counts, MORTARSEDGE_PANEL_COUNTS);
    if (number != MORTARSEDGE_ACCEPTED)
        return refuse(show.steps.file.name, number);
    put_counts(counts, (call->options & OPTION_EXPLAIN) != 0, &lines);
    int status = file_write(call->output, lines.bytes, lines.length);
    text_free(&lines);
    return status;
}

int command_panel(const struct call *call)
{
    static struct witness witness;
    int status = read_show(call, false, &show);
    if (status == ACCEPTED)
        status = witness_run(&witness, &show);
    if (status == ACCEPTED && show.steps.place != NULL) /* letters of a text were found by the simulator */
        status = witness_hold(&witness);
    if (status == ACCEPTED)
        status = write_panel(call);
    show_free(&show);
    return status;
}
