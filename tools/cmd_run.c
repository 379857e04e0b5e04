/* run, steps and unsteps: a plan and its steps. */
#include <stdio.h>

#include "command.h"
#include "explain.h"

static struct show show;
static struct witness witness;

int read_show(const struct call *call, bool steps_bytes, struct show *to)
{
    bool bytes = (call->options & OPTION_BYTES) != 0;
    struct show_names names = {call->argument[1], call->argument[2], bytes, bytes || steps_bytes};
    return show_read(call->desks, &names, to);
}

static int read_and_run(const struct call *call, bool steps_bytes)
{
    int status = read_show(call, steps_bytes, &show);
    return status == ACCEPTED ? witness_run(&witness, &show) : status;
}

/* The trace; refused steps are told on standard error. Steps of a text name letters, which the simulator has found: then
 * it is held to the trace too where nothing is told. */
static int write_trace(const struct call *call)
{
    struct text refused = {NULL, 0, 0};
    int status = ACCEPTED;
    if ((call->options & OPTION_QUIET) == 0)
        status = explain_refused(&witness, &refused);
    else if (show.steps.place != NULL)
        status = witness_hold(&witness);
    if (status == ACCEPTED)
        status = file_write(call->output, witness.trace, witness.filled);
    if (status == ACCEPTED && refused.length > 0)
        fputs(refused.bytes, stderr);
    text_free(&refused);
    return status;
}

int command_run(const struct call *call)
{
    struct text words = {NULL, 0, 0};
    int status = read_and_run(call, false);
    if (status == ACCEPTED && (call->options & OPTION_EXPLAIN) != 0) {
        status = explain_run(&witness, &words);
        if (status == ACCEPTED)
            status = file_write(call->output, words.bytes, words.length);
    } else if (status == ACCEPTED) {
        status = write_trace(call);
    }
    text_free(&words);
    show_free(&show);
    return status;
}

int command_steps(const struct call *call)
{
    int status = read_and_run(call, false);
    if (status == ACCEPTED && show.steps.file.length > 0 && show.steps.place == NULL && show.steps.length > 0)
        status = fail(show.steps.file.name, "it has a zero byte, so that it is no text");
    if (status == ACCEPTED)
        status = witness_hold(&witness);
    if (status == ACCEPTED)
        status = file_write(call->output, show.steps.steps, show.steps.length);
    show_free(&show);
    return status;
}

int command_unsteps(const struct call *call)
{
    struct text text = {NULL, 0, 0};
    int status = read_and_run(call, true);
    if (status == ACCEPTED)
        status = unsteps(&witness, (call->options & OPTION_POSITIONS) != 0, &text);
    if (status == ACCEPTED)
        status = file_write(call->output, text.bytes, text.length);
    text_free(&text);
    show_free(&show);
    return status;
}
