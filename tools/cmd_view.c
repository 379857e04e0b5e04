/* view: what is shown of each task, after the steps or along them. */
#include <stdio.h>

#include "command.h"
#include "explain.h"
#include "view.h"

static struct show show;
static struct witness witness;

/* The views; refused steps are told on standard error, as by run. */
static int view(const struct call *call)
{
    struct view_style style = {(call->options & OPTION_TABLET) != 0, (call->options & OPTION_ALONG) != 0,
                               (call->options & OPTION_EXPLAIN) != 0};
    struct text refused = {NULL, 0, 0}, views = {NULL, 0, 0};
    int status = ACCEPTED;
    if ((call->options & OPTION_QUIET) == 0)
        status = explain_refused(&witness, &refused);
    else if (show.steps.place != NULL) /* letters of a text were found by the simulator */
        status = witness_hold(&witness);
    if (status == ACCEPTED)
        status = write_views(&witness, style, &views);
    if (status == ACCEPTED)
        status = file_write(call->output, views.bytes, views.length);
    if (status == ACCEPTED && refused.length > 0)
        fputs(refused.bytes, stderr);
    text_free(&views);
    text_free(&refused);
    return status;
}

int command_view(const struct call *call)
{
    int status = read_show(call, false, &show);
    if (status == ACCEPTED)
        status = witness_run(&witness, &show);
    if (status == ACCEPTED)
        status = view(call);
    show_free(&show);
    return status;
}
