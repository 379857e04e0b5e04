/* check, convert, finish, plan and unplan: one plan. */
#include <stdio.h>
#include <string.h>

#include "command.h"
#include "unplan.h"
#include "why.h"

static struct plan_input input;

static int read_plan(const struct call *call, const char *name)
{
    return plan_read(name, (call->options & OPTION_BYTES) != 0, &input);
}

static int done(int status)
{
    plan_free(&input);
    return status;
}

int command_check(const struct call *call)
{
    int status = read_plan(call, call->argument[1]);
    if (status == ACCEPTED)
        status = plan_check(&input, call->desks);
    if (status == ACCEPTED)
        status = file_write("-", "accepted\n", strlen("accepted\n"));
    return done(status);
}

int command_convert(const struct call *call)
{
    int status = plan_read(call->argument[0], true, &input);
    if (status == ACCEPTED)
        status = plan_convert(&input);
    if (status == ACCEPTED)
        status = file_write(call->output, input.plan, input.length);
    return done(status);
}

int command_plan(const struct call *call)
{
    int status = plan_read(call->argument[0], false, &input);
    if (status == ACCEPTED && input.file.length == 0)
        status = fail_at(input.file.name, (struct place){1, 1}, "the text has no task");
    else if (status == ACCEPTED && input.source == NULL)
        status = fail(input.file.name, "it has a zero byte, so that it is no text");
    if (status == ACCEPTED)
        status = plan_convert(&input);
    if (status == ACCEPTED && (call->options & OPTION_REPEATS) != 0)
        status = file_write(call->output, input.given, input.given_length);
    else if (status == ACCEPTED)
        status = file_write(call->output, input.plan, input.length);
    return done(status);
}

int command_unplan(const struct call *call)
{
    struct text text = {NULL, 0, 0};
    int status = plan_read(call->argument[0], true, &input);
    if (status == ACCEPTED)
        status = plan_convert(&input);
    if (status == ACCEPTED) {
        unplan(input.given, &input.names, &text);
        status = file_write(call->output, text.bytes, text.length);
    }
    text_free(&text);
    return done(status);
}

/* The library's text in words. Its lines have two fields each; the first is read apart. */
static void tell_finish(const char *answer, struct text *to)
{
    bool yes = answer[0] == 'y';
    unsigned steps = 0, task, other;
    sscanf(answer, "%*s %u", &steps);
    if (yes) {
        text_put(to, "yes: however it is run, at rest every task that was born is done, after %u instructions\n", steps);
        return;
    }
    text_put(to, "no: the rig comes to rest after %u instructions, and then\n", steps);
    for (const char *line = strchr(answer, '\n'); line != NULL && sscanf(line, "%u %u", &task, &other) == 2;
         line = strchr(line + 1, '\n')) {
        text_put(to, "    ");
        put_task(to, &input.names, task);
        text_put(to, " is not done: it depends on ");
        put_task(to, &input.names, other);
        text_put(to, "\n");
    }
}

/* Yes is status 0, no is 1. */
static int finish(const struct call *call)
{
    char out[MORTARSEDGE_FINISH_ENOUGH + 1];
    struct text words = {NULL, 0, 0};
    uint64_t answer = mortarsedge_finish(input.plan, input.length, (uint8_t *)out, MORTARSEDGE_FINISH_ENOUGH);
    if (mortarsedge_number(answer) != MORTARSEDGE_ACCEPTED)
        return why_plan(&input, mortarsedge_number(answer));
    out[mortarsedge_filled(answer)] = '\0';
    if ((call->options & OPTION_EXPLAIN) != 0)
        tell_finish(out, &words);
    else
        text_put(&words, "%s", out);
    int status = file_write(call->output, words.bytes, words.length);
    text_free(&words);
    return status == ACCEPTED && out[0] != 'y' ? REFUSED : status;
}

int command_finish(const struct call *call)
{
    int status = read_plan(call, call->argument[0]);
    return done(status == ACCEPTED ? finish(call) : status);
}
