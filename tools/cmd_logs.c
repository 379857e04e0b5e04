/* logs: a sender's log against a receiver's. */
#include <stdio.h>

#include "command.h"
#include "why.h"

static int hold(const struct file *sent, const struct file *received)
{
    struct text line = {NULL, 0, 0};
    uint64_t answer = mortarsedge_logs(sent->bytes, sent->length, received->bytes, received->length);
    uint32_t channel = mortarsedge_channel(answer);
    if (mortarsedge_number(answer) != MORTARSEDGE_ACCEPTED)
        return why_logs(sent, received, mortarsedge_number(answer));
    if (channel == 0)
        text_put(&line, "yes\n");
    else
        text_put(&line, "no %u\n", channel);
    int status = file_write("-", line.bytes, line.length);
    text_free(&line);
    return status == ACCEPTED && channel != 0 ? why_differ(sent, received, channel) : status;
}

int command_logs(const struct call *call)
{
    struct file sent = {NULL, NULL, 0}, received = {NULL, NULL, 0};
    int status = file_read(call->argument[0], &sent);
    if (status == ACCEPTED)
        status = file_read(call->argument[1], &received);
    if (status == ACCEPTED)
        status = hold(&sent, &received);
    file_free(&sent);
    file_free(&received);
    return status;
}
