/* What is wrong with two logs, and where they differ. */
#include <stdio.h>
#include <string.h>

#include "why.h"

static void tell_length(const struct file *log)
{
    if (log->length % MORTARSEDGE_LOG_RECORD != 0)
        fprintf(stderr, "%s: byte %zu: the file has %zu bytes: behind the last whole record there are %zu\n", log->name,
                log->length - log->length % MORTARSEDGE_LOG_RECORD, log->length, log->length % MORTARSEDGE_LOG_RECORD);
    else if (log->length > MORTARSEDGE_MAX_LOG)
        fprintf(stderr, "%s: it has %zu records\n", log->name, log->length / MORTARSEDGE_LOG_RECORD);
}

static void tell_channels(const struct file *log)
{
    for (size_t at = 0; at + MORTARSEDGE_LOG_RECORD <= log->length; at += MORTARSEDGE_LOG_RECORD)
        if (u16(log->bytes + at) < 1 || u16(log->bytes + at) > MORTARSEDGE_MAX_CHANNELS) {
            fprintf(stderr, "%s: byte %zu: record %zu has channel %u\n", log->name, at, at / MORTARSEDGE_LOG_RECORD + 1,
                    u16(log->bytes + at));
            return;
        }
}

int why_logs(const struct file *sent, const struct file *received, uint32_t number)
{
    void (*tell)(const struct file *) = number == MORTARSEDGE_BAD_LOG_LENGTH ? tell_length : tell_channels;
    int status = refuse("the two logs", number);
    tell(sent);
    tell(received);
    return status;
}

/* The record of the next word on a channel from a place on; NULL at the end. */
static const uint8_t *next_word(const struct file *log, size_t *at, uint32_t channel)
{
    for (; *at + MORTARSEDGE_LOG_RECORD <= log->length; *at += MORTARSEDGE_LOG_RECORD)
        if (u16(log->bytes + *at) == channel) {
            const uint8_t *record = log->bytes + *at;
            *at += MORTARSEDGE_LOG_RECORD;
            return record;
        }
    return NULL;
}

static void tell_word(const struct file *log, const uint8_t *record)
{
    fprintf(stderr, "%s: record %zu: %u %u %u %u\n", log->name,
            (size_t)(record - log->bytes) / MORTARSEDGE_LOG_RECORD + 1, u16(record + 2), u16(record + 4), u16(record + 6),
            u16(record + 8));
}

int why_differ(const struct file *sent, const struct file *received, uint32_t channel)
{
    size_t in_sent = 0, in_received = 0;
    for (uint32_t word = 1;; word++) {
        const uint8_t *left = next_word(sent, &in_sent, channel);
        const uint8_t *got = next_word(received, &in_received, channel);
        if (got == NULL)
            return REFUSED;
        if (left != NULL && memcmp(left, got, MORTARSEDGE_LOG_RECORD) == 0)
            continue;
        fprintf(stderr, "channel %u differs in word %u:\n", channel, word);
        if (left == NULL)
            fprintf(stderr, "%s: it has %u words on this channel\n", sent->name, word - 1);
        else
            tell_word(sent, left);
        tell_word(received, got);
        return REFUSED;
    }
}
