#include "sim_logs.h"

#include <stdbool.h>
#include <string.h>

enum { RECORD = 10, MOST_RECORDS = 4096, CHANNELS = 128 };

static uint32_t channel_of(const uint8_t *record)
{
    return record[0] + 256u * record[1];
}

static bool length_ok(size_t length)
{
    return length % RECORD == 0 && length / RECORD <= MOST_RECORDS;
}

static bool channels_ok(const uint8_t *log, size_t length)
{
    for (size_t at = 0; at < length; at += RECORD)
        if (channel_of(log + at) < 1 || channel_of(log + at) > CHANNELS)
            return false;
    return true;
}

/* The next record of a channel from a place on; the length if there is none. */
static size_t next_of(const uint8_t *log, size_t length, size_t at, uint32_t channel)
{
    while (at < length && channel_of(log + at) != channel)
        at += RECORD;
    return at;
}

/* One channel: each received word is the sent word at its place. */
static bool agrees(const uint8_t *sent, size_t sent_length, const uint8_t *received, size_t received_length,
                   uint32_t channel)
{
    size_t s = 0;
    for (size_t r = next_of(received, received_length, 0, channel); r < received_length;
         r = next_of(received, received_length, r + RECORD, channel)) {
        s = next_of(sent, sent_length, s, channel);
        if (s >= sent_length || memcmp(sent + s, received + r, RECORD) != 0)
            return false;
        s += RECORD;
    }
    return true;
}

uint64_t sim_logs(const uint8_t *sent, size_t sent_length, const uint8_t *received, size_t received_length)
{
    if (!length_ok(sent_length) || !length_ok(received_length))
        return 24;
    if (!channels_ok(sent, sent_length) || !channels_ok(received, received_length))
        return 25;
    for (uint32_t c = 1; c <= CHANNELS; c++)
        if (!agrees(sent, sent_length, received, received_length, c))
            return 256 * (uint64_t)c;
    return 0;
}
