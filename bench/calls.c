/* calls FILE: holds the simulator's dispatchers to recorded calls of another model.
 *
 * A record: desks (1 byte), the lengths of plan, events and expected bytes (2 bytes each, little-endian),
 * then the three. An event is a step of 4 bytes, or a call: 255, 0 and the desk. Expected for each: the
 * call's answer, how many steps, and each of them with answer and received word; at the end rest, letters,
 * last choices and ready sets. */
#include <stdio.h>
#include <stdlib.h>
#include <string.h>

#include "sim_rig.h"

enum { HEADER = 7, EXPECTED = 65536 };

struct bytes {
    uint8_t byte[EXPECTED];
    size_t length;
};

static size_t number_at(const uint8_t *p)
{
    return (size_t)p[0] + 256 * (size_t)p[1];
}

static void put(struct bytes *b, uint64_t value, uint32_t count)
{
    for (uint32_t i = 0; i < count && b->length < EXPECTED; i++)
        b->byte[b->length++] = (uint8_t)(value >> 8 * i);
}

static void put_made(struct bytes *b, const struct sim_made *made)
{
    for (uint32_t i = 0; i < 4; i++)
        put(b, made->step[i], 1);
    put(b, made->answer, 1);
    put(b, made->received.channel, 1);
    for (uint32_t i = 0; i < LEVELS; i++)
        put(b, made->received.channel != 0 ? made->received.word.level[i] : 0, 2);
}

static uint32_t put_event(struct bytes *b, struct sim_rig *rig, const uint8_t *event)
{
    struct sim_made made[2];
    uint32_t count = 1, answer = 0, called = event[0] == 255;
    if (called) {
        answer = sim_call(rig, (uint32_t)number_at(event + 2), made, &count);
    } else {
        memcpy(made[0].step, event, 4);
        made[0].answer = sim_step(rig, event, &made[0].received);
    }
    put(b, answer, 1);
    put(b, count, 1);
    for (uint32_t i = 0; i < count; i++)
        put_made(b, &made[i]);
    return called;
}

static void put_end(struct bytes *b, const struct sim_rig *rig)
{
    put(b, sim_at_rest(rig), 1);
    put(b, rig->letters, 2);
    for (uint32_t d = 1; d <= MAX_DESKS; d++)
        put(b, rig->chosen[d], 1);
    for (uint32_t d = 1; d <= MAX_DESKS; d++)
        put(b, sim_ready(rig, d), 8);
}

int main(int argc, char **argv)
{
    static struct sim_rig rig;
    static struct bytes b;
    static uint8_t file[1 << 20];
    FILE *in = argc == 2 ? fopen(argv[1], "rb") : NULL;
    size_t place = 0, length = in != NULL ? fread(file, 1, sizeof file, in) : 0;
    unsigned records = 0, calls = 0;
    while (length - place >= HEADER) {
        const uint8_t *p = file + place;
        size_t plan = number_at(p + 1), events = number_at(p + 3), expected = number_at(p + 5);
        if (length - place - HEADER < plan + events + expected)
            break;
        b.length = 0;
        if (sim_start(&rig, p[0], p + HEADER, plan) == 0)
            for (size_t i = 0; i + 4 <= events; i += 4)
                calls += put_event(&b, &rig, p + HEADER + plan + i);
        put_end(&b, &rig);
        if (b.length != expected || memcmp(b.byte, p + HEADER + plan + events, expected) != 0) {
            fprintf(stderr, "calls: record %u differs\n", records + 1);
            return 1;
        }
        records++;
        place += HEADER + plan + events + expected;
    }
    if (records == 0 || place != length) {
        fprintf(stderr, "calls: no file of whole records\n");
        return 1;
    }
    printf("calls: %u records hold, with %u calls\n", records, calls);
    return 0;
}
