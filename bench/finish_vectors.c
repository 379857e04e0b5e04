/* finish_vectors FILE: holds the finish check in C to recorded answers of another model.
 *
 * A record: when it holds (1 byte), the plan's length (2), the refusal or 0 (1), the verdict (1), the
 * accepted run steps (2), the length of the list in pairs (1), then the plan and the list: a task and
 * the task it depends on, 1 byte each. Numbers are little-endian. Each record is asked with every
 * length of the output up to one more than the text has. Exits with 1 at a difference. */
#include <stdio.h>
#include <stdlib.h>
#include <string.h>

#include "sim_finish.h"

/* Of when: only channels with one end, or only words of one level. Such a record holds no more. */
enum { HEADER = 8, GIVEN_UP = 1 + 4, ROOM = SIM_FINISH_ENOUGH + 1, FILE_ROOM = 1 << 20 };

struct record {
    const uint8_t *plan;
    size_t plan_length;
    uint32_t refusal, verdict, steps;
    size_t pairs;
    const uint8_t *list;
};

static unsigned held, asked, given_up, refused, yes, stuck;

static void differs(const char *what, unsigned record)
{
    fprintf(stderr, "finish_vectors: record %u: %s differs\n", record, what);
    exit(1);
}

static uint32_t number_at(const uint8_t *p)
{
    return (uint32_t)p[0] + 256 * (uint32_t)p[1];
}

/* Takes the record of so many bytes or more apart; returns how many it has, 0 if it does not end there. */
static size_t take_record(const uint8_t *p, size_t length, struct record *r)
{
    if (length < HEADER)
        return 0;
    r->plan = p + HEADER;
    r->plan_length = number_at(p + 1);
    r->refusal = p[3];
    r->verdict = p[4];
    r->steps = number_at(p + 5);
    r->pairs = p[7];
    r->list = r->plan + r->plan_length;
    size_t whole = HEADER + r->plan_length + 2 * r->pairs;
    return length < whole ? 0 : whole;
}

/* The text that the record stands for; returns its length, 0 for a refused plan. */
static size_t text_of(const struct record *r, char *text, size_t room)
{
    if (r->refusal != 0)
        return 0;
    size_t at = (size_t)snprintf(text, room, "%s %u\n", r->verdict == 1 ? "yes" : "no", (unsigned)r->steps);
    for (size_t i = 0; i < r->pairs && at < room; i++)
        at += (size_t)snprintf(text + at, room - at, "%u %u\n", (unsigned)r->list[2 * i], (unsigned)r->list[2 * i + 1]);
    return at;
}

/* How many bytes of a text are whole lines within so many. */
static size_t lines_within(const char *text, size_t length, size_t within)
{
    size_t lines = 0;
    for (size_t i = 0; i < length && i < within; i++)
        if (text[i] == '\n')
            lines = i + 1;
    return lines;
}

/* One call with so long an output: number, filled bytes, lines, and the bytes behind them. */
static void ask(const struct record *r, unsigned index, const char *text, size_t length, size_t lent)
{
    uint8_t out[ROOM + 1], untouched[ROOM + 1];
    size_t filled = lines_within(text, length, lent);
    uint64_t number = r->refusal != 0 ? r->refusal : lent < length ? 20 : 0;
    memset(out, 0xa5, sizeof out);
    memset(untouched, 0xa5, sizeof untouched);
    uint64_t answer = sim_finish(r->plan, r->plan_length, out, lent);
    if (answer % 256 != number)
        differs("the number", index);
    if (answer / 256 != filled)
        differs("the length", index);
    if (memcmp(out, text, filled) != 0)
        differs("the text", index);
    if (memcmp(out + filled, untouched, sizeof out - filled) != 0)
        differs("a byte behind the last line", index);
    asked++;
}

/* The whole output first, then every shorter one. */
static void hold(const struct record *r, unsigned index)
{
    char text[ROOM] = "";
    size_t length = text_of(r, text, sizeof text);
    if (length >= ROOM || (r->verdict == 1) != (r->refusal == 0 && r->pairs == 0))
        differs("what is recorded", index);
    for (size_t lent = length + 2; lent > 0; lent--)
        ask(r, index, text, length, lent - 1);
    held++;
    refused += r->refusal != 0;
    yes += r->verdict == 1;
    stuck += (unsigned)r->pairs;
}

int main(int argc, char **argv)
{
    static uint8_t file[FILE_ROOM];
    if (argc != 2) {
        fprintf(stderr, "usage: finish_vectors FILE\n");
        return 2;
    }
    FILE *from = fopen(argv[1], "rb");
    size_t size = from == NULL ? 0 : fread(file, 1, sizeof file, from);
    if (from == NULL || fclose(from) != 0 || size == 0 || size == sizeof file) {
        fprintf(stderr, "finish_vectors: %s cannot be read\n", argv[1]);
        return 1;
    }
    struct record r;
    for (size_t at = 0, taken; at < size; at += taken) {
        taken = take_record(file + at, size - at, &r);
        if (taken == 0)
            differs("the end of the file", held + given_up + 1);
        if ((file[at] & GIVEN_UP) != 0)
            given_up++;
        else
            hold(&r, held + given_up + 1);
    }
    printf("finish_vectors: %u records hold, %u given up; refused %u, yes %u, no %u with %u tasks; %u calls\n", held,
           given_up, refused, yes, held - refused - yes, stuck, asked);
    return held == 0;
}
