/* logs VECTORS SEED COUNT: the library's check of two logs, over recorded pairs and over the logs of
 * generated runs, whole and damaged.
 *
 * The logs of a run are written by the simulator, which knows its mail: a word leaves where a run
 * step receives one, and where a delivered call puts a word letter at the mail's end. After every
 * step the library has to say yes. Damaged logs are compared with a check in C that was written
 * from the paper (sim_logs.c). Of short runs the example driver's logs (driver/logs.c), which asks
 * the library and not the simulator, have to be the same bytes. Exits with 1 at a difference. */
#include <stdio.h>
#include <stdlib.h>
#include <string.h>

#include "../driver/logs.h"
#include "generate.h"
#include "random.h"
#include "sim_logs.h"
#include "sim_rig.h"

enum { RECORD = MORTARSEDGE_LOG_RECORD, ROOM = MORTARSEDGE_MAX_LOG + 4 * RECORD, SHORT = 120, DAMAGES = 12 };

struct bytes {
    size_t length;
    uint8_t at[ROOM];
};

static struct bytes sent, received;
static struct sim_rig rig;
static uint64_t runs, words, prefixes, asked, damaged, answers[4]; /* yes, no, 24, 25 */

static void differs(const char *what, uint64_t index)
{
    fprintf(stderr, "logs: %s, %llu\n", what, (unsigned long long)index);
    exit(1);
}

static void put(struct bytes *log, uint32_t channel, const struct sim_word *word)
{
    mortarsedge_put_log_record(log->at + log->length, (uint16_t)channel, word->level);
    log->length += RECORD;
}

static void step(const uint8_t *bytes)
{
    struct sim_received got;
    uint32_t number = bytes[2] + 256u * bytes[3];
    bool call = bytes[0] == 2 && number >= 1 && number <= rig.letters && rig.mail[number - 1].kind == CALL;
    uint32_t answer = sim_step(&rig, bytes, &got);
    if (answer == 0 && call && rig.letters > 0 && rig.mail[rig.letters - 1].kind == WORD)
        put(&sent, rig.mail[rig.letters - 1].subject, &rig.mail[rig.letters - 1].word);
    if (got.channel != 0 && bytes[0] == 1)
        put(&sent, got.channel, &got.word);
    if (got.channel != 0)
        put(&received, got.channel, &got.word);
}

static uint64_t held(const struct bytes *s, const struct bytes *r)
{
    return mortarsedge_logs(s->at, s->length, r->at, r->length);
}

/* One of two logs with records left out, exchanged, changed, doubled or cut. */
static void damage(struct random *r, struct bytes *log)
{
    uint32_t records = (uint32_t)(log->length / RECORD);
    size_t a = RECORD * (size_t)random_below(r, records), b = RECORD * (size_t)random_below(r, records);
    uint8_t record[RECORD];
    switch (records == 0 ? 5 : random_below(r, 7)) {
    case 0: /* left out */
        memmove(log->at + a, log->at + a + RECORD, log->length - a - RECORD);
        log->length -= RECORD;
        break;
    case 1: /* exchanged */
        memcpy(record, log->at + a, RECORD);
        memcpy(log->at + a, log->at + b, RECORD);
        memcpy(log->at + b, record, RECORD);
        break;
    case 2: /* a byte of the word */
        log->at[a + 2 + random_below(r, RECORD - 2)] ^= (uint8_t)(1u << random_below(r, 8));
        break;
    case 3: /* the channel */
        log->at[a + random_below(r, 2)] ^= (uint8_t)(1u << random_below(r, 8));
        break;
    case 4: /* doubled */
        memcpy(record, log->at + a, RECORD);
        memcpy(log->at + log->length, record, RECORD);
        log->length += RECORD;
        break;
    case 5: /* a byte more */
        log->at[log->length++] = (uint8_t)random_below(r, 256);
        break;
    default: /* cut */
        log->length = RECORD * (size_t)random_below(r, records);
    }
}

static void over_damaged(struct random *r, uint64_t index)
{
    static struct bytes s, g;
    for (uint32_t i = 0; i < DAMAGES; i++) {
        s = sent;
        g = received;
        for (uint32_t times = random_from(r, 1, 3); times > 0; times--)
            damage(r, random_chance(r, 50) ? &s : &g);
        uint64_t answer = held(&s, &g);
        if (answer != sim_logs(s.at, s.length, g.at, g.length))
            differs("a damaged pair is answered otherwise", index);
        answers[answer == 0 ? 0 : answer == 24 ? 2 : answer == 25 ? 3 : 1]++;
        damaged++;
    }
}

/* The same logs by asking the library. */
static void over_asked(const struct generated *g, uint64_t index)
{
    static struct logs logs;
    if (!logs_of(g->desks, g->plan, g->plan_length, g->steps, g->steps_length, &logs))
        differs("the logs cannot be asked for", index);
    if (logs.sent.length != sent.length || memcmp(logs.sent.bytes, sent.at, sent.length) != 0
        || logs.received.length != received.length || memcmp(logs.received.bytes, received.at, received.length) != 0)
        differs("the driver's logs are not the simulator's", index);
    asked++;
}

static void over_run(uint64_t seed, uint64_t index)
{
    static struct generated g;
    struct random r = {.state = seed + 7 * index};
    generate(&g, seed, index);
    if (sim_start(&rig, g.desks, g.plan, g.plan_length) != 0 || g.steps_length % 4 != 0
        || g.steps_length / 4 > MORTARSEDGE_MAX_STEPS)
        return;
    sent.length = received.length = 0;
    for (size_t at = 0; at < g.steps_length; at += 4) {
        size_t before = sent.length + received.length;
        step(g.steps + at);
        if (sent.length + received.length != before && held(&sent, &received) != 0)
            differs("the logs of a run do not pass", index);
        prefixes += sent.length + received.length != before;
    }
    if (held(&sent, &received) != 0)
        differs("the logs of a run do not pass", index);
    runs++;
    words += sent.length / RECORD;
    if (g.steps_length / 4 <= SHORT)
        over_asked(&g, index);
    over_damaged(&r, index);
}

/* What is printed for an answer. */
static void line_of(uint64_t answer, char line[32])
{
    if (answer == 0)
        strcpy(line, "yes\n");
    else if (mortarsedge_number(answer) == 0)
        snprintf(line, 32, "no %u\n", (unsigned)mortarsedge_channel(answer));
    else
        snprintf(line, 32, "refused %u\n", (unsigned)mortarsedge_number(answer));
}

static uint64_t over_vectors(const char *name)
{
    static uint8_t file[1 << 20];
    uint64_t records = 0;
    FILE *from = fopen(name, "rb");
    size_t size = from == NULL ? 0 : fread(file, 1, sizeof file, from);
    if (from == NULL || fclose(from) != 0)
        differs(name, 0);
    for (size_t at = 0; at + 6 <= size; records++) {
        size_t s = file[at + 1] + 256u * file[at + 2], r = file[at + 3] + 256u * file[at + 4], l = file[at + 5];
        const uint8_t *logs = file + at + 6;
        char line[32];
        line_of(mortarsedge_logs(logs, s, logs + s, r), line);
        if (strlen(line) != l || memcmp(line, logs + s + r, l) != 0)
            differs("a recorded pair is answered otherwise by the library", records);
        line_of(sim_logs(logs, s, logs + s, r), line);
        if (strlen(line) != l || memcmp(line, logs + s + r, l) != 0)
            differs("a recorded pair is answered otherwise by the check in C", records);
        at += 6 + s + r + l;
    }
    return records;
}

int main(int argc, char **argv)
{
    if (argc != 4) {
        fprintf(stderr, "usage: logs VECTORS SEED COUNT\n");
        return 2;
    }
    uint64_t records = over_vectors(argv[1]), count = strtoull(argv[3], NULL, 10);
    for (uint64_t i = 0; i < count; i++)
        over_run(strtoull(argv[2], NULL, 10), i);
    printf("logs: %llu recorded pairs agree; %llu runs with %llu words pass, after %llu steps that send or receive; "
           "%llu asked of the library are the same\n",
           (unsigned long long)records, (unsigned long long)runs, (unsigned long long)words,
           (unsigned long long)prefixes, (unsigned long long)asked);
    printf("logs: %llu damaged pairs agree: yes %llu, no %llu, 24 %llu, 25 %llu\n", (unsigned long long)damaged,
           (unsigned long long)answers[0], (unsigned long long)answers[1], (unsigned long long)answers[2],
           (unsigned long long)answers[3]);
    return 0;
}
