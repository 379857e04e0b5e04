/* repeats SEED COUNT [FIRST]: a converter of plans with repeats, named by -DHELD=name, over generated files.
 *
 * It is compared with sim_convert: its answers and every byte of outputs of several lengths. An accepted
 * file is run on one desk by the rule of repeats, nothing written out (rounds.c), and the written plan in
 * the simulator: words on each channel, and the tasks' words, marks and ends have to be the same. The first
 * difference ends the program with 1, and so does, of 20,000 files or more, an answer that was never
 * reached. */
#include <inttypes.h>
#include <stdio.h>
#include <stdlib.h>
#include <string.h>

#include "converter.h"
#include "make_repeats.h"
#include "rounds.h"
#include "sim_convert.h"
#include "simulator.h"

enum { FULL_COUNT = 20000, ANSWERS = 24 };

struct reached {
    uint64_t answers[ANSWERS]; /* of files with enough output, and 20 of short ones */
    uint64_t calls, words, finished, longer; /* longer: accepted files that a repeat makes longer */
};

static struct repeats_file file;
static uint64_t seed, number;

static void differ(const char *what)
{
    fflush(stdout);
    fprintf(stderr, "repeats: %s differ\nseed %" PRIu64 " index %" PRIu64 " (%s, %zu bytes)\n", what, seed, number,
            file.class_name, file.length);
    exit(1);
}

/* A converter against sim_convert on an output of so many bytes. */
static void compare(converter *held, size_t room, struct reached *reached)
{
    static uint8_t out[65536];
    uint64_t answer = sim_convert(file.bytes, file.length, out, room);
    reached->answers[answer % 256 % ANSWERS] += answer % 256 == 20;
    reached->calls++;
    if (!converter_does(held, file.bytes, file.length, room, answer, out))
        differ("answers or outputs of two converters");
}

/* Outputs that are enough, of just the right length, a byte short, of any length, and none. */
static void compare_rooms(converter *held, uint64_t answer, struct reached *reached)
{
    size_t length = answer % 256 == 0 ? (size_t)(answer / 256) : file.length;
    compare(held, MAX_PLAN, reached);
    compare(held, length, reached);
    compare(held, length > 0 ? length - 1 : 1, reached);
    compare(held, (size_t)(number * 2654435761u % (length + 8)), reached);
    compare(held, 0, reached);
}

/* The new edition by its rule against the written plan. */
static void compare_runs(const uint8_t *plan, size_t length, struct reached *reached)
{
    static struct one_desk by_rule, written;
    struct random r = {seed + number};
    rounds_run(&by_rule, file.bytes, &r);
    plan_run(&written, plan, length);
    if (sim_plan_check(1, plan, length) != 0 || !one_desk_same(&by_rule, &written))
        differ("the rule of repeats and the written plan");
    for (uint32_t c = 1; c <= MAX_CHANNELS; c++)
        reached->words += written.words[c];
    reached->finished += written.task[1].done;
    reached->longer += length > file.length;
}

static void one_file(struct reached *reached)
{
    static uint8_t plan[MAX_PLAN];
    make_repeats(&file, seed, number);
    uint64_t answer = sim_convert(file.bytes, file.length, plan, sizeof plan);
    reached->answers[answer % 256 % ANSWERS]++;
    if (answer % 256 == 0)
        compare_runs(plan, (size_t)(answer / 256), reached);
    compare_rooms(HELD, answer, reached);
}

static bool print(const struct reached *reached, uint64_t count)
{
    static const unsigned answers[] = {0, 2, 3, 21, 22, 23, 4, 5, 6, 20};
    bool full = reached->words > 0 && reached->finished > 0 && reached->longer > 0;
    printf("repeats: %" PRIu64 " files, %" PRIu64 " calls:", count, reached->calls);
    for (size_t i = 0; i < sizeof answers / sizeof answers[0]; i++) {
        printf(" %u: %" PRIu64, answers[i], reached->answers[answers[i]]);
        full = full && reached->answers[answers[i]] > 0;
    }
    printf("\nrepeats: accepted files do as their written plans: %" PRIu64 " words, %" PRIu64 " finished, %" PRIu64
           " written longer\n", reached->words, reached->finished, reached->longer);
    return full;
}

int main(int argc, char **argv)
{
    static struct reached reached;
    if (argc != 3 && argc != 4) {
        fprintf(stderr, "usage: repeats SEED COUNT [FIRST]\n");
        return 2;
    }
    uint64_t count = strtoull(argv[2], NULL, 10), first = argc == 4 ? strtoull(argv[3], NULL, 10) : 0;
    seed = strtoull(argv[1], NULL, 10);
    for (number = first; number < first + count; number++)
        one_file(&reached);
    if (!print(&reached, count) && count >= FULL_COUNT) {
        fprintf(stderr, "repeats: an answer, words, an end or a longer plan were never reached\n");
        return 1;
    }
    return 0;
}
