/* finish SEED COUNT [FIRST]: the library's finish check against the simulator's, over generated plans, damaged ones too.
 *
 * The answers are compared and every byte of outputs of several lengths, some bytes before them too; of every so
 * many-th plan an output of each length from none to one byte more than the text. Plans are read-only; plan and output
 * end at a page that may not be touched. Each accepted plan is also run in the simulator by its generated steps, on
 * its desks and with its moves, and brought to rest from there: verdict, number and list have to be those of the
 * check. The first difference ends the program with 1, and so does, of 20,000 plans or more, an answer that was never
 * reached. */
#include <inttypes.h>
#include <stdio.h>
#include <stdlib.h>
#include <string.h>

#include "../include/mortarsedge.h"
#include "generate.h"
#include "guarded.h"
#include "sim_finish.h"

enum { ROOM = SIM_FINISH_ENOUGH + 2, MARGIN = 64, EVERY_LENGTH = 16, FULL_COUNT = 20000 };

struct reached {
    uint64_t answers[MORTARSEDGE_OUTPUT_SHORT + 1]; /* of plans with enough output, and 20 of short ones */
    uint64_t calls, yes, no, stuck, work;
};

static struct generated g;
static struct guarded plan_memory, library_memory, simulator_memory;
static uint64_t seed, number;

static void differ(const char *what)
{
    fflush(stdout);
    fprintf(stderr, "finish: %s differ\nseed %" PRIu64 " index %" PRIu64 " (%s, %zu bytes)\n", what, seed, number,
            g.class_name, g.plan_length);
    exit(1);
}

/* An output of so many bytes at the end of its memory, marked, with a margin before it. */
static uint8_t *lend_output(const struct guarded *memory, size_t room)
{
    uint8_t *from = guarded_end(memory, room + MARGIN);
    for (size_t i = 0; i < room + MARGIN; i++)
        from[i] = (uint8_t)(0x80 + i % 113);
    return from + MARGIN;
}

/* Both on an output of so many bytes; returns the answer. */
static uint64_t compare(const uint8_t *plan, size_t room, struct reached *reached)
{
    uint8_t *ours = lend_output(&library_memory, room), *theirs = lend_output(&simulator_memory, room);
    uint64_t answer = mortarsedge_finish(plan, g.plan_length, ours, room);
    if (answer != sim_finish(plan, g.plan_length, theirs, room))
        differ("the answers");
    if (memcmp(ours - MARGIN, theirs - MARGIN, room + MARGIN) != 0)
        differ("the outputs");
    reached->calls++;
    reached->answers[MORTARSEDGE_OUTPUT_SHORT] += mortarsedge_number(answer) == MORTARSEDGE_OUTPUT_SHORT;
    return answer;
}

/* Outputs of just the right length, a byte short, of any length; or of every length. */
static void compare_rooms(const uint8_t *plan, size_t length, struct reached *reached)
{
    compare(plan, length, reached);
    compare(plan, length > 0 ? length - 1 : 1, reached);
    compare(plan, (size_t)(number * 2654435761u % (length + 1)), reached);
    for (size_t room = 0; number % EVERY_LENGTH == 0 && room <= length + 1; room++)
        compare(plan, room, reached);
}

/* Whether the rig accepts a step; its accepted runs are counted. */
static bool accepts(struct sim_rig *rig, const uint8_t *step, uint32_t *work)
{
    struct sim_received received;
    bool accepted = sim_step(rig, step, &received) == 0;
    *work += accepted && step[0] == MORTARSEDGE_STEP_RUN;
    return accepted;
}

/* A delivery or a run is accepted, if there is one. */
static bool goes_on(struct sim_rig *rig, uint32_t *work)
{
    static const uint8_t deliver[4] = {MORTARSEDGE_STEP_DELIVER, 0, 1, 0};
    if (accepts(rig, deliver, work))
        return true;
    for (uint32_t t = rig->tasks; t >= 1; t--) {
        uint8_t run[4] = {MORTARSEDGE_STEP_RUN, (uint8_t)t, 0, 0};
        if (accepts(rig, run, work))
            return true;
    }
    return false;
}

/* The generated steps, then whatever is accepted: what is said of the rig at rest is the check's text. */
static void compare_moving(const uint8_t *text, size_t length, struct reached *reached)
{
    static struct sim_rig rig;
    uint8_t moving[SIM_FINISH_ENOUGH];
    uint32_t work = 0;
    if (sim_start(&rig, g.desks, g.plan, g.plan_length) != 0)
        return;
    for (size_t at = 0; at + 4 <= g.steps_length; at += 4)
        accepts(&rig, g.steps + at, &work);
    while (goes_on(&rig, &work))
        continue;
    if (sim_finish_text(&rig, work, moving) != length || memcmp(moving, text, length) != 0)
        differ("one desk at rest and the moving rig at rest");
    reached->work += work;
}

static void one_plan(struct reached *reached)
{
    uint8_t text[ROOM];
    generate(&g, seed, number);
    const uint8_t *plan = guarded_lend(&plan_memory, g.plan, g.plan_length);
    uint64_t answer = compare(plan, ROOM, reached);
    size_t filled = mortarsedge_filled(answer);
    reached->answers[mortarsedge_number(answer) % 21]++;
    memcpy(text, guarded_end(&library_memory, ROOM), ROOM);
    compare_rooms(plan, filled, reached);
    if (mortarsedge_number(answer) != MORTARSEDGE_ACCEPTED)
        return;
    reached->yes += text[0] == 'y';
    reached->no += text[0] == 'n';
    for (size_t i = 0; i < filled; i++)
        reached->stuck += text[0] == 'n' && text[i] == '\n';
    compare_moving(text, filled, reached);
}

static bool print(const struct reached *reached, uint64_t count)
{
    static const unsigned answers[] = {0, 2, 3, 4, 5, 6, 20};
    bool full = reached->yes > 0 && reached->no > 0;
    printf("finish: %" PRIu64 " plans, %" PRIu64 " calls:", count, reached->calls);
    for (size_t i = 0; i < sizeof answers / sizeof answers[0]; i++) {
        printf(" %u: %" PRIu64, answers[i], reached->answers[answers[i]]);
        full = full && reached->answers[answers[i]] > 0;
    }
    printf("\nfinish: yes %" PRIu64 ", no %" PRIu64 " with %" PRIu64 " tasks; the same of the moving rigs at rest, %" PRIu64
           " accepted runs\n", reached->yes, reached->no, reached->stuck - reached->no, reached->work);
    return full;
}

int main(int argc, char **argv)
{
    static struct reached reached;
    if (argc != 3 && argc != 4) {
        fprintf(stderr, "usage: finish SEED COUNT [FIRST]\n");
        return 2;
    }
    uint64_t count = strtoull(argv[2], NULL, 10), first = argc == 4 ? strtoull(argv[3], NULL, 10) : 0;
    seed = strtoull(argv[1], NULL, 10);
    plan_memory = guarded_new(PLAN_ROOM);
    library_memory = guarded_new(ROOM + MARGIN);
    simulator_memory = guarded_new(ROOM + MARGIN);
    for (number = first; number < first + count; number++)
        one_plan(&reached);
    if (!print(&reached, count) && count >= FULL_COUNT) {
        fprintf(stderr, "finish: an answer, a yes or a no were never reached\n");
        return 1;
    }
    return 0;
}
