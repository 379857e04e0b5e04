/* finish_times: microseconds of the finish check, library and simulator by turns, on plans whose check takes long: each
 * runs to its end, and of 64 tasks only few can run at a time. */
#include <stdio.h>
#include <stdlib.h>
#include <string.h>

#include "../include/mortarsedge.h"
#include "draft.h"
#include "sim_finish.h"
#include "timing.h"

enum { SAMPLES = 101 };

/* Task 1 creates all others. */
static void create_all(struct draft *d)
{
    draft_clear(d, MAX_TASKS);
    for (uint32_t t = 2; t <= MAX_TASKS; t++)
        draft_add(d, 1, CREATE, t);
    draft_add(d, 1, FINISH, 0);
}

/* A task of the relay: it receives from the one before, adds, and sends to the next. */
static void add_runner(struct draft *d, uint32_t t, uint32_t place)
{
    uint32_t last = place == MAX_TASKS - 1;
    draft_add(d, t, place == 1 ? SET : RECEIVE, place - 1);
    while (d->task[t].count + 2 - last < MAX_COUNT)
        draft_add(d, t, ADD, 1);
    if (!last)
        draft_add(d, t, SEND, place);
    draft_add(d, t, FINISH, 0);
}

/* One word goes through tasks 64 to 2: a pass over the tasks by rising number executes one instruction. */
static void make_relay(struct draft *d)
{
    create_all(d);
    for (uint32_t t = MAX_TASKS; t >= 2; t--)
        add_runner(d, t, MAX_TASKS + 1 - t);
}

/* Words go to and fro between two tasks, pair after pair. */
static void make_pairs(struct draft *d)
{
    create_all(d);
    for (uint32_t t = 2; t < MAX_TASKS; t += 2) {
        for (uint32_t i = 0; i < MAX_COUNT - 2; i++) {
            draft_add(d, t, i % 2 == 0 ? SEND : RECEIVE, t - i % 2);
            draft_add(d, t + 1, i % 2 == 0 ? RECEIVE : SEND, t - i % 2);
        }
        draft_add(d, t, FINISH, 0);
        draft_add(d, t + 1, FINISH, 0);
    }
    draft_add(d, MAX_TASKS, FINISH, 0);
}

/* A word goes round tasks 64 to 2, and round again: a search over the tasks by rising number finds the next one last. */
static void make_rounds(struct draft *d)
{
    create_all(d);
    for (uint32_t t = 2; t <= MAX_TASKS; t++) {
        uint32_t next = t == 2 ? MAX_TASKS : t - 1;
        for (uint32_t i = 0; i < MAX_COUNT - 2; i++) {
            bool sends = (i % 2 == 0) == (t == MAX_TASKS);
            draft_add(d, t, sends ? SEND : RECEIVE, sends ? next : t);
        }
        draft_add(d, t, FINISH, 0);
    }
}

static const struct {
    const char *name;
    void (*make)(struct draft *d);
} cases[3] = {{"relay", make_relay}, {"pairs", make_pairs}, {"rounds", make_rounds}};

typedef uint64_t check(const uint8_t *, size_t, uint8_t *, size_t);

/* One check, which has to say yes to all instructions of the plan. */
static double sample(check *finish, const uint8_t *plan, size_t length)
{
    uint8_t out[MORTARSEDGE_FINISH_ENOUGH];
    char yes[32];
    size_t expected = (size_t)snprintf(yes, sizeof yes, "yes %u\n", (unsigned)sim_u16(plan + 2));
    double start = timing_now();
    uint64_t answer = finish(plan, length, out, sizeof out);
    double taken = (timing_now() - start) / 1000;
    if (answer != 256 * (uint64_t)expected || memcmp(out, yes, expected) != 0) {
        fprintf(stderr, "finish_times: a plan does not run to its end\n");
        exit(1);
    }
    return taken;
}

int main(void)
{
    static struct draft d;
    static uint8_t plan[DRAFT_BYTES];
    static double samples[2][SAMPLES];
    check *finish[2] = {mortarsedge_finish, sim_finish};
    printf("microseconds for a finish check, best and median of %d\n", SAMPLES);
    printf("%-8s %12s %10s %10s %10s %10s\n", "case", "instructions", "library", "", "simulator", "");
    for (int i = 0; i < 3; i++) {
        cases[i].make(&d);
        size_t length = draft_write(&d, plan);
        for (int n = 0; n < SAMPLES; n++)
            for (int s = 0; s < 2; s++)
                samples[s][n] = sample(finish[s], plan, length);
        printf("%-8s %12u", cases[i].name, (unsigned)sim_u16(plan + 2));
        for (int s = 0; s < 2; s++) {
            struct result r = timing_summary(samples[s], SAMPLES);
            printf(" %10.0f %10.0f", r.best, r.median);
        }
        printf("\n");
    }
    return 0;
}
