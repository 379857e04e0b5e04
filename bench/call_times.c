#include <stdio.h>
#include <string.h>

#include "../include/mortarsedge.h"
#include "cases.h"
#include "simulator.h"
#include "timing.h"
#include "tool_times.h"

enum { SAMPLES = 21 };

static uint8_t out[MORTARSEDGE_OUTPUT_ENOUGH];

/* What is timed of dispatchers: the choice, a run of what was chosen, and the choice in C. */
static uint64_t choose(int which, const struct bench_case *c, uint32_t desks, uint8_t *steps, size_t length)
{
    if (which == 1)
        return mortarsedge_run(desks, c->plan, c->plan_length, steps, length, out, sizeof out);
    return (which == 0 ? mortarsedge_choose : sim_choose)(desks, c->plan, c->plan_length, steps, MORTARSEDGE_MAX_STEP_FILE);
}

int calls_times(void)
{
    static uint8_t steps[3][MORTARSEDGE_MAX_STEP_FILE];
    static double samples[3][SAMPLES];
    const struct bench_case *c;
    printf("nanoseconds for the choice of steps, a run of them, and the choice in C: best of %d\n", SAMPLES);
    printf("%-15s %5s %6s %10s %10s %10s %7s %7s\n", "plan", "desks", "steps", "choice", "run", "in C", "to run", "to C");
    for (unsigned i = 0; (c = case_at(i)) != NULL; i++)
        for (uint32_t desks = 1; desks <= 6; desks += 5) {
            struct result r[3];
            uint64_t one = choose(0, c, desks, steps[0], 0), two = choose(2, c, desks, steps[2], 0);
            size_t length = (size_t)(one / 256);
            if (one != two || memcmp(steps[0], steps[2], length) != 0) {
                fprintf(stderr, "benchmark: %s: the chosen steps differ\n", c->name);
                return 1;
            }
            memcpy(steps[1], steps[0], length);
            for (unsigned n = 0; n < SAMPLES; n++)
                for (int s = 0; s < 3; s++) {
                    double start = timing_now();
                    for (int k = 0; k < 20; k++)
                        choose(s, c, desks, steps[s], length);
                    samples[s][n] = (timing_now() - start) / 20;
                }
            for (int s = 0; s < 3; s++)
                r[s] = timing_summary(samples[s], SAMPLES);
            printf("%-15s %5u %6zu %10.0f %10.0f %10.0f %7.2f %7.2f\n", c->name, (unsigned)desks, length / 4, r[0].best, r[1].best,
                   r[2].best, r[0].best / r[1].best, r[0].best / r[2].best);
        }
    return 0;
}
