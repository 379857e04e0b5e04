/* A simulator of the paper's rig, written from the paper alone.
 *
 * It shares no line with the library, and is what the library is compared with
 * (differential.c) and measured against (benchmark.c). The functions have the
 * signatures and the promises of those in include/mortarsedge.h. */
#ifndef SIMULATOR_H
#define SIMULATOR_H

#include <stddef.h>
#include <stdint.h>

uint32_t sim_plan_check(uint32_t desks, const uint8_t *plan, size_t plan_length);

uint64_t sim_run(uint32_t desks, const uint8_t *plan, size_t plan_length,
                 const uint8_t *steps, size_t steps_length,
                 uint8_t *out, size_t out_length);

uint64_t sim_choose(uint32_t desks, const uint8_t *plan, size_t plan_length,
                    uint8_t *steps, size_t steps_length);

#endif
