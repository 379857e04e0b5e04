/* The finish check, written from the paper alone: it shares no line with the library. */
#ifndef SIM_FINISH_H
#define SIM_FINISH_H

#include "sim_rig.h"

/* `no` and the most steps, then 64 tasks with a task each. */
enum { SIM_FINISH_ENOUGH = 8 + 64 * 6 };

/* Runs a plan on one desk to rest, and writes what is then to be said of it.
 *
 * The answer is a number and 256 times how many bytes of out hold lines:
 *
 *   0        out begins with the whole text
 *   2 to 6   the plan file is refused, as by plan check; out is untouched
 *   20       out begins with the longest beginning of whole lines that fits
 *
 * The text's first line is `yes` if every born task is done, else `no`, a space and the number of
 * accepted run steps. Behind `no` each born task that is not done has a line, by rising number: its
 * number, a space and the task it depends on. Bytes behind the last line are unchanged. */
uint64_t sim_finish(const uint8_t *plan, size_t length, uint8_t *out, size_t out_length);

/* The whole text of a rig at rest after so many accepted run steps, and its length. */
size_t sim_finish_text(const struct sim_rig *rig, uint32_t steps, uint8_t text[SIM_FINISH_ENOUGH]);

#endif
