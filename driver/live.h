/* driver --live DESKS PLANFILE: a live rig, driven by lines on standard input.
 *
 *   run T          task T runs its next instruction
 *   deliver P      the letter at position P of the mail, from 1
 *   move T D       task T goes to desk D
 *   call D         desk D's dispatcher: the earliest letter for the desk, then the next ready task there
 *   step K T N     any step, by its kind, task and number
 *   K T L H        the four bytes of a step, as in a step file
 *   rest           is the rig at rest, and how many letters are in the mail?
 *   panel          how many steps would get each answer?
 *   view T         what the driver shows of task T
 *
 * A comment goes from # to the line's end. Each line is answered before the next is read, on standard output:
 *
 *   level C L0 L1 L2 L3     a word was received: its channel and its levels
 *   made run T A, made deliver P A     a step that a call made, and its answer
 *   rest R N                1 if the rig is at rest else 0, and the letters in the mail
 *   panel A N               N steps would get the answer A, a line for each answer that some step would get
 *   view T STATE D P word L0 L1 L2 L3 children N ..     its state, desk and place, and its living children
 *
 * Refused steps and lines that are none are told on standard error with the number of the line; the rig is then
 * as it was, and the next line follows. At the end it is told whether the show has finished and the rig is at rest. */
#ifndef LIVE_H
#define LIVE_H

#include <stdint.h>

/* The exit status: as driver.c says, and 2 if a line was none. desks_word is the number of desks as it was given. */
int live_run(uint32_t desks, const char *desks_word, const char *plan_name);

#endif
