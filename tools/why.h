/* Where and why the library refused: said on standard error. The numbers are the library's; what is said here only
 * finds the places that a number is about. Each returns REFUSED. */
#ifndef WHY_H
#define WHY_H

#include "plan_input.h"

int why_desks(uint32_t desks);

/* 2 to 6 of a plan file, 21 to 23 of one with repeats. */
int why_plan(const struct plan_input *input, uint32_t number);

/* 8 of a step file of so many bytes, which was given as this file. */
int why_steps(const struct file *file, size_t length);

/* 24 and 25 of two logs. */
int why_logs(const struct file *sent, const struct file *received, uint32_t number);

/* Two logs that differ on this channel. */
int why_differ(const struct file *sent, const struct file *received, uint32_t channel);

#endif
