/* Times of the library's tools beside those in C; 1 is returned if an answer is not the one due. */
#ifndef TOOL_TIMES_H
#define TOOL_TIMES_H

/* The check of two logs of 4,096 records. */
int logs_times(void);

/* The conversion of the largest plans: one without a repeat, and one that repeats make the largest. */
int convert_times(void);

/* The steps that dispatchers choose, beside a run of them: plans of the cases, on one desk and on six. */
int calls_times(void);

/* A step and a dispatch of a live rig, image read and written, beside a step of the file run; and a dispatch beside the two
 * steps that it makes. */
int live_times(void);

#endif
