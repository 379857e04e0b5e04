/* Mortarsedge: the proved core of a moving rig, for a C driver.
 *
 * Link with libmortarsedge.a. Its functions, plan check, run, choose, panel, the finish check,
 * convert, chase, the check of two logs and the calls of a live rig, take numbers and bytes,
 * keep nothing between calls, and may be called from several threads at once. Each returns
 * for every input; none allocates, reads or writes anything else. Everything else in this
 * header is C for a driver's convenience: names for the numbers, and inline functions, which
 * no proof covers.
 *
 * Where a length is 0 its pointer may be any.
 *
 * The header needs C99 or C++11. docs/FORMATS.md explains plan file, step file,
 * trace and rig image, docs/driver.md what a driver supplies and is promised. */
#ifndef MORTARSEDGE_H
#define MORTARSEDGE_H

#if !defined(__cplusplus) && (!defined(__STDC_VERSION__) || __STDC_VERSION__ < 199901L)
#error "mortarsedge.h needs C99 or later: compile with -std=c99"
#endif

#include <stdbool.h>
#include <stddef.h>
#include <stdint.h>

#ifdef __cplusplus
extern "C" {
#endif

/* The limits of a rig. */
enum {
    MORTARSEDGE_MAX_DESKS = 6,
    MORTARSEDGE_MAX_TASKS = 64,
    MORTARSEDGE_MAX_CHANNELS = 128,
    MORTARSEDGE_MAX_INSTRUCTIONS = 64, /* of one task */
    MORTARSEDGE_MAX_LETTERS = 256,     /* in the mail */
    MORTARSEDGE_MAX_STEPS = 2000,
    MORTARSEDGE_MAX_MOVE_COUNT = 9999,
    MORTARSEDGE_LEVELS = 4 /* of a word */
};

/* Sizes in bytes. */
enum {
    MORTARSEDGE_STEP_BYTES = 4,
    /* The longest plan file that is accepted: 4 bytes, 4 for each task, 4 for each instruction. */
    MORTARSEDGE_MAX_PLAN =
        4 + 4 * MORTARSEDGE_MAX_TASKS + 4 * MORTARSEDGE_MAX_TASKS * MORTARSEDGE_MAX_INSTRUCTIONS,
    /* The longest step file that is accepted. */
    MORTARSEDGE_MAX_STEP_FILE = MORTARSEDGE_STEP_BYTES * MORTARSEDGE_MAX_STEPS,
    /* The longest line of a step: `2000 0 128 65535 65535 65535 65535` and a line feed. */
    MORTARSEDGE_MAX_LINE = 35,
    /* The longest line of a marked task: `over 64` and a line feed. */
    MORTARSEDGE_MAX_OVER_LINE = 8,
    /* The longest last line: `end 0 256` and a line feed. */
    MORTARSEDGE_MAX_END_LINE = 10,
    /* An output of so many bytes is never answered 20. Tasks 1 to 9 have one digit less. */
    MORTARSEDGE_OUTPUT_ENOUGH = MORTARSEDGE_MAX_STEPS * MORTARSEDGE_MAX_LINE
        + MORTARSEDGE_MAX_TASKS * MORTARSEDGE_MAX_OVER_LINE - 9 + MORTARSEDGE_MAX_END_LINE,
    /* The longest first line of a finish check: `yes 4096` and a line feed. */
    MORTARSEDGE_MAX_FINISH_LINE = 9,
    /* The longest line of a stuck task: `63 64` and a line feed. */
    MORTARSEDGE_MAX_STUCK_LINE = 6,
    /* A finish check with an output of so many bytes is never answered 20. */
    MORTARSEDGE_FINISH_ENOUGH =
        MORTARSEDGE_MAX_FINISH_LINE + MORTARSEDGE_MAX_TASKS * MORTARSEDGE_MAX_STUCK_LINE,
    /* A record of a log: a channel and four levels, 2 bytes each. */
    MORTARSEDGE_LOG_RECORD = 10,
    MORTARSEDGE_MAX_LOG_RECORDS = 4096,
    /* The longest log that is accepted. */
    MORTARSEDGE_MAX_LOG = MORTARSEDGE_LOG_RECORD * MORTARSEDGE_MAX_LOG_RECORDS,
    /* The plan of a chase, and the steps of the longest one: 3 for each of 500 forwards, and 11 more. */
    MORTARSEDGE_CHASE_PLAN = 32,
    MORTARSEDGE_MAX_FORWARDS = 500,
    MORTARSEDGE_MAX_CHASE = MORTARSEDGE_STEP_BYTES * (3 * MORTARSEDGE_MAX_FORWARDS + 11),
    /* The answers that a panel counts, 0 to 26. */
    MORTARSEDGE_PANEL_COUNTS = 27,
    /* The image of a rig: docs/FORMATS.md has its places. */
    MORTARSEDGE_RIG_SIZE = 34120,
    /* A report of a dispatch: a step's answer, and the word received as a record of a log, or 10 zeros. */
    MORTARSEDGE_REPORT = 1 + MORTARSEDGE_LOG_RECORD,
    /* The steps and the reports of a dispatch, two of each at most. */
    MORTARSEDGE_DISPATCH_STEPS = 2 * MORTARSEDGE_STEP_BYTES,
    MORTARSEDGE_DISPATCH_RECORDS = 2 * MORTARSEDGE_REPORT,
    /* What a tablet shows of a task, and what the driver shows of it. */
    MORTARSEDGE_TABLET_VIEW = 4,
    MORTARSEDGE_DRIVER_VIEW = 21,
    /* Stack for a call, with some to spare: make ctest measures what is needed. */
    MORTARSEDGE_PLAN_CHECK_STACK = 16 * 1024,
    MORTARSEDGE_RUN_STACK = 128 * 1024,
    MORTARSEDGE_CHOOSE_STACK = 128 * 1024,
    MORTARSEDGE_FINISH_STACK = 128 * 1024,
    MORTARSEDGE_LOGS_STACK = 64 * 1024,
    MORTARSEDGE_CONVERT_STACK = 128 * 1024,
    MORTARSEDGE_CHASE_STACK = 16 * 1024,
    MORTARSEDGE_LIVE_STACK = 128 * 1024 /* for each call of a live rig */
};

/* The kinds of an instruction, 4 bytes of a plan file: kind, a second byte, and an
 * argument of 16 bits, little-endian. What the argument is stands beside. The
 * second byte of set and add is the level that they change, 0 to 3; that of the
 * other kinds is 0. */
enum mortarsedge_instruction {
    MORTARSEDGE_INSTRUCTION_CREATE = 1,  /* the child, 2 to the number of tasks */
    MORTARSEDGE_INSTRUCTION_SYNC = 2,    /* unused: 0 */
    MORTARSEDGE_INSTRUCTION_FINISH = 3,  /* unused: 0 */
    MORTARSEDGE_INSTRUCTION_SEND = 4,    /* a channel, 1 to 128 */
    MORTARSEDGE_INSTRUCTION_RECEIVE = 5, /* a channel, 1 to 128 */
    MORTARSEDGE_INSTRUCTION_SET = 6,     /* what the level becomes, 0 to 65,535 */
    MORTARSEDGE_INSTRUCTION_ADD = 7,     /* what is added to the level, 0 to 65,535 */
    /* Only in the new edition of the plan file, which mortarsedge_convert takes. */
    MORTARSEDGE_INSTRUCTION_REPEAT = 8,    /* how many times, 1 to 64 */
    MORTARSEDGE_INSTRUCTION_REPEAT_END = 9 /* unused: 0 */
};

/* The kinds of a step, 4 bytes of a step file: kind, task, and a number of 16
 * bits, little-endian. A field that a kind does not use has to be 0, or the step
 * is answered 19, as is a step of any other kind. */
enum mortarsedge_step {
    MORTARSEDGE_STEP_RUN = 1,     /* the task; the number is unused: 0 */
    MORTARSEDGE_STEP_DELIVER = 2, /* the task is unused: 0; the number is the letter's position, from 1 */
    MORTARSEDGE_STEP_MOVE = 3     /* the task; the number is the desk it goes to */
};

/* The states of a task, in a view of it. */
enum mortarsedge_state {
    MORTARSEDGE_UNBORN = 0,
    MORTARSEDGE_READY = 1,
    MORTARSEDGE_WAITING = 2,   /* at a sync, for its children */
    MORTARSEDGE_SENDING = 3,
    MORTARSEDGE_RECEIVING = 4,
    MORTARSEDGE_MOVING = 5,    /* under way between two desks */
    MORTARSEDGE_DONE = 6
};

/* The answers: of a call 0 to 6, 8, 20, 24 and 25, of the converter 0, 2 to 6 and 20 to 23, of a
 * chase 0, 20 and 26, of a step in the trace 0 and 10 to 19, of a live rig 0 to 6, 9 to 20. */
enum mortarsedge_answer {
    MORTARSEDGE_ACCEPTED = 0,
    /* Of the plan file. */
    MORTARSEDGE_BAD_DESKS = 1,       /* desks not 1 to 6 */
    MORTARSEDGE_BAD_LAYOUT = 2,      /* under 4 bytes, T or a count out of range, N not the counts' sum,
                                        a wrong offset or length */
    MORTARSEDGE_BAD_INSTRUCTION = 3, /* kind unknown, second byte above 3 (set, add) or not zero (other
                                        kinds), or argument out of range */
    MORTARSEDGE_BAD_FINISH = 4,      /* finish not exactly the last instruction of a task */
    MORTARSEDGE_BAD_CREATE = 5,      /* a task 2 to T not created exactly once, or not by a lower number */
    MORTARSEDGE_BAD_CHANNEL = 6,     /* a channel with two sending or two receiving tasks, one task at both
                                        ends, or only one end */
    /* Of the step file. */
    MORTARSEDGE_BAD_STEP_FILE = 8, /* length no multiple of 4, or over 2,000 steps */
    /* Of a step. */
    MORTARSEDGE_BAD_RIG = 9,          /* a rig outside the limits, or bytes that are no image of one; no
                                         run meets it, and no live rig that nobody else has written */
    MORTARSEDGE_NO_TASK = 10,         /* no such task */
    MORTARSEDGE_NOT_READY = 11,       /* the task is not ready */
    MORTARSEDGE_FINISH_CHILDREN = 12, /* finish with living children */
    MORTARSEDGE_MAIL_FULL = 13,       /* the letters needed do not fit in the mail */
    MORTARSEDGE_NO_LETTER = 14,       /* no letter at this position */
    MORTARSEDGE_NO_DESK = 15,         /* a move to a desk outside the rig */
    MORTARSEDGE_SAME_DESK = 16,       /* the task is at this desk already */
    MORTARSEDGE_MOVE_CHILDREN = 17,   /* unused: a task with living children may move */
    MORTARSEDGE_MOVE_COUNT = 18,      /* the task's move count is 9,999; no step file has so many moves,
                                         a live rig may */
    MORTARSEDGE_BAD_STEP = 19,        /* a kind not 1 to 3, or an unused field not zero */
    /* Of the output. */
    MORTARSEDGE_OUTPUT_SHORT = 20, /* the lent output is too short */
    /* Of a plan file with repeats. */
    MORTARSEDGE_BAD_REPEAT = 21,      /* a repeat or its end nested or unpaired in its task */
    MORTARSEDGE_REPEATED_CREATE = 22, /* a create within a repeat */
    MORTARSEDGE_TOO_LONG = 23,        /* a task over 64 instructions when written out */
    /* Of two logs. */
    MORTARSEDGE_BAD_LOG_LENGTH = 24, /* length no multiple of 10, or over 4,096 records */
    MORTARSEDGE_BAD_LOG_RECORD = 25, /* a channel outside 1 to 128 */
    /* Of a chase. */
    MORTARSEDGE_TOO_MANY_FORWARDS = 26 /* more than 500 */
};

/* May this plan file be started on so many desks?
 *
 * The caller supplies
 *   desks   any number;
 *   plan    plan_length readable bytes, any bytes, which nobody writes meanwhile;
 *   stack   MORTARSEDGE_PLAN_CHECK_STACK bytes.
 *
 * Answers 0, or 1 to 6 as above. Each number is tested over the whole plan
 * before the next, so that the answer is the lowest that applies. Nothing is
 * written that the caller can see. */
uint32_t mortarsedge_plan_check(uint32_t desks, const uint8_t *plan, size_t plan_length);

/* Runs a step file from the start of a plan, and writes the trace.
 *
 * The caller supplies
 *   desks   any number;
 *   plan    plan_length readable bytes, any bytes, which nobody writes meanwhile;
 *   steps   steps_length readable bytes, likewise; the two may be the same bytes;
 *   out     out_length bytes that may be read and written, which nobody else
 *           reads or writes meanwhile, and which do not overlap plan or steps;
 *   stack   MORTARSEDGE_RUN_STACK bytes.
 *
 * The answer holds a number and how many bytes of out hold lines: take it
 * apart by mortarsedge_number and mortarsedge_filled.
 *
 *   0        out begins with the whole trace
 *   1 to 6   the plan file is refused, as by plan check; out is untouched, filled is 0
 *   8        the step file is refused; out is untouched, filled is 0
 *   20       the trace does not fit: out begins with the longest beginning of
 *            whole lines that fits, and filled may be 0
 *
 * 1 to 6 are tested before 8, and 8 before 20. Bytes behind the last line are
 * unchanged. With out_length of MORTARSEDGE_OUTPUT_ENOUGH or more, 20 is never
 * answered.
 *
 * The trace has a line a step: the step's number from 1, its answer and, if a
 * word was received, its channel and its four levels, level 0 first. A refused
 * step gets its line and the run
 * goes on. Behind them, each task that met a sum over 65,535 has a line: `over`
 * and its number, by rising number. The last line is `end`, 1 if the rig is at
 * rest else 0, and the letters in the mail. Fields are decimal with one space
 * between, and a line feed is behind each line: mortarsedge_take_line takes a
 * line apart. A rig at rest does nothing more; that the show has finished is
 * another thing (docs/FORMATS.md). */
uint64_t mortarsedge_run(uint32_t desks, const uint8_t *plan, size_t plan_length,
                         const uint8_t *steps, size_t steps_length,
                         uint8_t *out, size_t out_length);

/* Chooses steps: calls the dispatchers of desks 1 to n in turn, round by round, from
 * the start of a plan until the rig is at rest, and writes the steps that they choose
 * as a step file. A call delivers the earliest letter for its desk, if there is one,
 * and then runs the next ready task there, if there is one.
 *
 * The caller supplies
 *   desks   any number;
 *   plan    plan_length readable bytes, any bytes, which nobody writes meanwhile;
 *   steps   steps_length bytes that may be read and written, which nobody else
 *           reads or writes meanwhile, and which do not overlap plan;
 *   stack   MORTARSEDGE_CHOOSE_STACK bytes.
 *
 * The answer holds a number and how many bytes of steps are filled: take it
 * apart by mortarsedge_number and mortarsedge_filled.
 *
 *   0        steps begins with all steps, behind which the rig is at rest
 *   1 to 6   the plan file is refused, as by plan check; steps is untouched, filled is 0
 *   20       the steps do not fit, or are more than 2,000: steps begins with the
 *            longest beginning of whole steps that fits, at most 2,000 of them
 *
 * Bytes behind the last step are unchanged. The filled bytes are a step file that
 * mortarsedge_run takes. More than MORTARSEDGE_MAX_STEP_FILE bytes are never filled. */
uint64_t mortarsedge_choose(uint32_t desks, const uint8_t *plan, size_t plan_length,
                            uint8_t *steps, size_t steps_length);

/* Will this plan finish? Runs a plan on one desk to rest, and writes what is then to be
 * said of it.
 *
 * The caller supplies
 *   plan    plan_length readable bytes, any bytes, which nobody writes meanwhile;
 *   out     out_length bytes that may be read and written, which nobody else
 *           reads or writes meanwhile, and which do not overlap plan;
 *   stack   MORTARSEDGE_FINISH_STACK bytes.
 *
 * The answer holds a number and how many bytes of out hold lines: take it
 * apart by mortarsedge_number and mortarsedge_filled.
 *
 *   0        out begins with the whole text
 *   2 to 6   the plan file is refused, as by plan check; out is untouched, filled is 0
 *   20       the text does not fit: out begins with the longest beginning of
 *            whole lines that fits, and filled may be 0
 *
 * Bytes behind the last line are unchanged. With out_length of
 * MORTARSEDGE_FINISH_ENOUGH or more, 20 is never answered.
 *
 * The first line is `yes` if every task that was born is done, else `no`, and the
 * number of instructions executed, which is that of accepted run steps. Behind
 * `no` each task that was born and is not done has a line, by rising number: its
 * number and the task that it depends on, which is the other end of its channel if
 * it sends or receives, else its lowest living child. Fields are decimal with one
 * space between, and a line feed is behind each line. The text is that of every run
 * of the plan that comes to rest, on one desk or six and with any moves. */
uint64_t mortarsedge_finish(const uint8_t *plan, size_t plan_length, uint8_t *out, size_t out_length);

/* The step panel: how many of all runs, all deliveries at 1 to 256 and all moves
 * to desks of the rig would get each answer, in the rig that a step file leaves.
 *
 * The caller supplies desks, plan and steps as for mortarsedge_run, and
 *   counts   counts_length numbers that may be read and written, which nobody else
 *            reads or writes meanwhile, and which do not overlap plan or steps;
 *   stack    MORTARSEDGE_RUN_STACK bytes.
 *
 *   0        counts[a] is how many steps would get the answer a, 0 to 26, 0 for
 *            accepted; together they are T + 256 + T * desks
 *   1 to 6   the plan file is refused, as by plan check
 *   8        the step file is refused, as by mortarsedge_run
 *   20       counts_length is under MORTARSEDGE_PANEL_COUNTS
 *
 * The numbers are tested in this order. A refused call leaves counts untouched, and
 * numbers behind the first MORTARSEDGE_PANEL_COUNTS are unchanged. */
uint32_t mortarsedge_panel_after(uint32_t desks, const uint8_t *plan, size_t plan_length,
                                 const uint8_t *steps, size_t steps_length,
                                 uint32_t *counts, size_t counts_length);

/* Holds a sender's log against a receiver's log.
 *
 * A log has a record of MORTARSEDGE_LOG_RECORD bytes for each word: its channel and
 * its four levels, level 0 first, 16 bits each, little-endian. The sender's has each
 * word when it leaves, the receiver's when it is received.
 *
 * The caller supplies
 *   sent       sent_length readable bytes, any bytes, which nobody writes meanwhile;
 *   received   received_length readable bytes, likewise;
 *   stack      MORTARSEDGE_LOGS_STACK bytes.
 *
 * The answer holds a number and a channel: take it apart by mortarsedge_number and
 * mortarsedge_channel.
 *
 *   0, channel 0   yes: on every channel the received words are a beginning of the
 *                  sent words
 *   0, channel     no: the lowest channel where that is not so
 *   24             a length is no multiple of 10, or over 4,096 records
 *   25             a record's channel is outside 1 to 128
 *
 * 24 is tested over both logs before 25. Both logs of a run from an accepted plan's
 * start, taken after the same step, get yes. */
uint64_t mortarsedge_logs(const uint8_t *sent, size_t sent_length,
                          const uint8_t *received, size_t received_length);

/* Converts a plan file with repeats: writes it as a plan file of the present
 * edition, with every repeat written out.
 *
 * The caller supplies
 *   plan    plan_length readable bytes, any bytes, which nobody writes meanwhile;
 *   out     out_length bytes that may be read and written, which nobody else
 *           reads or writes meanwhile, and which do not overlap plan;
 *   stack   MORTARSEDGE_CONVERT_STACK bytes.
 *
 * The answer holds a number and how many bytes of out are written: take it
 * apart by mortarsedge_number and mortarsedge_filled.
 *
 *   0         out begins with the plan file, which plan check accepts
 *   2, 3      the file is refused, as by plan check with the two kinds allowed
 *   21 to 23  a repeat is refused, as above
 *   4 to 6    the written-out plan is refused, as by plan check
 *   20        the written-out plan does not fit
 *
 * The numbers are tested in this order, each over the whole file before the
 * next. A refused call leaves out untouched, and filled is 0. Bytes behind the
 * written ones are unchanged. With out_length of MORTARSEDGE_MAX_PLAN or more,
 * 20 is never answered. */
uint64_t mortarsedge_convert(const uint8_t *plan, size_t plan_length, uint8_t *out, size_t out_length);

/* Writes a plan and steps for three desks in which one offer is forwarded exactly
 * so many times and the rig then comes to rest.
 *
 * The caller supplies
 *   forwards   any number;
 *   plan       plan_length bytes that may be read and written, which nobody else
 *              reads or writes meanwhile;
 *   steps      steps_length bytes, likewise; the two do not overlap;
 *   stack      MORTARSEDGE_CHASE_STACK bytes.
 *
 * The answer holds a number and how many bytes of steps are written: take it
 * apart by mortarsedge_number and mortarsedge_filled.
 *
 *   0    plan begins with a plan file of MORTARSEDGE_CHASE_PLAN bytes, steps with a
 *        step file of filled bytes: 3 steps for each forward, and 11 more
 *   26   forwards is above MORTARSEDGE_MAX_FORWARDS
 *   20   plan or steps is too short
 *
 * 26 is tested before 20. A refused call leaves both untouched, and filled is 0.
 * Bytes behind the written ones are unchanged. MORTARSEDGE_MAX_CHASE bytes hold the
 * steps of every chase. */
uint64_t mortarsedge_chase(uint32_t forwards, uint8_t *plan, size_t plan_length,
                           uint8_t *steps, size_t steps_length);

/* A live rig.
 *
 * The rig is MORTARSEDGE_RIG_SIZE bytes that the caller lends and keeps: its image.
 * mortarsedge_start writes the image of a plan's start; each step and each dispatch
 * then makes it that of the rig after it. Between two calls the bytes are the
 * caller's: they may be copied, stored, sent and put back, and a copy is a rig of its
 * own. Nobody else writes them during a call; no other buffer of the call overlaps
 * them. They may stand at any address.
 *
 * Whoever lends them as the last call left them is never answered 9. Bytes that anybody
 * else has written are safe to lend: every call answers 9, and leaves them as they are, unless
 * they are the image of a rig whose numbers are within the limits. So 9 answers fewer
 * bytes than an image has, another version, a letter of unknown kind, a number in an
 * unused slot, a number outside the limits, and a plan that plan check would refuse.
 * Bytes behind the first MORTARSEDGE_RIG_SIZE are neither read nor written.
 *
 * Each call needs MORTARSEDGE_LIVE_STACK bytes of stack. */

/* Starts a plan: writes the image of the rig at its start.
 *
 * The caller supplies
 *   desks   any number;
 *   plan    plan_length readable bytes, any bytes, which nobody writes meanwhile;
 *   rig     rig_length bytes that may be read and written, which nobody else
 *           reads or writes meanwhile, and which do not overlap plan.
 *
 *   0        rig begins with the image; bytes behind it are unchanged
 *   1 to 6   the plan file is refused, as by plan check
 *   20       rig_length is under MORTARSEDGE_RIG_SIZE
 *
 * 1 to 6 are tested before 20. A refused call leaves rig untouched. The image has a
 * copy of the plan: plan is not needed any more. */
uint32_t mortarsedge_start(uint32_t desks, const uint8_t *plan, size_t plan_length, uint8_t *rig, size_t rig_length);

/* One step of a live rig.
 *
 * The caller supplies
 *   rig      rig_length bytes that may be read and written, an image;
 *   kind, task, number   any numbers, a step: enum mortarsedge_step says what they are.
 *            Numbers that do not fit the four bytes of a step, a kind or a task above
 *            255, a number above 65,535, are a step that is answered 19;
 *   record   record_length bytes that may be read and written, which do not overlap rig.
 *
 *   20          record_length is under MORTARSEDGE_LOG_RECORD: nothing is changed
 *   9           rig is no image of a rig within the limits, or is too short
 *   19, 10 to 18   the step is refused, as in a trace
 *   0           it is accepted: rig is then the image of the rig after the step
 *
 * They are tested in this order. A refused step leaves rig untouched. Unless 20 is
 * answered, the first MORTARSEDGE_LOG_RECORD bytes of record are the record of the word
 * that was received, its channel and its four levels, as in a receiver's log; zeros if
 * none was, and always if the step is refused: mortarsedge_take_word takes it apart.
 * Bytes behind it are unchanged. */
uint32_t mortarsedge_step(uint8_t *rig, size_t rig_length, uint32_t kind, uint32_t task, uint32_t number,
                          uint8_t *record, size_t record_length);

/* One call of a desk's dispatcher: delivers the earliest letter for the desk, if there
 * is one, and then runs the next ready task there after the one that it chose last, by
 * number and round again, if there is one.
 *
 * The caller supplies
 *   rig       rig_length bytes that may be read and written, an image;
 *   desk      any number; one above 255 counts as 0;
 *   steps     steps_length bytes that may be read and written;
 *   records   records_length bytes that may be read and written; none of the three
 *             overlap.
 *
 * The answer holds a number and how many bytes of steps are filled, 0, 4 or 8: take it
 * apart by mortarsedge_number and mortarsedge_filled, or by mortarsedge_made_count.
 *
 *   20   steps_length is under MORTARSEDGE_DISPATCH_STEPS, or records_length under
 *        MORTARSEDGE_DISPATCH_RECORDS
 *   9    rig is no image of a rig within the limits, or is too short
 *   15   the rig has no such desk
 *   0    rig is the image of the rig after the steps that the call made; steps begins
 *        with them, 4 bytes each, and records with a report of MORTARSEDGE_REPORT bytes
 *        for each: the step's answer, then the word received as a record of a log, or
 *        zeros. mortarsedge_take_made takes them apart
 *
 * They are tested in this order. A refused call leaves all three untouched, and filled
 * is 0. Bytes behind the last step, and behind the last report, are unchanged. A run
 * that is refused, as by 12 or 13, uses the desk's turn: the call is accepted, and the
 * report has the refusal. */
uint64_t mortarsedge_dispatch(uint8_t *rig, size_t rig_length, uint32_t desk, uint8_t *steps, size_t steps_length,
                              uint8_t *records, size_t records_length);

/* The panel of a live rig: how many of all runs, all deliveries at 1 to 256 and all moves
 * to desks of the rig would get each answer. Nothing is carried out.
 *
 * The caller supplies
 *   rig      rig_length readable bytes, an image, which nobody writes meanwhile;
 *   counts   counts_length numbers that may be read and written, which do not overlap rig.
 *
 *   20   counts_length is under MORTARSEDGE_PANEL_COUNTS
 *   9    rig is no image of a rig within the limits, or is too short
 *   0    counts[a] is how many steps would get the answer a, 0 to 26, 0 for accepted
 *
 * They are tested in this order. A refused call leaves counts untouched, and numbers
 * behind the first MORTARSEDGE_PANEL_COUNTS are unchanged. */
uint32_t mortarsedge_panel(const uint8_t *rig, size_t rig_length, uint32_t *counts, size_t counts_length);

/* What a tablet shows of a task of a live rig.
 *
 * The caller supplies
 *   rig    rig_length readable bytes, an image, which nobody writes meanwhile;
 *   task   any number; one above 255 counts as 0;
 *   out    out_length bytes that may be read and written, which do not overlap rig.
 *
 *   20   out_length is under MORTARSEDGE_TABLET_VIEW
 *   9    rig is no image of a rig within the limits, or is too short
 *   10   the rig has no such task
 *   0    out begins with a byte each for the task's number, its state (enum
 *        mortarsedge_state), its desk, 0 for an unborn or a moving task, and its place,
 *        which is the number of its next instruction, from 1
 *
 * They are tested in this order. A refused call leaves out untouched, and bytes behind
 * the first MORTARSEDGE_TABLET_VIEW are unchanged. */
uint32_t mortarsedge_tablet_view(const uint8_t *rig, size_t rig_length, uint32_t task, uint8_t *out, size_t out_length);

/* What the driver shows of a task of a live rig: supplied and answered as by
 * mortarsedge_tablet_view, with MORTARSEDGE_DRIVER_VIEW bytes for out. They are the four of
 * a tablet, then the four levels of the task's word, 2 bytes each, the set of its living
 * children, 8 bytes, bit t - 1 for task t, all little-endian, and a byte for how many they
 * are: mortarsedge_take_view takes them apart. */
uint32_t mortarsedge_driver_view(const uint8_t *rig, size_t rig_length, uint32_t task, uint8_t *out, size_t out_length);

/* Whether a live rig is at rest, and how many letters are in its mail.
 *
 * The caller supplies rig, rig_length readable bytes, an image, which nobody writes
 * meanwhile. The answer holds a number, whether the rig is at rest and the letters: take
 * it apart by mortarsedge_number, mortarsedge_at_rest and mortarsedge_letters.
 *
 *   9   rig is no image of a rig within the limits, or is too short; not at rest, 0 letters
 *   0   at rest if the mail is empty and no run would be accepted */
uint64_t mortarsedge_rest(const uint8_t *rig, size_t rig_length);

/* The number in the answer of a run or a choice of steps, 0 to 6, 8 or 20, of a finish check, 0, 2 to 6 or 20,
 * of two logs, 0, 24 or 25, of a conversion, 0, 2 to 6 or 20 to 23, of a chase, 0, 20 or 26, of a dispatch,
 * 0, 9, 15 or 20, or of the question for rest, 0 or 9. */
static inline uint32_t mortarsedge_number(uint64_t answer)
{
    return (uint32_t)(answer % 256);
}

/* How many bytes of the output hold lines, steps, or the written-out plan. */
static inline size_t mortarsedge_filled(uint64_t answer)
{
    return (size_t)(answer / 256);
}

/* The channel in the answer of two logs: 0 for yes, else the lowest that differs. */
static inline uint32_t mortarsedge_channel(uint64_t answer)
{
    return (uint32_t)(answer / 256);
}

/* How many steps a dispatch made, 0 to 2, by its answer. */
static inline size_t mortarsedge_made_count(uint64_t answer)
{
    return mortarsedge_filled(answer) / MORTARSEDGE_STEP_BYTES;
}

/* Whether a rig is at rest, by the answer of mortarsedge_rest. */
static inline bool mortarsedge_at_rest(uint64_t answer)
{
    return answer / 256 % 256 == 1;
}

/* How many letters are in the mail, 0 to 256, by the answer of mortarsedge_rest. */
static inline uint32_t mortarsedge_letters(uint64_t answer)
{
    return (uint32_t)(answer / 65536);
}

/* For the functions below: a number of so many bytes, little-endian. */
static inline uint64_t mortarsedge_little_endian(const uint8_t *bytes, size_t count)
{
    uint64_t number = 0;
    for (size_t i = count; i > 0; i--)
        number = 256 * number + bytes[i - 1];
    return number;
}

/* A word received, taken apart. */
struct mortarsedge_word {
    uint32_t channel; /* 1 to 128; 0 if none was received */
    uint32_t level[MORTARSEDGE_LEVELS]; /* 0 to 65,535 each */
};

/* Takes the record of a word apart, as mortarsedge_step leaves it. Returns whether a word
 * was received; if none was, and of a record whose channel is above 128, which no call
 * leaves, all numbers are 0. So a channel may be used as an index where true is returned. */
static inline bool mortarsedge_take_word(const uint8_t record[MORTARSEDGE_LOG_RECORD], struct mortarsedge_word *word)
{
    uint32_t channel = (uint32_t)mortarsedge_little_endian(record, 2);
    bool received = channel >= 1 && channel <= MORTARSEDGE_MAX_CHANNELS;
    word->channel = received ? channel : 0;
    for (size_t i = 0; i < MORTARSEDGE_LEVELS; i++)
        word->level[i] = received ? (uint32_t)mortarsedge_little_endian(record + 2 + 2 * i, 2) : 0;
    return received;
}

/* A step that a dispatch made, taken apart. */
struct mortarsedge_made {
    uint32_t kind, task, number; /* the step: a delivery or a run */
    uint32_t answer;             /* 0, or the refusal, 10 to 19 */
    bool received;               /* whether a word was received; if so, */
    struct mortarsedge_word word; /* this one; else zeros */
};

/* Takes a step that a dispatch made and its report apart: the one at this index, below
 * mortarsedge_made_count of the answer. steps and records are those of the call. */
static inline void mortarsedge_take_made(const uint8_t *steps, const uint8_t *records, size_t index,
                                         struct mortarsedge_made *made)
{
    const uint8_t *step = steps + MORTARSEDGE_STEP_BYTES * index;
    const uint8_t *report = records + MORTARSEDGE_REPORT * index;
    made->kind = step[0];
    made->task = step[1];
    made->number = (uint32_t)mortarsedge_little_endian(step + 2, 2);
    made->answer = report[0];
    made->received = mortarsedge_take_word(report + 1, &made->word);
}

/* What is shown of a task, taken apart. */
struct mortarsedge_view {
    uint32_t task;  /* its number */
    uint32_t state; /* enum mortarsedge_state */
    uint32_t desk;  /* 0: unborn or moving */
    uint32_t place; /* of its next instruction, from 1 */
    uint32_t level[MORTARSEDGE_LEVELS]; /* of its word; not shown by a tablet: 0, as what follows */
    uint64_t children; /* living: bit t - 1 for task t */
    uint32_t living;   /* how many they are */
};

/* Takes a tablet's view apart, as mortarsedge_tablet_view leaves it. */
static inline void mortarsedge_take_tablet(const uint8_t out[MORTARSEDGE_TABLET_VIEW], struct mortarsedge_view *view)
{
    view->task = out[0];
    view->state = out[1];
    view->desk = out[2];
    view->place = out[3];
    for (size_t i = 0; i < MORTARSEDGE_LEVELS; i++)
        view->level[i] = 0;
    view->children = 0;
    view->living = 0;
}

/* Takes the driver's view apart, as mortarsedge_driver_view leaves it. */
static inline void mortarsedge_take_view(const uint8_t out[MORTARSEDGE_DRIVER_VIEW], struct mortarsedge_view *view)
{
    mortarsedge_take_tablet(out, view);
    for (size_t i = 0; i < MORTARSEDGE_LEVELS; i++)
        view->level[i] = (uint32_t)mortarsedge_little_endian(out + 4 + 2 * i, 2);
    view->children = mortarsedge_little_endian(out + 12, 8);
    view->living = out[20];
}

/* A word for the state of a task. */
static inline const char *mortarsedge_state_text(uint32_t state)
{
    switch (state) {
    case MORTARSEDGE_UNBORN:
        return "unborn";
    case MORTARSEDGE_READY:
        return "ready";
    case MORTARSEDGE_WAITING:
        return "waiting";
    case MORTARSEDGE_SENDING:
        return "sending";
    case MORTARSEDGE_RECEIVING:
        return "receiving";
    case MORTARSEDGE_MOVING:
        return "moving";
    case MORTARSEDGE_DONE:
        return "done";
    default:
        return "not a state";
    }
}

/* Puts a record of a log: the channel and the word's four levels. */
static inline void mortarsedge_put_log_record(uint8_t out[MORTARSEDGE_LOG_RECORD], uint16_t channel,
                                              const uint16_t level[MORTARSEDGE_LEVELS])
{
    out[0] = (uint8_t)(channel % 256);
    out[1] = (uint8_t)(channel / 256);
    for (size_t i = 0; i < MORTARSEDGE_LEVELS; i++) {
        out[2 + 2 * i] = (uint8_t)(level[i] % 256);
        out[3 + 2 * i] = (uint8_t)(level[i] / 256);
    }
}

/* Puts a step into the four bytes out[0] to out[3]. A kind or a task above 255
 * or a number above 65,535 does not fit its field: then false is returned and
 * the bytes are zero, a step that is answered 19 and changes nothing. It is not
 * looked at whether the step is well formed; that is the core's to say. */
static inline bool mortarsedge_put_step(uint8_t out[MORTARSEDGE_STEP_BYTES], uint32_t kind, uint32_t task,
                                        uint32_t number)
{
    bool fits = kind <= 255 && task <= 255 && number <= 65535;
    out[0] = (uint8_t)(fits ? kind : 0);
    out[1] = (uint8_t)(fits ? task : 0);
    out[2] = (uint8_t)(fits ? number % 256 : 0);
    out[3] = (uint8_t)(fits ? number / 256 : 0);
    return fits;
}

/* What a line of a trace is. */
enum mortarsedge_line_kind {
    MORTARSEDGE_LINE_OTHER = 0, /* no line of a trace */
    MORTARSEDGE_LINE_STEP = 1,  /* a step's line */
    MORTARSEDGE_LINE_END = 2,   /* the last line */
    MORTARSEDGE_LINE_OVER = 3   /* a marked task's line */
};

/* A line of a trace, taken apart. What does not belong to its kind is 0, which
 * is also the answer to an accepted step: the kind is to be looked at first. */
struct mortarsedge_line {
    enum mortarsedge_line_kind kind;
    uint32_t step;    /* of a step's line: the step's number, 1 to 2,000; */
    uint32_t answer;  /* 0, or the refusal, 10 to 19; */
    bool received;    /* whether a word was received; if so, */
    uint32_t channel; /* its channel, 1 to 128, */
    uint32_t level[MORTARSEDGE_LEVELS]; /* and its levels, 0 to 65,535 each */
    bool at_rest;     /* of the last line: whether the rig is at rest; */
    uint32_t letters; /* how many letters are in the mail, 0 to 256, 0 at rest */
    uint32_t task;    /* of a marked task's line: the task, 1 to 64 */
};

/* The numbers on a line: step, answer, channel, levels. */
enum { MORTARSEDGE_LINE_FIELDS = 3 + MORTARSEDGE_LEVELS };

/* For mortarsedge_take_line: how many bytes the first line has, its line feed
 * with them; 0 if there is no line feed. */
static inline size_t mortarsedge_line_length(const uint8_t *text, size_t length)
{
    for (size_t i = 0; i < length; i++)
        if (text[i] == '\n')
            return i + 1;
    return 0;
}

/* For mortarsedge_take_line: decimals from 0 to 65,535 with one space between,
 * none with a zero in front. Returns how many; 0 if the text is anything else. */
static inline size_t mortarsedge_line_fields(const uint8_t *text, size_t length,
                                             uint32_t fields[MORTARSEDGE_LINE_FIELDS])
{
    size_t count = 0, at = 0;
    for (;;) {
        size_t first = at;
        uint32_t number = 0;
        for (; at < length && text[at] >= '0' && text[at] <= '9' && number <= 65535; at++)
            number = 10 * number + (uint32_t)(text[at] - '0');
        if (count == MORTARSEDGE_LINE_FIELDS || at == first || number > 65535)
            return 0;
        if (text[first] == '0' && at - first > 1)
            return 0;
        fields[count++] = number;
        if (at == length)
            return count;
        if (text[at++] != ' ')
            return 0;
    }
}

/* For mortarsedge_take_line: a step's line, of these fields. */
static inline void mortarsedge_step_line(const uint32_t *fields, size_t count, struct mortarsedge_line *line)
{
    bool received = count == MORTARSEDGE_LINE_FIELDS;
    if (count != 2 && !received)
        return;
    if (fields[0] < 1 || fields[0] > MORTARSEDGE_MAX_STEPS)
        return;
    if (fields[1] != MORTARSEDGE_ACCEPTED
        && (received || fields[1] < MORTARSEDGE_NO_TASK || fields[1] > MORTARSEDGE_BAD_STEP))
        return;
    if (received && (fields[2] < 1 || fields[2] > MORTARSEDGE_MAX_CHANNELS))
        return;
    line->kind = MORTARSEDGE_LINE_STEP;
    line->step = fields[0];
    line->answer = fields[1];
    line->received = received;
    line->channel = received ? fields[2] : 0;
    for (size_t i = 0; i < MORTARSEDGE_LEVELS; i++)
        line->level[i] = received ? fields[3 + i] : 0;
}

/* For mortarsedge_take_line: the last line, of these fields behind `end`. */
static inline void mortarsedge_end_line(const uint32_t *fields, size_t count, struct mortarsedge_line *line)
{
    if (count != 2 || fields[0] > 1 || fields[1] > MORTARSEDGE_MAX_LETTERS)
        return;
    if (fields[0] == 1 && fields[1] != 0)
        return;
    line->kind = MORTARSEDGE_LINE_END;
    line->at_rest = fields[0] == 1;
    line->letters = fields[1];
}

/* For mortarsedge_take_line: a marked task's line, of these fields behind `over`. */
static inline void mortarsedge_over_line(const uint32_t *fields, size_t count, struct mortarsedge_line *line)
{
    if (count != 1 || fields[0] < 1 || fields[0] > MORTARSEDGE_MAX_TASKS)
        return;
    line->kind = MORTARSEDGE_LINE_OVER;
    line->task = fields[0];
}

/* Takes the first line of a text apart: length readable bytes, any bytes.
 * Returns how many bytes the line has, its line feed with them, which is where
 * the next line begins; 0 if there is no whole line. The line's kind is then
 * MORTARSEDGE_LINE_OTHER, and so it is of every line that can stand in no trace.
 * So the numbers of a line are within the ranges above, and a channel may be
 * used as an index without another test.
 *
 *     for (at = 0; (taken = mortarsedge_take_line(out + at, filled - at, &line)) > 0; at += taken)
 *         if (line.received)
 *             memcpy(levels[line.channel], line.level, sizeof line.level);
 */
static inline size_t mortarsedge_take_line(const uint8_t *text, size_t length, struct mortarsedge_line *line)
{
    const struct mortarsedge_line none = {MORTARSEDGE_LINE_OTHER, 0, 0, false, 0, {0, 0, 0, 0}, false, 0, 0};
    uint32_t fields[MORTARSEDGE_LINE_FIELDS] = {0, 0, 0, 0, 0, 0, 0};
    size_t taken = mortarsedge_line_length(text, length);
    *line = none;
    if (taken >= 5 && text[0] == 'e' && text[1] == 'n' && text[2] == 'd' && text[3] == ' ')
        mortarsedge_end_line(fields, mortarsedge_line_fields(text + 4, taken - 5, fields), line);
    else if (taken >= 6 && text[0] == 'o' && text[1] == 'v' && text[2] == 'e' && text[3] == 'r' && text[4] == ' ')
        mortarsedge_over_line(fields, mortarsedge_line_fields(text + 5, taken - 6, fields), line);
    else if (taken > 0)
        mortarsedge_step_line(fields, mortarsedge_line_fields(text, taken - 1, fields), line);
    return taken;
}

/* One line of text for an answer of a call or of a step. */
static inline const char *mortarsedge_refusal_text(uint32_t number)
{
    switch (number) {
    case MORTARSEDGE_ACCEPTED:
        return "accepted";
    case MORTARSEDGE_BAD_DESKS:
        return "desks not 1 to 6";
    case MORTARSEDGE_BAD_LAYOUT:
        return "plan under 4 bytes, tasks or a count out of range, instructions not the counts' sum, "
               "or a wrong offset or length";
    case MORTARSEDGE_BAD_INSTRUCTION:
        return "instruction of unknown kind, second byte above 3 for set and add or not zero for other kinds, "
               "or argument out of range";
    case MORTARSEDGE_BAD_FINISH:
        return "finish not exactly the last instruction of a task";
    case MORTARSEDGE_BAD_CREATE:
        return "a task from 2 on not created exactly once, or not by a lower number";
    case MORTARSEDGE_BAD_CHANNEL:
        return "a channel with two sending or two receiving tasks, one task at both ends, or only one end";
    case MORTARSEDGE_BAD_STEP_FILE:
        return "step file's length no multiple of 4, or over 2,000 steps";
    case MORTARSEDGE_BAD_RIG:
        return "no image of a rig, a number in the rig outside the limits, or a plan in it that would be refused";
    case MORTARSEDGE_NO_TASK:
        return "no such task";
    case MORTARSEDGE_NOT_READY:
        return "task not ready";
    case MORTARSEDGE_FINISH_CHILDREN:
        return "finish with living children";
    case MORTARSEDGE_MAIL_FULL:
        return "the letters needed do not fit in the mail";
    case MORTARSEDGE_NO_LETTER:
        return "no letter at this position";
    case MORTARSEDGE_NO_DESK:
        return "desk outside the rig";
    case MORTARSEDGE_SAME_DESK:
        return "task already at this desk";
    case MORTARSEDGE_MOVE_CHILDREN:
        return "unused: a task with living children may move";
    case MORTARSEDGE_MOVE_COUNT:
        return "move count 9,999";
    case MORTARSEDGE_BAD_STEP:
        return "kind of step not 1 to 3, or an unused field not zero";
    case MORTARSEDGE_OUTPUT_SHORT:
        return "the lent output is too short";
    case MORTARSEDGE_BAD_LOG_LENGTH:
        return "log's length no multiple of 10, or over 4,096 records";
    case MORTARSEDGE_BAD_LOG_RECORD:
        return "a channel in a log outside 1 to 128";
    case MORTARSEDGE_TOO_MANY_FORWARDS:
        return "more than 500 forwards";
    case MORTARSEDGE_BAD_REPEAT:
        return "a repeat or its end nested or unpaired in its task";
    case MORTARSEDGE_REPEATED_CREATE:
        return "a create within a repeat";
    case MORTARSEDGE_TOO_LONG:
        return "a task over 64 instructions when written out";
    default:
        return "not a number of the paper";
    }
}

#ifdef __cplusplus
}
#endif

#endif
