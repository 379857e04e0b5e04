/* The header, as C99, C11 and C++11: it compiles alone, links, and its functions
 * agree with the paper's numbers. */
#include "mortarsedge.h"

#include <stdio.h>
#include <stdlib.h>
#include <string.h>

static int failures;

static void expect(int holds, const char *what)
{
    if (!holds) {
        fprintf(stderr, "header_test: %s\n", what);
        failures++;
    }
}

/* Every number of the paper has a text of its own; 7 and 27 are none. */
static void texts_differ(void)
{
    const char *none = mortarsedge_refusal_text(7);
    expect(strcmp(mortarsedge_refusal_text(27), none) == 0, "27 has a text");
    for (uint32_t i = 0; i <= 26; i++)
        for (uint32_t j = 0; j < i; j++)
            expect(strcmp(mortarsedge_refusal_text(i), mortarsedge_refusal_text(j)) != 0, "two texts are one");
}

static void sizes_are_right(void)
{
    expect(MORTARSEDGE_OUTPUT_ENOUGH == 70513, "enough output");
    expect(MORTARSEDGE_MAX_PLAN == 16644, "longest plan");
    expect(MORTARSEDGE_MAX_STEP_FILE == 8000, "longest step file");
    expect(strlen("2000 0 128 65535 65535 65535 65535\n") == MORTARSEDGE_MAX_LINE, "longest line");
    expect(strlen("over 64\n") == MORTARSEDGE_MAX_OVER_LINE, "longest line of a marked task");
    expect(strlen("end 0 256\n") == MORTARSEDGE_MAX_END_LINE, "longest last line");
    expect(MORTARSEDGE_MAX_LOG == 40960, "longest log");
    expect(strlen("yes 4096\n") == MORTARSEDGE_MAX_FINISH_LINE, "longest first line of a finish check");
    expect(strlen("63 64\n") == MORTARSEDGE_MAX_STUCK_LINE, "longest line of a stuck task");
    expect(MORTARSEDGE_FINISH_ENOUGH == 393, "enough output of a finish check");
    expect(MORTARSEDGE_MAX_CHASE == 6044, "longest chase");
    expect(MORTARSEDGE_RIG_SIZE == 34120, "image of a rig");
    expect(MORTARSEDGE_REPORT == 11 && MORTARSEDGE_DISPATCH_RECORDS == 22, "reports of a dispatch");
    expect(MORTARSEDGE_TABLET_VIEW == 4 && MORTARSEDGE_DRIVER_VIEW == 21, "views");
}

/* A plan of one finish, and an empty step file. */
static void calls_link(void)
{
    static const uint8_t plan[12] = {1, 0, 1, 0, 8, 0, 1, 0, MORTARSEDGE_INSTRUCTION_FINISH, 0, 0, 0};
    uint8_t out[9] = {0};
    expect(mortarsedge_plan_check(0, plan, sizeof plan) == MORTARSEDGE_BAD_DESKS, "plan check: 1");
    expect(mortarsedge_plan_check(1, NULL, 0) == MORTARSEDGE_BAD_LAYOUT, "plan check: 2");
    expect(mortarsedge_plan_check(1, plan, sizeof plan) == MORTARSEDGE_ACCEPTED, "plan check: 0");
    uint64_t answer = mortarsedge_run(1, plan, sizeof plan, NULL, 0, out, 8);
    expect(mortarsedge_number(answer) == 0 && mortarsedge_filled(answer) == 8, "run: 0");
    expect(memcmp(out, "end 0 0\n", 9) == 0, "run: the trace");
    answer = mortarsedge_run(1, plan, sizeof plan, NULL, 0, out, 7);
    expect(mortarsedge_number(answer) == MORTARSEDGE_OUTPUT_SHORT && mortarsedge_filled(answer) == 0, "run: 20");
    answer = mortarsedge_run(1, plan, sizeof plan, plan, 3, out, 8);
    expect(answer == MORTARSEDGE_BAD_STEP_FILE, "run: 8");
}

/* The steps that dispatchers choose for a plan of one finish: a run of task 1. */
static void steps_are_chosen(void)
{
    static const uint8_t plan[12] = {1, 0, 1, 0, 8, 0, 1, 0, MORTARSEDGE_INSTRUCTION_FINISH, 0, 0, 0};
    static const uint8_t run[4] = {MORTARSEDGE_STEP_RUN, 1, 0, 0};
    uint8_t steps[5] = {9, 9, 9, 9, 9}, out[16];
    expect(mortarsedge_choose(7, plan, sizeof plan, steps, sizeof steps) == MORTARSEDGE_BAD_DESKS, "choose: 1");
    expect(mortarsedge_choose(1, plan, 3, steps, sizeof steps) == MORTARSEDGE_BAD_LAYOUT, "choose: 2");
    expect(mortarsedge_choose(1, plan, sizeof plan, steps, 3) == MORTARSEDGE_OUTPUT_SHORT, "choose: 20");
    expect(steps[0] == 9 && steps[4] == 9, "choose: refused, and steps are written");
    uint64_t answer = mortarsedge_choose(6, plan, sizeof plan, steps, sizeof steps);
    expect(mortarsedge_number(answer) == 0 && mortarsedge_filled(answer) == 4, "choose: 0");
    expect(memcmp(steps, run, sizeof run) == 0 && steps[4] == 9, "choose: the steps");
    answer = mortarsedge_run(6, plan, sizeof plan, steps, mortarsedge_filled(answer), out, sizeof out);
    expect(answer == 256 * 12 && memcmp(out, "1 0\nend 1 0\n", 12) == 0, "choose: the run of the steps");
}

/* The panel of one task that only finishes, on one desk: its run is accepted, its move is to where it is. */
static void panel_is_counted(void)
{
    static const uint8_t plan[12] = {1, 0, 1, 0, 8, 0, 1, 0, MORTARSEDGE_INSTRUCTION_FINISH, 0, 0, 0};
    uint32_t counts[MORTARSEDGE_PANEL_COUNTS + 1] = {0};
    counts[MORTARSEDGE_PANEL_COUNTS] = 7;
    expect(mortarsedge_panel_after(0, plan, sizeof plan, NULL, 0, counts, 28) == MORTARSEDGE_BAD_DESKS, "panel: 1");
    expect(mortarsedge_panel_after(1, plan, sizeof plan, plan, 3, counts, 28) == MORTARSEDGE_BAD_STEP_FILE, "panel: 8");
    expect(mortarsedge_panel_after(1, plan, sizeof plan, NULL, 0, counts, 26) == MORTARSEDGE_OUTPUT_SHORT, "panel: 20");
    expect(counts[0] == 0, "panel: a refused call writes");
    expect(mortarsedge_panel_after(1, plan, sizeof plan, NULL, 0, counts, 28) == MORTARSEDGE_ACCEPTED, "panel: 0");
    expect(counts[0] == 1 && counts[14] == 256 && counts[16] == 1, "panel: the counts");
    expect(counts[MORTARSEDGE_PANEL_COUNTS] == 7, "panel: behind the counts");
}

/* Two logs: each answer, the records put by the header. */
static void logs_are_held(void)
{
    static const uint16_t first[4] = {1, 2, 3, 4}, second[4] = {256, 65535, 0, 772}, third[4] = {1, 2, 3, 5};
    static const uint8_t bytes[10] = {2, 1, 0, 1, 255, 255, 0, 0, 4, 3};
    uint8_t sent[30], received[30];
    mortarsedge_put_log_record(sent, 258, second);
    expect(memcmp(sent, bytes, sizeof bytes) == 0, "a record's bytes");
    mortarsedge_put_log_record(sent, 5, first);
    mortarsedge_put_log_record(sent + 10, 128, second);
    mortarsedge_put_log_record(sent + 20, 5, second);
    memcpy(received, sent + 10, 10);
    memcpy(received + 10, sent, 10);
    mortarsedge_put_log_record(received + 20, 5, third);
    expect(mortarsedge_logs(NULL, 0, NULL, 0) == 0, "logs: empty");
    expect(mortarsedge_logs(sent, 30, received, 20) == 0, "logs: yes");
    expect(mortarsedge_logs(sent, 30, received, 30) == 256 * 5, "logs: no");
    expect(mortarsedge_channel(mortarsedge_logs(NULL, 0, received, 10)) == 128, "logs: no, channel 128");
    expect(mortarsedge_logs(sent, 29, received, 30) == MORTARSEDGE_BAD_LOG_LENGTH, "logs: 24");
    received[0] = 129;
    expect(mortarsedge_number(mortarsedge_logs(sent, 30, received, 30)) == MORTARSEDGE_BAD_LOG_RECORD, "logs: 25");
    expect(mortarsedge_logs(sent, 29, received, 30) == MORTARSEDGE_BAD_LOG_LENGTH, "logs: 24 before 25");
}

/* A set that is repeated twice, in the first of two tasks: 6 instructions, 5 when written out. */
static const uint8_t repeating_plan[36] = {
    2, 0, 6, 0, 12, 0, 5, 0, 32, 0, 1, 0,
    MORTARSEDGE_INSTRUCTION_REPEAT, 0, 2, 0, MORTARSEDGE_INSTRUCTION_SET, 3, 7, 1,
    MORTARSEDGE_INSTRUCTION_REPEAT_END, 0, 0, 0, MORTARSEDGE_INSTRUCTION_CREATE, 0, 2, 0,
    MORTARSEDGE_INSTRUCTION_FINISH, 0, 0, 0, MORTARSEDGE_INSTRUCTION_FINISH, 0, 0, 0};

static const uint8_t written_plan[32] = {
    2, 0, 5, 0, 12, 0, 4, 0, 28, 0, 1, 0,
    MORTARSEDGE_INSTRUCTION_SET, 3, 7, 1, MORTARSEDGE_INSTRUCTION_SET, 3, 7, 1,
    MORTARSEDGE_INSTRUCTION_CREATE, 0, 2, 0, MORTARSEDGE_INSTRUCTION_FINISH, 0, 0, 0,
    MORTARSEDGE_INSTRUCTION_FINISH, 0, 0, 0};

/* What is answered with another instruction at a place of the plan. */
static void conversion_is(uint32_t number, size_t place, uint8_t kind, uint8_t argument)
{
    uint8_t plan[36], out[256], before[256];
    memcpy(plan, repeating_plan, sizeof plan);
    plan[place] = kind;
    plan[place + 1] = 0;
    plan[place + 2] = argument;
    plan[place + 3] = 0;
    memset(before, 0xa5, sizeof before);
    memcpy(out, before, sizeof out);
    expect(mortarsedge_convert(plan, sizeof plan, out, sizeof out) == number, mortarsedge_refusal_text(number));
    expect(memcmp(out, before, sizeof out) == 0, "a refused conversion leaves the output");
}

/* Each refusal of the converter, and the written-out plan in an output of just its length. */
static void repeats_are_converted(void)
{
    uint8_t out[33];
    memset(out, 0xa5, sizeof out);
    conversion_is(MORTARSEDGE_BAD_INSTRUCTION, 12, MORTARSEDGE_INSTRUCTION_REPEAT, 65);
    conversion_is(MORTARSEDGE_BAD_REPEAT, 20, MORTARSEDGE_INSTRUCTION_SYNC, 0);
    conversion_is(MORTARSEDGE_REPEATED_CREATE, 16, MORTARSEDGE_INSTRUCTION_CREATE, 2);
    conversion_is(MORTARSEDGE_TOO_LONG, 12, MORTARSEDGE_INSTRUCTION_REPEAT, 63);
    conversion_is(MORTARSEDGE_BAD_FINISH, 16, MORTARSEDGE_INSTRUCTION_FINISH, 0);
    conversion_is(MORTARSEDGE_BAD_CREATE, 24, MORTARSEDGE_INSTRUCTION_SYNC, 0);
    conversion_is(MORTARSEDGE_BAD_CHANNEL, 16, MORTARSEDGE_INSTRUCTION_SEND, 1);
    expect(mortarsedge_convert(NULL, 0, out, 32) == MORTARSEDGE_BAD_LAYOUT, "convert: 2");
    expect(mortarsedge_convert(repeating_plan, sizeof repeating_plan, out, 31) == MORTARSEDGE_OUTPUT_SHORT, "convert: 20");
    expect(out[0] == 0xa5, "a short output is left");
    uint64_t answer = mortarsedge_convert(repeating_plan, sizeof repeating_plan, out, 32);
    expect(mortarsedge_number(answer) == MORTARSEDGE_ACCEPTED && mortarsedge_filled(answer) == 32, "convert: 0");
    expect(memcmp(out, written_plan, 32) == 0 && out[32] == 0xa5, "the written-out plan");
    expect(mortarsedge_plan_check(1, repeating_plan, sizeof repeating_plan) == MORTARSEDGE_BAD_INSTRUCTION,
           "a repeat in the present edition");
    expect(mortarsedge_plan_check(1, out, 32) == MORTARSEDGE_ACCEPTED, "the written-out plan is accepted");
}

/* A chase: each answer, an output of just its length, and the run of what is written. */
static void chases_are_written(void)
{
    uint8_t plan[33], steps[MORTARSEDGE_MAX_CHASE + 1], zeros[MORTARSEDGE_MAX_CHASE + 1] = {0};
    static uint8_t out[MORTARSEDGE_OUTPUT_ENOUGH];
    for (uint32_t m = 0; m <= MORTARSEDGE_MAX_FORWARDS; m++) {
        size_t length = 12 * (size_t)m + 44;
        memset(plan, 0xa5, sizeof plan);
        memset(steps, 0xa5, sizeof steps);
        uint64_t answer = mortarsedge_chase(m, plan, 32, steps, length);
        expect(mortarsedge_number(answer) == 0 && mortarsedge_filled(answer) == length, "chase: 0");
        expect(plan[32] == 0xa5 && steps[length] == 0xa5, "chase: bytes behind");
        answer = mortarsedge_run(3, plan, 32, steps, length, out, sizeof out);
        size_t filled = mortarsedge_filled(answer);
        expect(mortarsedge_number(answer) == 0, "chase: the run");
        expect(filled >= 8 && memcmp(out + filled - 8, "end 1 0\n", 8) == 0, "chase: at rest");
    }
    memset(plan, 0, sizeof plan);
    memset(steps, 0, sizeof steps);
    expect(mortarsedge_chase(501, plan, 32, steps, sizeof steps) == MORTARSEDGE_TOO_MANY_FORWARDS, "chase: 26");
    expect(mortarsedge_chase(501, NULL, 0, NULL, 0) == MORTARSEDGE_TOO_MANY_FORWARDS, "chase: 26 before 20");
    expect(mortarsedge_chase(4294967295u, plan, 32, steps, sizeof steps) == MORTARSEDGE_TOO_MANY_FORWARDS, "chase: 26, the largest");
    expect(mortarsedge_chase(7, plan, 31, steps, sizeof steps) == MORTARSEDGE_OUTPUT_SHORT, "chase: 20 of the plan");
    expect(mortarsedge_chase(7, plan, 32, steps, 127) == MORTARSEDGE_OUTPUT_SHORT, "chase: 20 of the steps");
    expect(memcmp(plan, zeros, sizeof plan) == 0 && memcmp(steps, zeros, sizeof steps) == 0, "chase: outputs untouched");
}

/* Whether a step is put as these bytes, and no byte around them is written. */
static bool put_is(uint32_t kind, uint32_t task, uint32_t number, bool fits, const uint8_t bytes[4])
{
    uint8_t out[6] = {0xa5, 0xa5, 0xa5, 0xa5, 0xa5, 0xa5};
    bool answer = mortarsedge_put_step(out + 1, kind, task, number);
    return answer == fits && memcmp(out + 1, bytes, 4) == 0 && out[0] == 0xa5 && out[5] == 0xa5;
}

/* Every kind with every task, and every number; then fields that do not fit. */
static void steps_are_put(void)
{
    static const uint32_t large[5] = {65536, 65537, 16777216, 2147483648u, 4294967295u};
    static const uint8_t zeros[4] = {0, 0, 0, 0};
    for (uint32_t kind = 0; kind <= 255; kind++)
        for (uint32_t task = 0; task <= 255; task++) {
            uint8_t bytes[4] = {(uint8_t)kind, (uint8_t)task, 0x34, 0x12};
            expect(put_is(kind, task, 0x1234, true, bytes), "a step's kind and task");
        }
    for (uint32_t number = 0; number <= 65535; number++) {
        uint8_t bytes[4] = {3, 2, (uint8_t)(number & 255), (uint8_t)(number >> 8)};
        expect(put_is(3, 2, number, true, bytes), "a step's number");
    }
    expect(put_is(256, 1, 1, false, zeros), "kind 256");
    expect(put_is(1, 256, 1, false, zeros), "task 256");
    for (int i = 0; i < 5; i++) {
        expect(put_is(large[i], 1, 1, false, zeros), "a large kind");
        expect(put_is(1, large[i], 1, false, zeros), "a large task");
        expect(put_is(1, 1, large[i], false, zeros), "a large number");
    }
}

/* The first line of a text, in memory that is not a byte longer. */
static size_t take(const uint8_t *text, size_t length, struct mortarsedge_line *line)
{
    uint8_t *copy = (uint8_t *)malloc(length);
    size_t taken;
    memset(line, 0xa5, sizeof *line);
    if (copy == NULL && length > 0)
        exit(2);
    if (length > 0)
        memcpy(copy, text, length);
    taken = mortarsedge_take_line(copy, length, line);
    free(copy);
    return taken;
}

static size_t take_text(const char *text, struct mortarsedge_line *line)
{
    return take((const uint8_t *)text, strlen(text), line);
}

/* The text of a line; a text that is none where the line is none. */
static void write_line(const struct mortarsedge_line *line, char text[64])
{
    if (line->kind == MORTARSEDGE_LINE_END)
        sprintf(text, "end %u %u\n", (unsigned)line->at_rest, (unsigned)line->letters);
    else if (line->kind == MORTARSEDGE_LINE_OVER)
        sprintf(text, "over %u\n", (unsigned)line->task);
    else if (line->kind == MORTARSEDGE_LINE_STEP && line->received)
        sprintf(text, "%u %u %u %u %u %u %u\n", (unsigned)line->step, (unsigned)line->answer, (unsigned)line->channel,
                (unsigned)line->level[0], (unsigned)line->level[1], (unsigned)line->level[2], (unsigned)line->level[3]);
    else if (line->kind == MORTARSEDGE_LINE_STEP)
        sprintf(text, "%u %u\n", (unsigned)line->step, (unsigned)line->answer);
    else
        text[0] = '\0';
}

static bool same_line(const struct mortarsedge_line *a, const struct mortarsedge_line *b)
{
    return a->kind == b->kind && a->step == b->step && a->answer == b->answer && a->received == b->received
        && a->channel == b->channel && memcmp(a->level, b->level, sizeof a->level) == 0 && a->at_rest == b->at_rest && a->letters == b->letters
        && a->task == b->task;
}

/* A line is written and taken apart again, alone and with another behind it; cut short it is no line. */
static void line_is_taken(struct mortarsedge_line line)
{
    static const struct mortarsedge_line none = {MORTARSEDGE_LINE_OTHER, 0, 0, false, 0, {0, 0, 0, 0}, false, 0, 0};
    struct mortarsedge_line got;
    char text[80];
    write_line(&line, text);
    size_t length = strlen(text);
    expect(take_text(text, &got) == length && same_line(&got, &line), "a line is taken apart");
    strcat(text, "end 1");
    expect(take_text(text, &got) == length && same_line(&got, &line), "a line before others is taken apart");
    for (size_t cut = 0; cut < length; cut++)
        expect(take((const uint8_t *)text, cut, &got) == 0 && same_line(&got, &none), "a line cut short is taken");
}

/* Every task over the top, every step with every answer, every channel, on channel 128 every number as a level, and every number of letters. */
static void lines_are_taken(void)
{
    struct mortarsedge_line step = {MORTARSEDGE_LINE_STEP, 1, 0, false, 0, {0, 0, 0, 0}, false, 0, 0};
    struct mortarsedge_line word = {MORTARSEDGE_LINE_STEP, 9, 0, true, 3, {7, 0, 0, 0}, false, 0, 0};
    struct mortarsedge_line over = {MORTARSEDGE_LINE_OVER, 0, 0, false, 0, {0, 0, 0, 0}, false, 0, 1};
    struct mortarsedge_line end = {MORTARSEDGE_LINE_END, 0, 0, false, 0, {0, 0, 0, 0}, true, 0, 0};
    for (over.task = 1; over.task <= MORTARSEDGE_MAX_TASKS; over.task++)
        line_is_taken(over);
    for (step.step = 1; step.step <= MORTARSEDGE_MAX_STEPS; step.step++)
        for (step.answer = 0; step.answer <= 19; step.answer = step.answer == 0 ? 10 : step.answer + 1)
            line_is_taken(step);
    for (word.channel = 1; word.channel <= MORTARSEDGE_MAX_CHANNELS; word.channel++)
        for (uint32_t n = 0; n <= 65535; n += 1 + 127 * (word.channel % 128)) {
            word.level[word.channel % 4] = n;
            word.level[(n + 1) % 4] = 65535 - n;
            line_is_taken(word);
        }
    line_is_taken(end);
    end.at_rest = false;
    for (end.letters = 0; end.letters <= MORTARSEDGE_MAX_LETTERS; end.letters++)
        line_is_taken(end);
}

/* Whole lines that stand in no trace. */
static void others_are_told(void)
{
    static const char *const others[] = {
        "\n", " \n", "1\n", "1 \n", " 1 0\n", "1 0 \n", "1  0\n", "1\t0\n", "1 0\r\n", "1 0 3\n", "1 0 3 \n",
        "1 0 3 7\n", "1 0 3 7 0 0\n", "1 0 3 7 0 0 0 \n", "1 0 3 7 0 0 0 0\n", "1 0 3 7 0 0  0\n", "1,0\n", "1 x\n", "x 1\n", "-1 0\n", "+1 0\n", "1 -0\n",
        "0 0\n", "2001 0\n", "01 0\n", "1 00\n", "1 010\n", "1 1\n", "1 9\n", "1 20\n", "1 256\n", "1 65536\n",
        "1 10 3 7 0 0 0\n", "1 19 128 65535 0 0 0\n", "1 0 0 7 0 0 0\n", "1 0 129 7 0 0 0\n", "1 0 3 65536 0 0 0\n",
        "1 0 3 0 65536 0 0\n", "1 0 3 0 0 0 65536\n", "1 0 03 7 0 0 0\n", "1 0 3 7 00 0 0\n",
        "1 0 3 4294967296 0 0 0\n", "1 0 3 0 0 0 4294967303\n", "4294967297 0\n", "18446744073709551617 0\n",
        "99999999999999999999999999999999999999 0\n", "e\n", "en\n", "end\n", "end \n", "end 1\n", "end 1 \n",
        "end1 0\n", "end  1 0\n", "end 1 1\n", "end 2 0\n", "end 0 257\n", "end 0 00\n", "end 00 0\n", "end 0 0 0\n",
        "end 0 0 \n", "End 0 0\n", "ende 0 0\n", " end 0 0\n", "end\n0 0\n", "over\n", "over \n", "over 0\n", "over 65\n", "over 03\n", "over 3 \n", "over 3 0\n", "over  3\n", "over3\n", "Over 3\n",
        "overs 3\n", " over 3\n", "over\n3\n", "over 65539\n", "refused 2\n", "\0 1 0\n"};
    for (size_t i = 0; i < sizeof others / sizeof others[0]; i++) {
        struct mortarsedge_line line;
        size_t length = others[i][0] == '\0' ? 6 : strlen(others[i]);
        size_t first = 1 + (size_t)((const char *)memchr(others[i], '\n', length) - others[i]);
        size_t taken = take((const uint8_t *)others[i], length, &line);
        expect(taken == first && line.kind == MORTARSEDGE_LINE_OTHER, others[i]);
    }
    struct mortarsedge_line line;
    expect(mortarsedge_take_line(NULL, 0, &line) == 0 && line.kind == MORTARSEDGE_LINE_OTHER, "no text");
}

/* Of any bytes, what is taken for a line of a trace is that line and no other text. */
static void taken_is_written(const uint8_t *text, size_t length)
{
    struct mortarsedge_line line;
    char again[64];
    size_t taken = take(text, length, &line);
    const uint8_t *feed = length == 0 ? NULL : (const uint8_t *)memchr(text, '\n', length);
    expect(taken == (feed == NULL ? 0 : (size_t)(feed - text) + 1), "bytes taken");
    if (line.kind != MORTARSEDGE_LINE_OTHER) {
        write_line(&line, again);
        expect(strlen(again) == taken && memcmp(again, text, taken) == 0, "another line is read than there is");
    }
}

/* Lines with every byte at every place: put instead, put between, left out. */
static void bytes_are_told(void)
{
    static const char *const samples[] = {"9 0 3 7 0 0 0\n", "15 11\n", "end 1 0\n", "end 0 256\n", "over 64\n",
                                           "2000 0 128 65535 1 22 333\n"};
    for (size_t i = 0; i < sizeof samples / sizeof samples[0]; i++) {
        size_t length = strlen(samples[i]);
        for (size_t place = 0; place < length; place++) {
            uint8_t text[64] = {0};
            memcpy(text, samples[i], place);
            memcpy(text + place, samples[i] + place + 1, length - place - 1);
            taken_is_written(text, length - 1);
            memcpy(text + place + 1, samples[i] + place + 1, length - place - 1);
            for (unsigned byte = 0; byte <= 255; byte++) {
                text[place] = (uint8_t)byte;
                taken_is_written(text, length);
            }
            memcpy(text + place + 1, samples[i] + place, length - place);
            for (unsigned byte = 0; byte <= 255; byte++) {
                text[place] = (uint8_t)byte;
                taken_is_written(text, length + 1);
            }
        }
    }
}

/* The paper's worked run on two desks: its plan by names, its steps put, its trace taken apart. */
static const uint8_t worked_plan[44] = {
    2, 0, 8, 0, 12, 0, 5, 0, 32, 0, 3, 0,
    MORTARSEDGE_INSTRUCTION_CREATE, 0, 2, 0, MORTARSEDGE_INSTRUCTION_SET, 0, 7, 0,
    MORTARSEDGE_INSTRUCTION_SEND, 0, 3, 0, MORTARSEDGE_INSTRUCTION_SYNC, 0, 0, 0,
    MORTARSEDGE_INSTRUCTION_FINISH, 0, 0, 0,
    MORTARSEDGE_INSTRUCTION_RECEIVE, 0, 3, 0, MORTARSEDGE_INSTRUCTION_ADD, 0, 1, 0,
    MORTARSEDGE_INSTRUCTION_FINISH, 0, 0, 0};

enum { RUN = MORTARSEDGE_STEP_RUN, DELIVER = MORTARSEDGE_STEP_DELIVER, MOVE = MORTARSEDGE_STEP_MOVE, WORKED_STEPS = 15 };

static const uint32_t worked_steps[WORKED_STEPS][3] = {
    {RUN, 1, 0}, {RUN, 1, 0}, {MOVE, 2, 2}, {RUN, 1, 0}, {DELIVER, 0, 2}, {DELIVER, 0, 1}, {RUN, 2, 0}, {DELIVER, 0, 1},
    {DELIVER, 0, 1}, {RUN, 2, 0}, {RUN, 2, 0}, {RUN, 1, 0}, {DELIVER, 0, 1}, {RUN, 1, 0}, {RUN, 1, 0}};

static void worked_run_is_right(void)
{
    uint8_t steps[4 * WORKED_STEPS], out[200];
    struct mortarsedge_line line;
    size_t at = 0;
    for (size_t i = 0; i < WORKED_STEPS; i++)
        expect(mortarsedge_put_step(steps + 4 * i, worked_steps[i][0], worked_steps[i][1], worked_steps[i][2]),
               "a worked step is put");
    uint64_t answer = mortarsedge_run(2, worked_plan, sizeof worked_plan, steps, sizeof steps, out, sizeof out);
    size_t filled = mortarsedge_filled(answer);
    expect(mortarsedge_number(answer) == MORTARSEDGE_ACCEPTED, "the worked run is accepted");
    for (uint32_t step = 1; step <= WORKED_STEPS; step++) {
        bool word = step == 9;
        at += mortarsedge_take_line(out + at, filled - at, &line);
        expect(line.kind == MORTARSEDGE_LINE_STEP && line.step == step, "the worked run's steps");
        expect(line.answer == (step == 15 ? (uint32_t)MORTARSEDGE_NOT_READY : 0), "the worked run's answers");
        expect(line.received == word && line.channel == (word ? 3u : 0) && line.level[0] == (word ? 7u : 0),
               "the worked run's word");
        expect(line.level[1] == 0 && line.level[2] == 0 && line.level[3] == 0, "the worked run's other levels");
    }
    at += mortarsedge_take_line(out + at, filled - at, &line);
    expect(line.kind == MORTARSEDGE_LINE_END && line.at_rest && line.letters == 0, "the worked run's end");
    expect(at == filled && mortarsedge_take_line(out + at, filled - at, &line) == 0, "nothing behind the end");
}

/* The finish check of a plan into an output of so many bytes: the number, these bytes, and none behind them. */
static bool finish_is(const uint8_t *plan, size_t length, size_t room, uint32_t number, const char *text)
{
    uint8_t out[MORTARSEDGE_FINISH_ENOUGH + 1];
    size_t filled = strlen(text);
    memset(out, 0xa5, sizeof out);
    uint64_t answer = mortarsedge_finish(plan, length, out, room);
    for (size_t i = filled; i < sizeof out; i++)
        if (out[i] != 0xa5)
            return false;
    return mortarsedge_number(answer) == number && mortarsedge_filled(answer) == filled && memcmp(out, text, filled) == 0;
}

/* The paper's worked plan finishes. Two tasks that wait for each other do not: create 2, receive 1, send 2, finish;
 * receive 2, send 1, finish. Then each refusal: the same plan with four bytes changed. */
static void finish_is_told(void)
{
    static const uint8_t waiting[40] = {2, 0, 7, 0, 12, 0, 4, 0, 28, 0, 3, 0, MORTARSEDGE_INSTRUCTION_CREATE, 0, 2, 0,
                                        MORTARSEDGE_INSTRUCTION_RECEIVE, 0, 1, 0, MORTARSEDGE_INSTRUCTION_SEND, 0, 2, 0,
                                        MORTARSEDGE_INSTRUCTION_FINISH, 0, 0, 0, MORTARSEDGE_INSTRUCTION_RECEIVE, 0, 2, 0,
                                        MORTARSEDGE_INSTRUCTION_SEND, 0, 1, 0, MORTARSEDGE_INSTRUCTION_FINISH, 0, 0, 0};
    static const struct {
        size_t place;
        uint8_t bytes[4];
        uint32_t number;
    } damages[5] = {{0, {2, 0, 8, 0}, MORTARSEDGE_BAD_LAYOUT},
                    {12, {MORTARSEDGE_INSTRUCTION_CREATE, 1, 2, 0}, MORTARSEDGE_BAD_INSTRUCTION},
                    {16, {MORTARSEDGE_INSTRUCTION_FINISH, 0, 0, 0}, MORTARSEDGE_BAD_FINISH},
                    {12, {MORTARSEDGE_INSTRUCTION_SET, 0, 2, 0}, MORTARSEDGE_BAD_CREATE},
                    {32, {MORTARSEDGE_INSTRUCTION_SEND, 0, 3, 0}, MORTARSEDGE_BAD_CHANNEL}};
    const size_t enough = MORTARSEDGE_FINISH_ENOUGH;
    expect(finish_is(worked_plan, sizeof worked_plan, enough, 0, "yes 8\n"), "finish: yes");
    expect(finish_is(worked_plan, sizeof worked_plan, 6, 0, "yes 8\n"), "finish: yes, just enough");
    expect(finish_is(worked_plan, sizeof worked_plan, 5, MORTARSEDGE_OUTPUT_SHORT, ""), "finish: yes, too short");
    expect(finish_is(waiting, sizeof waiting, enough, 0, "no 3\n1 2\n2 1\n"), "finish: no");
    expect(finish_is(waiting, sizeof waiting, 13, 0, "no 3\n1 2\n2 1\n"), "finish: no, just enough");
    expect(finish_is(waiting, sizeof waiting, 12, MORTARSEDGE_OUTPUT_SHORT, "no 3\n1 2\n"), "finish: a line too short");
    expect(finish_is(waiting, sizeof waiting, 4, MORTARSEDGE_OUTPUT_SHORT, ""), "finish: no, too short");
    expect(mortarsedge_finish(NULL, 0, NULL, 0) == MORTARSEDGE_BAD_LAYOUT, "finish: an empty plan");
    for (size_t i = 0; i < 5; i++) {
        uint8_t plan[sizeof waiting];
        memcpy(plan, waiting, sizeof plan);
        memcpy(plan + damages[i].place, damages[i].bytes, 4);
        expect(finish_is(plan, sizeof plan, enough, damages[i].number, ""), "finish: a refused plan");
        expect(mortarsedge_plan_check(1, plan, sizeof plan) == damages[i].number, "finish: refused as by plan check");
    }
}

/* docs/driver.md, 'A rig that goes on': a step file that grows. */
struct growing {
    uint8_t steps[MORTARSEDGE_MAX_STEP_FILE + MORTARSEDGE_STEP_BYTES], out[MORTARSEDGE_OUTPUT_ENOUGH];
    size_t length; /* bytes of steps, all accepted */
    size_t read;   /* bytes of their lines */
};

/* One step more: its line. A step that is refused is left out again. The number of the run: 8 if the file is full. */
static uint32_t grow(struct growing *g, uint32_t kind, uint32_t task, uint32_t number, struct mortarsedge_line *line)
{
    mortarsedge_put_step(g->steps + g->length, kind, task, number);
    uint64_t answer = mortarsedge_run(2, worked_plan, sizeof worked_plan, g->steps, g->length + 4, g->out, sizeof g->out);
    if (mortarsedge_number(answer) != MORTARSEDGE_ACCEPTED)
        return mortarsedge_number(answer);
    size_t taken = mortarsedge_take_line(g->out + g->read, mortarsedge_filled(answer) - g->read, line);
    if (line->answer == MORTARSEDGE_ACCEPTED) {
        g->length += 4;
        g->read += taken;
    }
    return MORTARSEDGE_ACCEPTED;
}

/* The worked run step by step, with refused steps between; then the file is filled. */
static void growing_run_is_right(void)
{
    static struct growing g;
    struct mortarsedge_line line;
    for (uint32_t i = 0; i < WORKED_STEPS; i++) {
        expect(grow(&g, DELIVER, 0, 200, &line) == 0 && line.answer == MORTARSEDGE_NO_LETTER, "a refused step grows");
        expect(grow(&g, worked_steps[i][0], worked_steps[i][1], worked_steps[i][2], &line) == 0, "a worked step grows");
        expect(line.kind == MORTARSEDGE_LINE_STEP && line.step == i + 1 && line.received == (i == 8), "its line");
        expect(line.answer == (i == 14 ? (uint32_t)MORTARSEDGE_NOT_READY : 0), "its answer");
    }
    expect(g.length == 4 * 14, "the refused steps are left out");
    memset(&g, 0, sizeof g);
    grow(&g, RUN, 1, 0, &line);
    for (uint32_t i = 1; i < MORTARSEDGE_MAX_STEPS; i++)
        expect(grow(&g, i % 2 == 1 ? MOVE : DELIVER, i % 2 == 1 ? 2 : 0, i % 4 == 1 ? 2 : 1, &line) == 0
                   && line.answer == MORTARSEDGE_ACCEPTED, "task 2 goes to and fro");
    expect(grow(&g, MOVE, 2, 1, &line) == MORTARSEDGE_BAD_STEP_FILE, "a full file grows");
}

/* A live rig of the worked plan, and what is made of it. */
static uint8_t live_rig[MORTARSEDGE_RIG_SIZE + 1];

/* One step of it: the answer. A word that is received is the worked run's. */
static uint32_t live_step(uint32_t kind, uint32_t task, uint32_t number, bool receives)
{
    uint8_t record[MORTARSEDGE_LOG_RECORD];
    struct mortarsedge_word word;
    uint32_t answer = mortarsedge_step(live_rig, sizeof live_rig, kind, task, number, record, sizeof record);
    bool received = mortarsedge_take_word(record, &word);
    expect(received == receives, "live: a word, or none");
    expect(word.channel == (receives ? 3u : 0u) && word.level[0] == (receives ? 7u : 0u) && word.level[3] == 0, "live: the word");
    return answer;
}

/* The worked run, live. */
static void live_run_is_right(void)
{
    uint64_t rest;
    live_rig[MORTARSEDGE_RIG_SIZE] = 77;
    expect(mortarsedge_start(2, worked_plan, sizeof worked_plan, live_rig, MORTARSEDGE_RIG_SIZE - 1) == MORTARSEDGE_OUTPUT_SHORT, "start: 20");
    expect(mortarsedge_start(7, worked_plan, sizeof worked_plan, live_rig, 0) == MORTARSEDGE_BAD_DESKS, "start: 1");
    expect(live_rig[0] == 0, "start: refused, and the rig is written");
    expect(mortarsedge_number(mortarsedge_rest(live_rig, sizeof live_rig)) == MORTARSEDGE_BAD_RIG, "rest: 9");
    expect(live_step(RUN, 1, 0, false) == MORTARSEDGE_BAD_RIG, "step: 9");
    expect(mortarsedge_start(2, worked_plan, sizeof worked_plan, live_rig, sizeof live_rig) == MORTARSEDGE_ACCEPTED, "start: 0");
    expect(memcmp(live_rig, "RIG1", 4) == 0 && live_rig[12] == 2, "start: the image");
    for (uint32_t i = 0; i < WORKED_STEPS; i++) {
        rest = mortarsedge_rest(live_rig, sizeof live_rig);
        expect(mortarsedge_at_rest(rest) == (i == 14) && mortarsedge_letters(rest) <= 2, "live: rest on the way");
        expect(live_step(300, 0, 0, false) == MORTARSEDGE_BAD_STEP, "live: 19");
        uint32_t answer = live_step(worked_steps[i][0], worked_steps[i][1], worked_steps[i][2], i == 8);
        expect(answer == (i == 14 ? (uint32_t)MORTARSEDGE_NOT_READY : 0), "live: the answer");
    }
    rest = mortarsedge_rest(live_rig, sizeof live_rig);
    expect(mortarsedge_number(rest) == 0 && mortarsedge_at_rest(rest) && mortarsedge_letters(rest) == 0, "live: at rest");
    expect(live_rig[MORTARSEDGE_RIG_SIZE] == 77, "live: a byte behind the rig is written");
}

/* Each desk's dispatcher in turn: the worked plan on one desk, in eight runs. */
static void live_calls_are_right(void)
{
    uint8_t steps[MORTARSEDGE_DISPATCH_STEPS + 1], records[MORTARSEDGE_DISPATCH_RECORDS];
    struct mortarsedge_made made;
    uint32_t words = 0;
    uint64_t answer;
    steps[MORTARSEDGE_DISPATCH_STEPS] = 77;
    expect(mortarsedge_start(1, worked_plan, sizeof worked_plan, live_rig, sizeof live_rig) == MORTARSEDGE_ACCEPTED, "calls: start");
    answer = mortarsedge_dispatch(live_rig, sizeof live_rig, 1, steps, 7, records, sizeof records);
    expect(answer == MORTARSEDGE_OUTPUT_SHORT, "calls: 20 of the steps");
    answer = mortarsedge_dispatch(live_rig, sizeof live_rig, 1, steps, sizeof steps, records, sizeof records - 1);
    expect(answer == MORTARSEDGE_OUTPUT_SHORT, "calls: 20 of the records");
    expect(mortarsedge_dispatch(live_rig, sizeof live_rig, 2, steps, sizeof steps, records, sizeof records) == MORTARSEDGE_NO_DESK, "calls: 15");
    for (uint32_t i = 0; i < 8; i++) {
        answer = mortarsedge_dispatch(live_rig, sizeof live_rig, 1, steps, sizeof steps, records, sizeof records);
        expect(mortarsedge_number(answer) == 0 && mortarsedge_filled(answer) == 4 && mortarsedge_made_count(answer) == 1, "calls: 0");
        mortarsedge_take_made(steps, records, 0, &made);
        expect(made.kind == RUN && made.task >= 1 && made.task <= 2 && made.number == 0 && made.answer == 0, "calls: a run");
        expect(!made.received || (made.word.channel == 3 && made.word.level[0] == 7), "calls: the word");
        words += made.received;
    }
    answer = mortarsedge_dispatch(live_rig, sizeof live_rig, 1, steps, sizeof steps, records, sizeof records);
    expect(answer == 0 && mortarsedge_made_count(answer) == 0 && words == 1, "calls: nothing more to do");
    expect(steps[MORTARSEDGE_DISPATCH_STEPS] == 77, "calls: a byte behind the steps is written");
}

/* Panel and views, after run 1 and run 1: task 2 is born, task 1 has the word 7. */
static void live_rig_is_shown(void)
{
    uint32_t counts[MORTARSEDGE_PANEL_COUNTS];
    uint8_t out[MORTARSEDGE_DRIVER_VIEW];
    struct mortarsedge_view view;
    expect(mortarsedge_start(2, worked_plan, sizeof worked_plan, live_rig, sizeof live_rig) == MORTARSEDGE_ACCEPTED, "shown: start");
    expect(live_step(RUN, 1, 0, false) == 0 && live_step(RUN, 1, 0, false) == 0, "shown: steps");
    expect(mortarsedge_panel(live_rig, sizeof live_rig, counts, MORTARSEDGE_PANEL_COUNTS - 1) == MORTARSEDGE_OUTPUT_SHORT, "panel: 20");
    expect(mortarsedge_panel(live_rig, 5, counts, MORTARSEDGE_PANEL_COUNTS) == MORTARSEDGE_BAD_RIG, "panel: 9");
    expect(mortarsedge_panel(live_rig, sizeof live_rig, counts, MORTARSEDGE_PANEL_COUNTS) == 0, "panel: 0");
    expect(counts[0] == 4 && counts[14] == 256 && counts[16] == 2, "panel: the counts");
    expect(mortarsedge_tablet_view(live_rig, sizeof live_rig, 2, out, 3) == MORTARSEDGE_OUTPUT_SHORT, "tablet: 20");
    expect(mortarsedge_tablet_view(live_rig, sizeof live_rig, 3, out, 4) == MORTARSEDGE_NO_TASK, "tablet: 10");
    expect(mortarsedge_tablet_view(live_rig, sizeof live_rig, 258, out, 4) == MORTARSEDGE_NO_TASK, "tablet: 10 of 258");
    expect(mortarsedge_tablet_view(live_rig, sizeof live_rig, 2, out, 4) == 0, "tablet: 0");
    mortarsedge_take_tablet(out, &view);
    expect(view.task == 2 && view.state == MORTARSEDGE_READY && view.desk == 1 && view.place == 1, "tablet: task 2");
    expect(mortarsedge_driver_view(live_rig, sizeof live_rig, 1, out, sizeof out - 1) == MORTARSEDGE_OUTPUT_SHORT, "driver: 20");
    expect(mortarsedge_driver_view(live_rig, sizeof live_rig, 1, out, sizeof out) == 0, "driver: 0");
    mortarsedge_take_view(out, &view);
    expect(view.task == 1 && view.place == 3 && view.level[0] == 7 && view.level[3] == 0, "driver: task 1");
    expect(view.children == 2 && view.living == 1, "driver: its children");
}

/* The functions that take outputs apart, on all channels and on bytes that no call leaves. */
static void outputs_are_taken(void)
{
    uint8_t bytes[MORTARSEDGE_DRIVER_VIEW];
    struct mortarsedge_word word;
    struct mortarsedge_view view;
    for (uint32_t channel = 0; channel <= 65535; channel++) {
        uint16_t level[MORTARSEDGE_LEVELS] = {1, 256, (uint16_t)channel, 65535};
        bool is_one = channel >= 1 && channel <= 128;
        mortarsedge_put_log_record(bytes, (uint16_t)channel, level);
        expect(mortarsedge_take_word(bytes, &word) == is_one && word.channel == (is_one ? channel : 0), "a word's channel");
        expect(word.level[1] == (is_one ? 256u : 0u) && word.level[3] == (is_one ? 65535u : 0u), "a word's levels");
    }
    memset(bytes, 0xff, sizeof bytes);
    mortarsedge_take_view(bytes, &view);
    expect(view.children == UINT64_MAX && view.level[2] == 65535 && view.living == 255, "a view of ones");
    expect(strcmp(mortarsedge_state_text(view.state), mortarsedge_state_text(7)) == 0, "255 is a state");
    for (uint32_t i = 0; i <= 7; i++)
        for (uint32_t j = 0; j < i; j++)
            expect(strcmp(mortarsedge_state_text(i), mortarsedge_state_text(j)) != 0, "two states are one");
}

int main(void)
{
    texts_differ();
    sizes_are_right();
    calls_link();
    steps_are_chosen();
    panel_is_counted();
    logs_are_held();
    repeats_are_converted();
    chases_are_written();
    steps_are_put();
    lines_are_taken();
    others_are_told();
    bytes_are_told();
    worked_run_is_right();
    finish_is_told();
    growing_run_is_right();
    live_run_is_right();
    live_calls_are_right();
    live_rig_is_shown();
    outputs_are_taken();
    return failures != 0;
}
