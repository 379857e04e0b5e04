/* When a word leaves stands in no trace: a trace tells what is received. But the library can be
 * asked, since the lines of steps stay what they are with further steps behind them
 * (docs/driver.md).
 *
 * In a run step a word that is received has passed directly, and leaves in that step. Else it
 * leaves by the delivery of its call. A delivery takes one letter out of the mail, and what it
 * posts joins the mail's end. So a word left by a delivery exactly if as many letters are in the
 * mail as before and the last one is a word letter; and that is asked by one more step, the
 * delivery of the last letter, which then reports a word. */
#include "logs.h"

#include <string.h>

struct asked {
    uint32_t desks;
    const uint8_t *plan;
    size_t plan_length;
    uint8_t steps[MORTARSEDGE_MAX_STEP_FILE];
    uint8_t out[MORTARSEDGE_OUTPUT_ENOUGH];
};

/* The line of step k of the first n steps, or the last line if k is 0. */
static bool line_of(struct asked *a, uint32_t n, uint32_t k, struct mortarsedge_line *line)
{
    uint64_t answer = mortarsedge_run(a->desks, a->plan, a->plan_length, a->steps, MORTARSEDGE_STEP_BYTES * n, a->out,
                                      sizeof a->out);
    const uint8_t *at = a->out;
    size_t left = mortarsedge_filled(answer);
    if (mortarsedge_number(answer) != MORTARSEDGE_ACCEPTED)
        return false;
    do {
        size_t taken = mortarsedge_take_line(at, left, line);
        at += taken;
        left -= taken;
        if (line->kind == MORTARSEDGE_LINE_STEP && line->step == k)
            return true;
    } while (line->kind == MORTARSEDGE_LINE_STEP || line->kind == MORTARSEDGE_LINE_OVER);
    return line->kind == MORTARSEDGE_LINE_END && k == 0;
}

static void put(struct log *log, const struct mortarsedge_line *line)
{
    uint16_t level[MORTARSEDGE_LEVELS];
    for (size_t i = 0; i < MORTARSEDGE_LEVELS; i++)
        level[i] = (uint16_t)line->level[i];
    if (log->length + MORTARSEDGE_LOG_RECORD <= sizeof log->bytes) {
        mortarsedge_put_log_record(log->bytes + log->length, (uint16_t)line->channel, level);
        log->length += MORTARSEDGE_LOG_RECORD;
    }
}

/* Step k is an accepted delivery: the word that left by it, if one did. */
static bool ask(struct asked *a, uint32_t k, struct log *sent)
{
    struct mortarsedge_line before, then, word;
    uint8_t next[MORTARSEDGE_STEP_BYTES], *probe = a->steps + MORTARSEDGE_STEP_BYTES * k;
    if (!line_of(a, k - 1, 0, &before) || !line_of(a, k, 0, &then))
        return false;
    if (before.letters != then.letters)
        return true;
    memcpy(next, probe, sizeof next);
    mortarsedge_put_step(probe, MORTARSEDGE_STEP_DELIVER, 0, then.letters);
    bool told = line_of(a, k + 1, k + 1, &word);
    memcpy(probe, next, sizeof next);
    if (told && word.received)
        put(sent, &word);
    return told;
}

bool logs_of(uint32_t desks, const uint8_t *plan, size_t plan_length, const uint8_t *steps, size_t steps_length,
             struct logs *logs)
{
    static struct asked a;
    uint32_t count = (uint32_t)(steps_length / MORTARSEDGE_STEP_BYTES);
    if (steps_length > sizeof a.steps)
        return false;
    a.desks = desks;
    a.plan = plan;
    a.plan_length = plan_length;
    memset(a.steps, 0, sizeof a.steps);
    memcpy(a.steps, steps, steps_length);
    logs->sent.length = 0;
    logs->received.length = 0;
    logs->after = count < MORTARSEDGE_MAX_STEPS ? count : MORTARSEDGE_MAX_STEPS - 1;
    for (uint32_t k = 1; k <= logs->after; k++) {
        struct mortarsedge_line line;
        if (!line_of(&a, k, k, &line))
            return false;
        bool delivers = steps[MORTARSEDGE_STEP_BYTES * (k - 1)] == MORTARSEDGE_STEP_DELIVER;
        if (line.received)
            put(&logs->received, &line);
        if (line.received && !delivers)
            put(&logs->sent, &line);
        if (line.answer == MORTARSEDGE_ACCEPTED && !line.received && delivers && !ask(&a, k, &logs->sent))
            return false;
    }
    return true;
}
