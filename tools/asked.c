#include "asked.h"

/* Where the line before a place begins. */
static size_t line_before(const uint8_t *trace, size_t at)
{
    if (at > 0)
        at--;
    while (at > 0 && trace[at - 1] != '\n')
        at--;
    return at;
}

/* The lines behind the steps' lines, from the last one backwards. */
static bool read_end(const uint8_t *trace, size_t filled, struct asked *asked)
{
    struct mortarsedge_line line;
    size_t at = line_before(trace, filled);
    mortarsedge_take_line(trace + at, filled - at, &line);
    if (line.kind != MORTARSEDGE_LINE_END)
        return false;
    asked->at_rest = line.at_rest;
    asked->letters = line.letters;
    asked->over = 0;
    while (at > 0) {
        size_t before = line_before(trace, at);
        mortarsedge_take_line(trace + before, at - before, &line);
        if (line.kind != MORTARSEDGE_LINE_OVER)
            break;
        asked->over |= (uint64_t)1 << (line.task - 1);
        at = before;
    }
    return true;
}

bool ask_all(const struct show *show, struct asked *asked)
{
    static uint8_t trace[MORTARSEDGE_OUTPUT_ENOUGH];
    for (size_t length = 0; length <= show->steps.length; length += MORTARSEDGE_STEP_BYTES) {
        uint64_t answer = mortarsedge_run(show->desks, show->plan.plan, show->plan.length, show->steps.steps, length, trace,
                                          sizeof trace);
        if (mortarsedge_number(answer) != MORTARSEDGE_ACCEPTED
            || !read_end(trace, mortarsedge_filled(answer), &asked[length / MORTARSEDGE_STEP_BYTES]))
            return false;
    }
    return true;
}
