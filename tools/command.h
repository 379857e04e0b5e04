/* The subcommands, and what they are called with. */
#ifndef COMMAND_H
#define COMMAND_H

#include "steps_input.h"

enum option {
    OPTION_OUTPUT = 1,
    OPTION_EXPLAIN = 2,
    OPTION_QUIET = 4,
    OPTION_TEXT = 8,
    OPTION_BYTES = 16,
    OPTION_REPEATS = 32,
    OPTION_POSITIONS = 64,
    OPTION_ALONG = 128,
    OPTION_TABLET = 256
};

enum { MOST_ARGUMENTS = 3 };

/* What stands on the command line behind the subcommand. */
struct call {
    unsigned options;   /* those that are given */
    const char *output; /* of -o; `-` if it is not given */
    const char *argument[MOST_ARGUMENTS];
    uint32_t desks; /* the first argument, where it is DESKS */
};

struct command {
    const char *name, *arguments, *what;
    unsigned options; /* those it knows */
    int (*run)(const struct call *call);
};

int command_check(const struct call *call);
int command_run(const struct call *call);
int command_finish(const struct call *call);
int command_convert(const struct call *call);
int command_logs(const struct call *call);
int command_plan(const struct call *call);
int command_unplan(const struct call *call);
int command_steps(const struct call *call);
int command_unsteps(const struct call *call);
int command_chart(const struct call *call);
int command_dispatch(const struct call *call);
int command_panel(const struct call *call);
int command_view(const struct call *call);

/* DESKS PLAN STEPS: what chart, panel, run, steps, unsteps and view are called with. */
int read_show(const struct call *call, bool steps_bytes, struct show *show);

#endif
