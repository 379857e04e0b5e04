/* differential SEED COUNT [FIRST]: the library against the simulator.
 *
 * COUNT generated runs from index FIRST go through both. The answers of plan
 * check and run are compared, and every byte of the lent output, those behind
 * the last line too, and some bytes around it. Inputs are read-only and end at a
 * forbidden page; outputs end at one, or begin behind one. Accepted runs are
 * done again with outputs that are too short. The first difference ends the
 * program with 1, and so does, of 20,000 runs or more, an answer that was never
 * reached. */
#define _DEFAULT_SOURCE
#include <inttypes.h>
#include <signal.h>
#include <stdio.h>
#include <stdlib.h>
#include <string.h>
#include <unistd.h>

#include "../include/mortarsedge.h"
#include "generate.h"
#include "guarded.h"
#include "simulator.h"
#include "tally.h"

enum {
    ENOUGH = MORTARSEDGE_OUTPUT_ENOUGH,
    EVERY_LENGTH = 16,   /* every so many-th run is tried with outputs of every length, */
    SHORT_TRACE = 400,   /* if its trace is no longer than this */
    MARGIN = 64,         /* bytes around an output that may not change either */
    FULL_COUNT = 20000   /* so many runs have to reach every answer */
};

/* One run, with its inputs lent and a copy of each. */
struct trial {
    uint64_t seed, index;
    struct generated g;
    const uint8_t *plan, *steps;
};

static struct trial trial;
static struct guarded plan_memory, steps_memory, library_memory, simulator_memory;
static char trial_name[160];

static void name_trial(void)
{
    snprintf(trial_name, sizeof trial_name,
             "seed %" PRIu64 " index %" PRIu64 " (%s, desks %" PRIu32 ", plan %zu bytes, steps %zu bytes)\n"
             "reproduce: differential %" PRIu64 " 1 %" PRIu64 "\n",
             trial.seed, trial.index, trial.g.class_name, trial.g.desks, trial.g.plan_length,
             trial.g.steps_length, trial.seed, trial.index);
}

/* A forbidden or read-only byte was touched: say in which run. */
static void on_fault(int signal_number)
{
    static const char text[] = "differential: a byte outside the lent ones was touched, or an input written\n";
    (void)signal_number;
    if (write(2, text, sizeof text - 1) < 0 || write(2, trial_name, strlen(trial_name)) < 0)
        _exit(3);
    _exit(1);
}

static void differ(const char *what)
{
    fflush(stdout);
    fprintf(stderr, "differential: %s\n%s", what, trial_name);
    exit(1);
}

static void print_line(const char *who, const uint8_t *out, size_t length, size_t place)
{
    size_t start = place, end = place;
    while (start > 0 && out[start - 1] != '\n' && place - start < 20)
        start--;
    while (end < length && out[end] != '\n' && end - place < 20)
        end++;
    fprintf(stderr, "%s: ", who);
    for (size_t i = start; i < end; i++)
        fprintf(stderr, out[i] >= ' ' && out[i] < 127 ? "%c" : "<%02x>", (unsigned)out[i]);
    fputc('\n', stderr);
}

static void compare_bytes(const uint8_t *library, const uint8_t *simulator, size_t length)
{
    if (memcmp(library, simulator, length) == 0)
        return;
    size_t place = 0;
    while (library[place] == simulator[place])
        place++;
    fprintf(stderr, "output of %zu bytes, first differing byte %zu\n", length, place);
    print_line("library  ", library, length, place);
    print_line("simulator", simulator, length, place);
    differ("the outputs differ");
}

static void compare_answers(const char *what, uint64_t library, uint64_t simulator)
{
    if (library == simulator)
        return;
    fprintf(stderr, "library %" PRIu64 " + 256 * %" PRIu64 ", simulator %" PRIu64 " + 256 * %" PRIu64 "\n",
            library % 256, library / 256, simulator % 256, simulator / 256);
    differ(what);
}

static void compare_plan_check(void)
{
    compare_answers("the answers of plan check differ",
                    mortarsedge_plan_check(trial.g.desks, trial.plan, trial.g.plan_length),
                    sim_plan_check(trial.g.desks, trial.plan, trial.g.plan_length));
}

/* The steps that dispatchers choose, in an output of so many bytes. */
static void compare_choice(size_t length)
{
    static uint8_t library[MORTARSEDGE_MAX_STEP_FILE + MARGIN], simulator[MORTARSEDGE_MAX_STEP_FILE + MARGIN];
    memset(library, 0xc5, sizeof library);
    memset(simulator, 0xc5, sizeof simulator);
    compare_answers("the answers of choices differ",
                    mortarsedge_choose(trial.g.desks, trial.plan, trial.g.plan_length, library, length),
                    sim_choose(trial.g.desks, trial.plan, trial.g.plan_length, simulator, length));
    if (memcmp(library, simulator, sizeof library) != 0)
        differ("the chosen steps differ");
}

/* An output in its memory, with the margins that fit there. */
struct lent {
    uint8_t *out;
    uint8_t *from;
    size_t around; /* bytes from `from` on, margins and output */
};

static struct lent lend_output(const struct guarded *memory, size_t length, bool at_end)
{
    struct lent l;
    size_t before, behind;
    l.out = at_end ? guarded_end(memory, length) : memory->start;
    before = (size_t)(l.out - memory->start);
    behind = memory->size - before - length;
    before = before < MARGIN ? before : MARGIN;
    behind = behind < MARGIN ? behind : MARGIN;
    l.from = l.out - before;
    l.around = before + length + behind;
    for (size_t i = 0; i < l.around; i++)
        l.from[i] = (uint8_t)(0x80 + i % 113);
    return l;
}

/* Both on an output of so many bytes; returns the answer. */
static uint64_t compare_run(size_t length, bool at_end, struct tally *tally)
{
    struct lent library = lend_output(&library_memory, length, at_end);
    struct lent simulator = lend_output(&simulator_memory, length, at_end);
    const struct generated *g = &trial.g;
    uint64_t theirs = sim_run(g->desks, trial.plan, g->plan_length, trial.steps, g->steps_length,
                              simulator.out, length);
    uint64_t ours = mortarsedge_run(g->desks, trial.plan, g->plan_length, trial.steps, g->steps_length,
                                    library.out, length);
    compare_bytes(library.from, simulator.from, library.around);
    compare_answers("the answers of run differ", ours, theirs);
    tally->calls++;
    tally->short_outputs += mortarsedge_number(ours) == MORTARSEDGE_OUTPUT_SHORT;
    return ours;
}

/* How much of a trace the whole lines that fit into so many bytes have. */
static size_t whole_lines(const uint8_t *trace, size_t length, size_t room)
{
    size_t end = room < length ? room : length;
    while (end > 0 && trace[end - 1] != '\n')
        end--;
    return end;
}

/* An accepted run again, with an output of another length. */
static void compare_short_run(const uint8_t *trace, size_t length, size_t room, struct tally *tally)
{
    uint64_t number = room < length ? MORTARSEDGE_OUTPUT_SHORT : MORTARSEDGE_ACCEPTED;
    uint64_t expected = number + 256 * (uint64_t)whole_lines(trace, length, room);
    uint64_t answer = compare_run(room, true, tally);
    if (answer != expected || memcmp(guarded_end(&library_memory, room), trace, (size_t)(answer / 256)) != 0)
        differ("a short output and the whole lines that fit differ");
}

static void compare_inputs(void)
{
    if (memcmp(trial.plan, trial.g.plan, trial.g.plan_length) != 0
        || memcmp(trial.steps, trial.g.steps, trial.g.steps_length) != 0)
        differ("an input was changed");
}

/* Outputs too short, and just long enough. */
static void compare_short_runs(const uint8_t *trace, size_t length, struct tally *tally)
{
    compare_short_run(trace, length, (size_t)((trial.index * 2654435761u) % length), tally);
    compare_short_run(trace, length, length, tally);
    if (trial.index % EVERY_LENGTH == 0 && length <= SHORT_TRACE)
        for (size_t room = 0; room <= length + 1; room++)
            compare_short_run(trace, length, room, tally);
}

static void one_trial(struct tally *tally)
{
    static uint8_t trace[ENOUGH];
    generate(&trial.g, trial.seed, trial.index);
    name_trial();
    trial.plan = guarded_lend(&plan_memory, trial.g.plan, trial.g.plan_length);
    trial.steps = guarded_lend(&steps_memory, trial.g.steps, trial.g.steps_length);
    compare_plan_check();
    compare_choice(MORTARSEDGE_MAX_STEP_FILE + MARGIN);
    compare_choice((size_t)(trial.index % 90));
    uint64_t answer = compare_run(ENOUGH, false, tally);
    size_t filled = mortarsedge_filled(answer);
    tally->runs++;
    tally->answers[mortarsedge_number(answer) % 21]++;
    if (mortarsedge_number(answer) == MORTARSEDGE_ACCEPTED) {
        memcpy(trace, library_memory.start, filled);
        compare_short_runs(trace, filled, tally);
        if (!tally_trace(tally, &trial.g, trace, filled))
            differ("the trace and what a driver reads in it differ");
    } else {
        compare_run((size_t)(trial.index % 64), true, tally);
    }
    compare_inputs();
}

static uint64_t number_of(const char *text)
{
    char *end;
    uint64_t n = strtoull(text, &end, 10);
    if (*text == '\0' || *end != '\0') {
        fprintf(stderr, "differential: %s is no number\n", text);
        exit(2);
    }
    return n;
}

static void prepare(void)
{
    struct sigaction action = {.sa_handler = on_fault};
    sigaction(SIGSEGV, &action, NULL);
    sigaction(SIGBUS, &action, NULL);
    plan_memory = guarded_new(PLAN_ROOM);
    steps_memory = guarded_new(STEPS_ROOM);
    library_memory = guarded_new(ENOUGH);
    simulator_memory = guarded_new(ENOUGH);
}

int main(int argc, char **argv)
{
    static struct tally tally;
    if (argc != 3 && argc != 4) {
        fprintf(stderr, "usage: differential SEED COUNT [FIRST]\n");
        return 2;
    }
    uint64_t count = number_of(argv[2]);
    uint64_t first = argc == 4 ? number_of(argv[3]) : 0;
    trial.seed = number_of(argv[1]);
    prepare();
    for (uint64_t i = 0; i < count; i++) {
        trial.index = first + i;
        one_trial(&tally);
    }
    tally_print(&tally);
    if (count >= FULL_COUNT && !tally_is_full(&tally)) {
        fprintf(stderr, "differential: an answer, words, moves, marks, rest, an end or a full mail were never reached\n");
        return 1;
    }
    return 0;
}
