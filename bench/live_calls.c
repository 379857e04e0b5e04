#define _DEFAULT_SOURCE
#include "live_calls.h"

#include <inttypes.h>
#include <signal.h>
#include <stdio.h>
#include <stdlib.h>
#include <string.h>
#include <unistd.h>

#include "../include/mortarsedge.h"
#include "guarded.h"

enum { SMALL = 1024 };

struct live_tally live_tally;
char live_name[200];

/* A lent buffer: the library's before a forbidden page, the simulator's beside it with the same bytes. */
struct buffer {
    struct guarded memory;
    uint8_t *library;
    size_t length;
    uint8_t simulator[IMAGE_BYTES + LIVE_MARGIN];
};

static struct buffer rig_buffer, plan_buffer, one_buffer, two_buffer;

/* A forbidden or read-only byte was touched: say in which trial. */
static void on_fault(int signal_number)
{
    static const char text[] = "live: a byte outside the lent ones was touched, or an input written\n";
    (void)signal_number;
    if (write(2, text, sizeof text - 1) < 0 || write(2, live_name, strlen(live_name)) < 0)
        _exit(3);
    _exit(1);
}

void live_differ(const char *what)
{
    fflush(stdout);
    fprintf(stderr, "live: %s\n%s", what, live_name);
    exit(1);
}

void live_prepare(void)
{
    struct sigaction action = {.sa_handler = on_fault};
    sigaction(SIGSEGV, &action, NULL);
    sigaction(SIGBUS, &action, NULL);
    rig_buffer.memory = guarded_new(IMAGE_BYTES + LIVE_MARGIN);
    plan_buffer.memory = guarded_new(IMAGE_BYTES + LIVE_MARGIN);
    one_buffer.memory = guarded_new(SMALL);
    two_buffer.memory = guarded_new(SMALL);
}

/* Bytes that were there before a call. */
static void paint(uint8_t *bytes, size_t length)
{
    for (size_t i = 0; i < length; i++)
        bytes[i] = (uint8_t)(0x80 + i % 113);
}

/* An output of so many bytes, painted. */
static void lend_output(struct buffer *b, size_t length)
{
    b->length = length;
    b->library = guarded_end(&b->memory, length);
    paint(b->library, length);
    paint(b->simulator, length);
}

/* The rig as the simulator gets it: its image, or a beginning of it, or paint behind it. */
static void copy_rig(const struct live *live)
{
    size_t held = live->length < IMAGE_BYTES ? live->length : IMAGE_BYTES;
    rig_buffer.length = live->length;
    paint(rig_buffer.simulator, live->length);
    memcpy(rig_buffer.simulator, live->image, held);
}

static void lend_rig(const struct live *live)
{
    copy_rig(live);
    rig_buffer.library = guarded_end(&rig_buffer.memory, live->length);
    memcpy(rig_buffer.library, rig_buffer.simulator, live->length);
}

/* A rig that is only read. */
static const uint8_t *show_rig(const struct live *live)
{
    copy_rig(live);
    return guarded_lend(&plan_buffer.memory, rig_buffer.simulator, live->length);
}

static void compare_numbers(const char *what, uint64_t library, uint64_t simulator)
{
    if (library == simulator)
        return;
    fprintf(stderr, "library %" PRIu64 " + 256 * %" PRIu64 ", simulator %" PRIu64 " + 256 * %" PRIu64 "\n",
            library % 256, library / 256, simulator % 256, simulator / 256);
    live_differ(what);
}

static void compare_buffers(const char *what, const struct buffer *b)
{
    for (size_t i = 0; i < b->length; i++)
        if (b->library[i] != b->simulator[i]) {
            fprintf(stderr, "byte %zu: library %u, simulator %u\n", i, (unsigned)b->library[i], (unsigned)b->simulator[i]);
            live_differ(what);
        }
}

/* The rig after a call: both have the same, and the same as before if it was refused. */
static void keep_rig(struct live *live, bool accepted)
{
    size_t held = live->length < IMAGE_BYTES ? live->length : IMAGE_BYTES;
    compare_buffers("the rigs differ", &rig_buffer);
    if (!accepted && memcmp(live->image, rig_buffer.library, held) != 0)
        live_differ("a refused call has changed the rig");
    memcpy(live->image, rig_buffer.library, held);
}

uint32_t live_start(struct live *live, uint32_t desks, const uint8_t *plan, size_t plan_length)
{
    const uint8_t *lent = guarded_lend(&plan_buffer.memory, plan, plan_length);
    paint(live->image, IMAGE_BYTES);
    lend_rig(live);
    uint32_t answer = mortarsedge_start(desks, lent, plan_length, rig_buffer.library, live->length);
    compare_numbers("the answers of start differ", answer,
                    sim_live_start(desks, plan, plan_length, rig_buffer.simulator, live->length));
    keep_rig(live, answer == 0);
    live_tally.starts[answer % 21]++;
    return answer;
}

uint32_t live_step(struct live *live, uint32_t kind, uint32_t task, uint32_t number, size_t record_length)
{
    struct mortarsedge_word word;
    lend_rig(live);
    lend_output(&one_buffer, record_length);
    uint32_t answer = mortarsedge_step(rig_buffer.library, live->length, kind, task, number, one_buffer.library, record_length);
    compare_numbers("the answers of a step differ", answer,
                    sim_live_step(rig_buffer.simulator, live->length, kind, task, number, one_buffer.simulator, record_length));
    compare_buffers("the records of a step differ", &one_buffer);
    keep_rig(live, answer == 0);
    live_tally.steps[answer % 21]++;
    live_tally.moves += answer == 0 && kind == MORTARSEDGE_STEP_MOVE;
    if (answer != MORTARSEDGE_OUTPUT_SHORT)
        live_tally.words += mortarsedge_take_word(one_buffer.library, &word);
    return answer;
}

static void tally_dispatch(uint64_t answer)
{
    live_tally.dispatches[mortarsedge_number(answer) % 21]++;
    if (mortarsedge_number(answer) != MORTARSEDGE_ACCEPTED)
        return;
    live_tally.made[mortarsedge_made_count(answer)]++;
    for (size_t i = 0; i < mortarsedge_made_count(answer); i++) {
        struct mortarsedge_made made;
        mortarsedge_take_made(one_buffer.library, two_buffer.library, i, &made);
        live_tally.reports[made.answer % 21]++;
        live_tally.words += made.received;
    }
}

uint64_t live_dispatch(struct live *live, uint32_t desk, size_t steps_length, size_t records_length)
{
    lend_rig(live);
    lend_output(&one_buffer, steps_length);
    lend_output(&two_buffer, records_length);
    uint64_t answer = mortarsedge_dispatch(rig_buffer.library, live->length, desk, one_buffer.library, steps_length,
                                           two_buffer.library, records_length);
    compare_numbers("the answers of a dispatch differ", answer,
                    sim_live_dispatch(rig_buffer.simulator, live->length, desk, one_buffer.simulator, steps_length,
                                      two_buffer.simulator, records_length));
    compare_buffers("the steps of a dispatch differ", &one_buffer);
    compare_buffers("the reports of a dispatch differ", &two_buffer);
    keep_rig(live, mortarsedge_number(answer) == MORTARSEDGE_ACCEPTED);
    tally_dispatch(answer);
    return answer;
}

void live_panel(const struct live *live, size_t counts_length)
{
    const uint8_t *rig = show_rig(live);
    uint32_t counts[SMALL / 4];
    lend_output(&one_buffer, 4 * counts_length);
    memcpy(counts, one_buffer.simulator, 4 * counts_length);
    compare_numbers("the answers of a panel differ",
                    mortarsedge_panel(rig, live->length, (uint32_t *)(void *)one_buffer.library, counts_length),
                    sim_live_panel(rig_buffer.simulator, live->length, counts, counts_length));
    memcpy(one_buffer.simulator, counts, 4 * counts_length);
    compare_buffers("the panels differ", &one_buffer);
    live_tally.panels++;
}

void live_tablet(const struct live *live, uint32_t task, size_t out_length)
{
    const uint8_t *rig = show_rig(live);
    lend_output(&one_buffer, out_length);
    compare_numbers("the answers of a tablet's view differ",
                    mortarsedge_tablet_view(rig, live->length, task, one_buffer.library, out_length),
                    sim_live_tablet_view(rig_buffer.simulator, live->length, task, one_buffer.simulator, out_length));
    compare_buffers("the tablet's views differ", &one_buffer);
    live_tally.views++;
}

void live_driver(const struct live *live, uint32_t task, size_t out_length)
{
    const uint8_t *rig = show_rig(live);
    lend_output(&one_buffer, out_length);
    compare_numbers("the answers of a driver's view differ",
                    mortarsedge_driver_view(rig, live->length, task, one_buffer.library, out_length),
                    sim_live_driver_view(rig_buffer.simulator, live->length, task, one_buffer.simulator, out_length));
    compare_buffers("the driver's views differ", &one_buffer);
    live_tally.views++;
}

void live_rest(const struct live *live)
{
    const uint8_t *rig = show_rig(live);
    uint64_t answer = mortarsedge_rest(rig, live->length);
    compare_numbers("the answers for rest differ", answer, sim_live_rest(rig_buffer.simulator, live->length));
    if (mortarsedge_letters(answer) > live_tally.most_letters)
        live_tally.most_letters = mortarsedge_letters(answer);
    live_tally.rests++;
    live_tally.at_rest += mortarsedge_at_rest(answer);
}
