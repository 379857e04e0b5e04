/* live SEED COUNT DAMAGED [FIRST]: the library's live rig against the simulator's, call by call.
 *
 * COUNT generated plans from index FIRST are started, and go on by steps and dispatches. After each call the answer, the
 * outputs and all bytes of the rig are compared; then the panel, views of tasks and rest. Then DAMAGED images, of
 * which bytes or numbers were changed, get each call: where it is refused, no byte is changed. The first difference
 * ends the program with 1, and so does, of 400 plans and 10,000 images or more, an answer that was never reached. */
#include <inttypes.h>
#include <stdio.h>
#include <stdlib.h>
#include <string.h>

#include "../include/mortarsedge.h"
#include "generate.h"
#include "live_damage.h"

enum { FULL_PLANS = 400, FULL_DAMAGED = 10000, DOCTORED_STEPS = 12, NEARLY_FULL = 250 };

static struct live live;
static struct generated g;

/* Of damaged images, by kind: how many were answered 9, and how many were not. */
static uint64_t refused[DAMAGES], passed[DAMAGES];

static size_t some_length(struct random *r, size_t enough)
{
    if (random_chance(r, 94))
        return enough;
    return random_chance(r, 50) ? random_below(r, (uint32_t)enough) : enough + random_below(r, 20);
}

static uint32_t some_task(struct random *r)
{
    return random_chance(r, 90) ? random_from(r, 1, sim_u16(live.image + IMAGE_PLAN)) : random_below(r, 600);
}

/* What is asked of the rig and leaves it as it is. */
static void ask(struct random *r)
{
    live_rest(&live);
    live_panel(&live, some_length(r, MORTARSEDGE_PANEL_COUNTS));
    live_tablet(&live, some_task(r), some_length(r, MORTARSEDGE_TABLET_VIEW));
    live_driver(&live, some_task(r), some_length(r, MORTARSEDGE_DRIVER_VIEW));
}

static void ask_of_all(void)
{
    for (uint32_t t = 0; t <= MAX_TASKS + 1; t++) {
        live_tablet(&live, t, MORTARSEDGE_TABLET_VIEW);
        live_driver(&live, t, MORTARSEDGE_DRIVER_VIEW);
    }
}

static void dispatch(struct random *r)
{
    uint32_t desk = random_chance(r, 95) ? random_from(r, 1, MAX_DESKS) : (uint32_t)random_next(r) % 520;
    live_dispatch(&live, desk, some_length(r, MORTARSEDGE_DISPATCH_STEPS), some_length(r, MORTARSEDGE_DISPATCH_RECORDS));
}

/* A step that may be anything: also numbers that do not fit its bytes. */
static void wild_step(struct random *r)
{
    uint32_t kind = random_chance(r, 90) ? random_from(r, 1, 3) : random_below(r, 600);
    uint32_t task = random_chance(r, 90) ? some_task(r) : (uint32_t)random_next(r);
    uint32_t number = random_chance(r, 95) ? random_below(r, 9) : (uint32_t)random_next(r) % 140000;
    if (kind == MORTARSEDGE_STEP_DELIVER && random_chance(r, 95))
        task = 0;
    if (kind == MORTARSEDGE_STEP_RUN && random_chance(r, 95))
        number = 0;
    live_step(&live, kind, task, number, some_length(r, MORTARSEDGE_LOG_RECORD));
}

/* Each desk's dispatcher on a copy of the rig. */
static void dispatch_aside(void)
{
    static struct live whole;
    whole = live;
    for (uint32_t d = 1; d <= live.image[IMAGE_DESKS]; d++) {
        live_dispatch(&live, d, MORTARSEDGE_DISPATCH_STEPS, MORTARSEDGE_DISPATCH_RECORDS);
        live = whole;
    }
}

/* The generated steps, with dispatches and wild ones between in every second trial. */
static void drive(struct random *r, bool mixed)
{
    for (size_t at = 0; at + 4 <= g.steps_length; at += 4) {
        const uint8_t *step = g.steps + at;
        if (mixed && random_chance(r, 15))
            dispatch(r);
        if (mixed && random_chance(r, 10))
            wild_step(r);
        live_step(&live, step[0], step[1], sim_u16(step + 2), MORTARSEDGE_LOG_RECORD);
        if (random_chance(r, 25))
            ask(r);
        if (random_chance(r, 3) || (sim_u16(live.image + IMAGE_LETTERS) > NEARLY_FULL && random_chance(r, 20)))
            dispatch_aside();
    }
}

/* Dispatches round by round until rest, or for so many rounds. */
static void settle(struct random *r, uint32_t rounds)
{
    for (uint32_t n = 0; n < rounds; n++) {
        for (uint32_t d = 1; d <= live.image[IMAGE_DESKS]; d++)
            live_dispatch(&live, d, MORTARSEDGE_DISPATCH_STEPS, MORTARSEDGE_DISPATCH_RECORDS);
        ask(r);
    }
}

/* Starts the plan at hand: true if it is accepted. */
static bool start(struct random *r)
{
    live.length = IMAGE_BYTES - 1 - random_below(r, 60);
    live_start(&live, g.desks, g.plan, g.plan_length);
    live.length = IMAGE_BYTES + random_below(r, 5) * random_below(r, 16);
    return live_start(&live, g.desks, g.plan, g.plan_length) == MORTARSEDGE_ACCEPTED;
}

static void one_trial(uint64_t seed, uint64_t index)
{
    struct random r = {seed + 3 * index};
    generate(&g, seed, index);
    snprintf(live_name, sizeof live_name,
             "seed %" PRIu64 " index %" PRIu64 " (%s)\nreproduce: live %" PRIu64 " 1 0 %" PRIu64 "\n", seed, index, g.class_name,
             seed, index);
    if (!start(&r))
        return;
    ask_of_all();
    drive(&r, index % 2 == 0);
    if (index % 4 < 2)
        settle(&r, random_below(&r, 20));
    ask_of_all();
}

/* A rig after some of the generated steps: the library's image, which nobody touches on the way, and the simulator's rig,
 * which is never read from an image. */
static bool reach(struct random *r, uint64_t seed, uint64_t index)
{
    static struct sim_rig rig;
    static uint8_t image[IMAGE_BYTES];
    uint8_t record[MORTARSEDGE_LOG_RECORD];
    struct sim_received received;
    generate(&g, seed, index);
    memset(&rig, 0, sizeof rig);
    if (mortarsedge_start(g.desks, g.plan, g.plan_length, live.image, IMAGE_BYTES) != MORTARSEDGE_ACCEPTED
        || sim_start(&rig, g.desks, g.plan, g.plan_length) != 0)
        return false;
    uint32_t steps = random_below(r, (uint32_t)(g.steps_length / 4) + 1);
    for (uint32_t i = 0; i < steps; i++) {
        const uint8_t *step = g.steps + 4 * i;
        uint32_t answer = mortarsedge_step(live.image, IMAGE_BYTES, step[0], step[1], sim_u16(step + 2), record, sizeof record);
        if (answer != sim_step(&rig, step, &received))
            live_differ("the answers of a step on the way differ");
    }
    sim_image_write(&rig, image);
    if (memcmp(image, live.image, IMAGE_BYTES) != 0)
        live_differ("the rigs at the end of the way differ");
    return true;
}

/* A task that goes to and fro until its move count is 9,999: 18, and then its finish. */
static void spend_moves(void)
{
    static const uint8_t plan[12] = {1, 0, 1, 0, 8, 0, 1, 0, MORTARSEDGE_INSTRUCTION_FINISH, 0, 0, 0};
    uint8_t record[MORTARSEDGE_LOG_RECORD];
    uint32_t answers = mortarsedge_start(2, plan, sizeof plan, live.image, IMAGE_BYTES);
    snprintf(live_name, sizeof live_name, "a task that moves 9,998 times\n");
    for (uint32_t i = 0; i < MAX_MOVE_COUNT - 1; i++) {
        answers |= mortarsedge_step(live.image, IMAGE_BYTES, MORTARSEDGE_STEP_MOVE, 1, 2 - i % 2, record, sizeof record);
        answers |= mortarsedge_step(live.image, IMAGE_BYTES, MORTARSEDGE_STEP_DELIVER, 0, 1, record, sizeof record);
    }
    live.length = IMAGE_BYTES;
    if (answers != 0 || live_step(&live, MORTARSEDGE_STEP_MOVE, 1, 2, sizeof record) != MORTARSEDGE_MOVE_COUNT
        || live_step(&live, MORTARSEDGE_STEP_RUN, 1, 0, sizeof record) != 0)
        live_differ("the answers to its moves differ from those that are due");
}

/* Each call on a damaged image. */
static void try_damaged(struct random *r, uint32_t kind)
{
    bool nine = mortarsedge_number(sim_live_rest(live.image, live.length)) == MORTARSEDGE_BAD_RIG;
    (nine ? refused : passed)[kind]++;
    ask(r);
    dispatch(r);
    for (uint32_t n = kind == DOCTORED ? DOCTORED_STEPS : 2; n > 0; n--)
        wild_step(r);
    ask(r);
}

/* Several images of one rig, each damaged in another way. Returns how many. */
static uint64_t damaged_trial(uint64_t seed, uint64_t index)
{
    static uint8_t whole[IMAGE_BYTES];
    struct random r = {seed + 7 * index + 1};
    snprintf(live_name, sizeof live_name,
             "seed %" PRIu64 ", damaged from index %" PRIu64 "\nreproduce: live %" PRIu64 " 0 1 %" PRIu64 "\n", seed, index, seed,
             index);
    if (!reach(&r, seed, index))
        return 0;
    memcpy(whole, live.image, IMAGE_BYTES);
    for (uint32_t n = 0; n < 2 * DAMAGES; n++) {
        uint32_t kind = n < DAMAGES ? n : random_chance(&r, 50) ? DOCTORED : random_below(&r, DAMAGES);
        memcpy(live.image, whole, IMAGE_BYTES);
        live.length = IMAGE_BYTES + random_below(&r, 2) * random_below(&r, LIVE_MARGIN + 1);
        damage_image(&r, kind, &live);
        try_damaged(&r, kind);
    }
    return 2 * DAMAGES;
}

static void print_answers(const char *what, const uint64_t answers[21])
{
    printf("%-10s", what);
    for (uint32_t a = 0; a < 21; a++)
        if (answers[a] != 0)
            printf(" %" PRIu32 ":%" PRIu64, a, answers[a]);
    putchar('\n');
}

static void print_tally(void)
{
    const struct live_tally *t = &live_tally;
    printf("live: answers and how often\n");
    print_answers("start", t->starts);
    print_answers("step", t->steps);
    print_answers("dispatch", t->dispatches);
    print_answers("made", t->reports);
    printf("dispatches that made 0, 1, 2 steps: %" PRIu64 " %" PRIu64 " %" PRIu64 "\n", t->made[0], t->made[1], t->made[2]);
    printf("%" PRIu64 " words, %" PRIu64 " moves, %" PRIu64 " panels, %" PRIu64 " views, at rest %" PRIu64 " of %" PRIu64
           ", most letters %" PRIu32 "\n",
           t->words, t->moves, t->panels, t->views, t->at_rest, t->rests, t->most_letters);
    for (uint32_t k = 0; k < DAMAGES; k++)
        if (refused[k] + passed[k] != 0)
            printf("damaged: %-18s %6" PRIu64 " answered 9, %6" PRIu64 " not\n", damage_names[k], refused[k], passed[k]);
}

/* Whether every answer that there is was reached. */
static bool is_full(void)
{
    static const uint32_t of_steps[] = {0, 9, 10, 11, 12, 13, 14, 15, 16, 18, 19, 20}, of_starts[] = {0, 1, 2, 3, 4, 5, 6, 20},
                          of_dispatches[] = {0, 9, 15, 20}, of_reports[] = {0, 12, 13};
    const struct live_tally *t = &live_tally;
    bool full = t->words > 0 && t->moves > 0 && t->at_rest > 0 && t->most_letters == MAX_MAIL;
    for (size_t i = 0; i < sizeof of_steps / sizeof of_steps[0]; i++)
        full = full && t->steps[of_steps[i]] > 0;
    for (size_t i = 0; i < sizeof of_starts / sizeof of_starts[0]; i++)
        full = full && t->starts[of_starts[i]] > 0;
    for (size_t i = 0; i < sizeof of_dispatches / sizeof of_dispatches[0]; i++)
        full = full && t->dispatches[of_dispatches[i]] > 0;
    for (size_t i = 0; i < sizeof of_reports / sizeof of_reports[0]; i++)
        full = full && t->reports[of_reports[i]] > 0;
    for (uint32_t i = 0; i < 3; i++)
        full = full && t->made[i] > 0;
    for (uint32_t k = 0; k < DAMAGES; k++)
        full = full && (k == DOCTORED ? passed : refused)[k] > 0;
    return full;
}

static uint64_t number_of(const char *text)
{
    char *end;
    uint64_t n = strtoull(text, &end, 10);
    if (*text == '\0' || *end != '\0') {
        fprintf(stderr, "live: %s is no number\n", text);
        exit(2);
    }
    return n;
}

int main(int argc, char **argv)
{
    if (argc != 4 && argc != 5) {
        fprintf(stderr, "usage: live SEED COUNT DAMAGED [FIRST]\n");
        return 2;
    }
    uint64_t seed = number_of(argv[1]), count = number_of(argv[2]), damaged = number_of(argv[3]);
    uint64_t first = argc == 5 ? number_of(argv[4]) : 0, done = 0;
    live_prepare();
    for (uint64_t i = 0; i < count; i++)
        one_trial(seed, first + i);
    if (count > 0)
        spend_moves();
    for (uint64_t i = 0; done < damaged; i++)
        done += damaged_trial(seed, first + i);
    print_tally();
    if (count >= FULL_PLANS && damaged >= FULL_DAMAGED && !is_full()) {
        fprintf(stderr, "live: an answer, words, moves, rest, a full mail or damage that 9 refuses were never reached\n");
        return 1;
    }
    return 0;
}
