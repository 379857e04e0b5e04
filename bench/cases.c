/* Step files are made by asking a simulated rig: a step that it refuses is
 * proposed again in another way, so that all or nearly all are accepted. */
#include "cases.h"

#include <string.h>

#include "../include/mortarsedge.h"
#include "make_plan.h"
#include "make_steps.h"

enum { TRIES = 2000, WORKERS = 50 /* the first of them */, LISTENER = MAX_TASKS };

typedef void propose(struct random *r, const struct sim_rig *rig, uint8_t *step);

static void count_step(struct bench_case *c, const uint8_t *step, struct sim_received received)
{
    c->accepted++;
    c->moves += step[0] == 3;
    c->deliveries += step[0] == 2;
    c->words += received.channel != 0;
}

/* So many steps from the start of the case's plan. */
static void lead(struct bench_case *c, uint32_t steps, propose *proposal)
{
    static struct sim_rig rig;
    struct random r = {1};
    struct sim_received received;
    uint64_t letters = 0;
    c->accepted = c->moves = c->deliveries = c->words = 0;
    c->steps_length = 4 * (size_t)steps;
    if (sim_start(&rig, c->desks, c->plan, c->plan_length) != 0)
        return;
    for (uint32_t i = 0; i < steps; i++) {
        uint8_t *step = c->steps + 4 * i;
        uint32_t answer = 19;
        for (uint32_t tries = 0; tries < TRIES && answer != 0; tries++) {
            proposal(&r, &rig, step);
            answer = sim_step(&rig, step, &received);
        }
        if (answer == 0)
            count_step(c, step, received);
        letters += rig.letters;
    }
    c->mail = steps == 0 ? 0 : (uint32_t)(letters / steps);
}

static void propose_run(struct random *r, const struct sim_rig *rig, uint8_t *step)
{
    mortarsedge_put_step(step, 1, ready_task(r, rig), 0);
}

static void propose_move(struct random *r, const struct sim_rig *rig, uint8_t *step)
{
    mortarsedge_put_step(step, 3, ready_task(r, rig), random_from(r, 1, rig->desks));
}

/* Runs and moves while few letters are under way, else a delivery of any. */
static void propose_moving(struct random *r, const struct sim_rig *rig, uint8_t *step)
{
    if (random_below(r, 24) < rig->letters)
        mortarsedge_put_step(step, 2, 0, random_from(r, 1, rig->letters));
    else if (random_chance(r, 30))
        propose_run(r, rig, step);
    else
        propose_move(r, rig, step);
}

/* Whether something follows from a letter: of adverts, those that find their
 * receiver. */
static bool is_lively(const struct sim_rig *rig, const struct sim_letter *letter)
{
    if (letter->kind != ADVERT)
        return true;
    const struct sim_channel *channel = &rig->channel[letter->subject];
    const struct sim_task *receiver = &rig->task[channel->receiver];
    return receiver->desk == letter->desk && receiver->state == RECEIVING && channel->called == 0;
}

/* The position of a lively letter; 0 if there is none. */
static uint32_t lively_letter(struct random *r, const struct sim_rig *rig)
{
    uint32_t first = random_below(r, rig->letters);
    for (uint32_t i = 0; i < rig->letters; i++) {
        uint32_t place = (first + i) % rig->letters;
        if (is_lively(rig, &rig->mail[place]))
            return place + 1;
    }
    return 0;
}

/* Task 1 moves between desks 1 and 2: it leaves, then it arrives. */
static void propose_to_and_fro(struct random *r, const struct sim_rig *rig, uint8_t *step)
{
    (void)r;
    if (rig->letters > 0)
        mortarsedge_put_step(step, 2, 0, 1);
    else
        mortarsedge_put_step(step, 3, 1, 3u - rig->task[1].desk);
}

/* Task 1 creates all others first. Then letters are posted and taken by turns,
 * the oldest now and then. */
static void propose_mail(struct random *r, const struct sim_rig *rig, uint8_t *step)
{
    if (rig->code[rig->task[1].place].kind == CREATE)
        mortarsedge_put_step(step, 1, 1, 0);
    else if (rig->letters > 244 && random_chance(r, 2))
        mortarsedge_put_step(step, 2, 0, 1);
    else if (rig->letters > 252)
        mortarsedge_put_step(step, 2, 0, lively_letter(r, rig));
    else if (rig->letters > 200 && random_chance(r, 50))
        propose_move(r, rig, step);
    else
        propose_run(r, rig, step);
    if (rig->letters > 0 && random_chance(r, 5))
        mortarsedge_put_step(step, 2, 0, lively_letter(r, rig));
}

/* Task 1: create 2, set 7, send 3, sync, finish; task 2: receive 3, add 1, finish. */
static void small_plan(struct bench_case *c)
{
    static struct draft d;
    draft_clear(&d, 2);
    draft_add(&d, 1, CREATE, 2);
    draft_add(&d, 1, SET, 7);
    draft_add(&d, 1, SEND, 3);
    draft_add(&d, 1, SYNC, 0);
    draft_add(&d, 1, FINISH, 0);
    draft_add(&d, 2, RECEIVE, 3);
    draft_add(&d, 2, ADD, 1);
    draft_add(&d, 2, FINISH, 0);
    c->desks = 2;
    c->plan_length = draft_write(&d, c->plan);
}

/* 64 tasks of 64 instructions: each creates the next and uses four channels. */
static void large_plan(struct bench_case *c)
{
    static struct draft d;
    draft_clear(&d, MAX_TASKS);
    for (uint32_t t = 1; t <= MAX_TASKS; t++) {
        if (t < MAX_TASKS)
            draft_add(&d, t, CREATE, t + 1);
        for (uint32_t i = 0; d.task[t].count + 2 < MAX_COUNT; i++) {
            uint32_t other = i / 4 % 2 * MAX_TASKS;
            uint32_t kinds[4] = {SEND, ADD, RECEIVE, SET};
            uint32_t arguments[4] = {t + other, i, t % MAX_TASKS + 1 + other, i};
            draft_add(&d, t, kinds[i % 4], arguments[i % 4]);
        }
        draft_add(&d, t, SYNC, 0);
        draft_add(&d, t, FINISH, 0);
    }
    c->desks = 6;
    c->plan_length = draft_write(&d, c->plan);
}

static void make_one_step(struct bench_case *c)
{
    small_plan(c);
    lead(c, 1, propose_run);
}

static void make_one_step_large(struct bench_case *c)
{
    large_plan(c);
    lead(c, 1, propose_run);
}

/* 16 tasks with 48 channels, three out and three in for most. */
static void make_moving(struct bench_case *c)
{
    static struct draft d;
    struct random r = {1};
    struct plan_style style = {.tasks = 16, .channels = 48, .events = 2000, .words = 98, .wide = true};
    make_plan(&r, &style, &d);
    c->desks = 6;
    c->plan_length = draft_write(&d, c->plan);
    lead(c, MAX_STEPS, propose_moving);
}

/* 40 tasks that set and add. */
static void make_local(struct bench_case *c)
{
    static struct draft d;
    draft_clear(&d, 40);
    for (uint32_t t = 2; t <= 40; t++)
        draft_add(&d, 1, CREATE, t);
    for (uint32_t t = 1; t <= 40; t++) {
        for (uint32_t i = 0; d.task[t].count + 1 < MAX_COUNT; i++)
            draft_add(&d, t, i % 4 == 0 ? SET : ADD, 1000 * i + t);
        draft_add(&d, t, FINISH, 0);
    }
    c->desks = 1;
    c->plan_length = draft_write(&d, c->plan);
    lead(c, MAX_STEPS, propose_run);
}

/* Sends to the listener, which is never born, since the first crier would create
 * it after its send: five adverts, and no end. */
static void add_crier(struct draft *d, uint32_t t)
{
    draft_add(d, t, SEND, t);
    if (t == 2)
        draft_add(d, t, CREATE, LISTENER);
    draft_add(d, t, FINISH, 0);
    draft_add(d, LISTENER, RECEIVE, t);
}

/* Two workers send to each other over three channels either way. */
static void add_worker(struct draft *d, uint32_t t)
{
    uint32_t pair = 64 + (t - WORKERS) / 2 * 6;
    for (uint32_t i = 0; d->task[t].count + 1 < MAX_COUNT; i++)
        draft_add(d, t, (i + t) % 2 == 0 ? SEND : RECEIVE, pair + i % 6);
    draft_add(d, t, FINISH, 0);
}

/* 48 criers fill the mail, and 14 workers use what is left of it. */
static void make_mail(struct bench_case *c)
{
    static struct draft d;
    draft_clear(&d, MAX_TASKS);
    for (uint32_t t = 2; t < LISTENER; t++)
        draft_add(&d, 1, CREATE, t);
    draft_add(&d, 1, FINISH, 0);
    for (uint32_t t = 2; t < LISTENER; t++)
        if (t < WORKERS)
            add_crier(&d, t);
        else
            add_worker(&d, t);
    draft_add(&d, LISTENER, FINISH, 0);
    c->desks = 6;
    c->plan_length = draft_write(&d, c->plan);
    lead(c, MAX_STEPS, propose_mail);
}

/* Task 1 receives on the first channels and sends on the others; task 2 has the
 * other ends. Task 1 moves before it runs, so it is ready and childless. */
static void make_to_and_fro(struct bench_case *c)
{
    static struct draft d;
    draft_clear(&d, 2);
    draft_add(&d, 1, CREATE, 2);
    for (uint32_t channel = 1; channel <= c->in + c->out; channel++) {
        draft_add(&d, 1, channel <= c->in ? RECEIVE : SEND, channel);
        draft_add(&d, 2, channel <= c->in ? SEND : RECEIVE, channel);
    }
    draft_add(&d, 1, SYNC, 0);
    draft_add(&d, 1, FINISH, 0);
    draft_add(&d, 2, FINISH, 0);
    c->desks = 2;
    c->plan_length = draft_write(&d, c->plan);
    lead(c, MAX_STEPS, propose_to_and_fro);
}

static struct bench_case cases[CASES] = {
    {.name = "check-small", .about = "plan check, 2 tasks", .make = small_plan, .check_only = true},
    {.name = "check-large", .about = "plan check, 64 tasks of 64 instructions", .make = large_plan, .check_only = true},
    {.name = "moving", .about = "run, moves and deliveries", .make = make_moving},
    {.name = "local", .about = "run, set and add", .make = make_local},
    {.name = "mail", .about = "run, mail nearly full", .make = make_mail},
    {.name = "move-1", .about = "run, to and fro, 1 channel in", .make = make_to_and_fro, .in = 1},
    {.name = "move-20", .about = "run, to and fro, 10 in and 10 out", .make = make_to_and_fro, .in = 10, .out = 10},
    {.name = "move-60", .about = "run, to and fro, 30 in and 30 out", .make = make_to_and_fro, .in = 30, .out = 30},
    {.name = "move-60-in", .about = "run, to and fro, 60 in", .make = make_to_and_fro, .in = 60},
    {.name = "move-60-out", .about = "run, to and fro, 60 out", .make = make_to_and_fro, .out = 60},
    {.name = "one-step", .about = "run of one step, 2 tasks", .make = make_one_step},
    {.name = "one-step-large", .about = "run of one step, 64 tasks of 64", .make = make_one_step_large},
};

struct bench_case *case_at(unsigned i)
{
    if (i >= CASES)
        return NULL;
    cases[i].make(&cases[i]);
    return &cases[i];
}

struct bench_case *case_named(const char *name)
{
    for (unsigned i = 0; i < CASES; i++)
        if (strcmp(cases[i].name, name) == 0)
            return case_at(i);
    return NULL;
}
