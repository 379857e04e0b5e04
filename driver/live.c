#include "live.h"

#include <errno.h>
#include <stdio.h>
#include <string.h>

#include "file.h"
#include "mortarsedge.h"
#include "say.h"

enum { LONGEST = 100 /* bytes of a line */, WORDS = 5, BYTES = 4 /* numbers of a line at most */ };

/* The rig, and where in the input we are. */
struct live {
    uint8_t rig[MORTARSEDGE_RIG_SIZE];
    unsigned line;
    bool misread; /* a line was none */
};

static void misread(struct live *live, const char *word, const char *why)
{
    live->misread = true;
    fprintf(stderr, "driver: line %u: %s%s%s\n", live->line, word, word[0] == '\0' ? "" : ": ", why);
}

static void tell_refused(const struct live *live, uint32_t number)
{
    fprintf(stderr, "line %u refused, %u: %s\n", live->line, (unsigned)number, mortarsedge_refusal_text(number));
}

static void put_levels(const uint32_t level[MORTARSEDGE_LEVELS])
{
    for (size_t i = 0; i < MORTARSEDGE_LEVELS; i++)
        printf(" %u", (unsigned)level[i]);
}

static void put_word(const struct mortarsedge_word *word)
{
    printf("level %u", (unsigned)word->channel);
    put_levels(word->level);
    putchar('\n');
}

static void step(struct live *live, uint32_t kind, uint32_t task, uint32_t number)
{
    uint8_t record[MORTARSEDGE_LOG_RECORD];
    struct mortarsedge_word word;
    uint32_t answer = mortarsedge_step(live->rig, sizeof live->rig, kind, task, number, record, sizeof record);
    if (answer != MORTARSEDGE_ACCEPTED)
        tell_refused(live, answer);
    else if (mortarsedge_take_word(record, &word))
        put_word(&word);
}

static void run(struct live *live, const uint32_t *n)
{
    step(live, MORTARSEDGE_STEP_RUN, n[0], 0);
}

static void deliver(struct live *live, const uint32_t *n)
{
    step(live, MORTARSEDGE_STEP_DELIVER, 0, n[0]);
}

static void move(struct live *live, const uint32_t *n)
{
    step(live, MORTARSEDGE_STEP_MOVE, n[0], n[1]);
}

/* Any step, by its three numbers. */
static void any_step(struct live *live, const uint32_t *n)
{
    step(live, n[0], n[1], n[2]);
}

static void put_made(const struct mortarsedge_made *made)
{
    if (made->kind == MORTARSEDGE_STEP_RUN)
        printf("made run %u %u\n", (unsigned)made->task, (unsigned)made->answer);
    else
        printf("made deliver %u %u\n", (unsigned)made->number, (unsigned)made->answer);
    if (made->received)
        put_word(&made->word);
}

static void call(struct live *live, const uint32_t *n)
{
    uint8_t steps[MORTARSEDGE_DISPATCH_STEPS], records[MORTARSEDGE_DISPATCH_RECORDS];
    uint64_t answer = mortarsedge_dispatch(live->rig, sizeof live->rig, n[0], steps, sizeof steps, records, sizeof records);
    if (mortarsedge_number(answer) != MORTARSEDGE_ACCEPTED) {
        tell_refused(live, mortarsedge_number(answer));
        return;
    }
    for (size_t i = 0; i < mortarsedge_made_count(answer); i++) {
        struct mortarsedge_made made;
        mortarsedge_take_made(steps, records, i, &made);
        put_made(&made);
    }
}

static void rest(struct live *live, const uint32_t *n)
{
    uint64_t answer = mortarsedge_rest(live->rig, sizeof live->rig);
    (void)n;
    if (mortarsedge_number(answer) != MORTARSEDGE_ACCEPTED)
        tell_refused(live, mortarsedge_number(answer));
    else
        printf("rest %u %u\n", (unsigned)mortarsedge_at_rest(answer), (unsigned)mortarsedge_letters(answer));
}

static void panel(struct live *live, const uint32_t *n)
{
    uint32_t counts[MORTARSEDGE_PANEL_COUNTS];
    uint32_t answer = mortarsedge_panel(live->rig, sizeof live->rig, counts, MORTARSEDGE_PANEL_COUNTS);
    (void)n;
    if (answer != MORTARSEDGE_ACCEPTED)
        tell_refused(live, answer);
    for (uint32_t a = 0; answer == MORTARSEDGE_ACCEPTED && a < MORTARSEDGE_PANEL_COUNTS; a++)
        if (counts[a] != 0)
            printf("panel %u %u\n", (unsigned)a, (unsigned)counts[a]);
}

/* What the driver shows of a task; the answer. */
static uint32_t look(const struct live *live, uint32_t task, struct mortarsedge_view *view)
{
    uint8_t out[MORTARSEDGE_DRIVER_VIEW] = {0};
    uint32_t answer = mortarsedge_driver_view(live->rig, sizeof live->rig, task, out, sizeof out);
    mortarsedge_take_view(out, view);
    return answer;
}

static void view(struct live *live, const uint32_t *n)
{
    struct mortarsedge_view shown;
    uint32_t answer = look(live, n[0], &shown);
    if (answer != MORTARSEDGE_ACCEPTED) {
        tell_refused(live, answer);
        return;
    }
    printf("view %u %s %u %u word", (unsigned)shown.task, mortarsedge_state_text(shown.state), (unsigned)shown.desk,
           (unsigned)shown.place);
    put_levels(shown.level);
    printf(" children %u", (unsigned)shown.living);
    for (uint32_t t = 1; t <= MORTARSEDGE_MAX_TASKS; t++)
        if ((shown.children >> (t - 1)) % 2 == 1)
            printf(" %u", (unsigned)t);
    putchar('\n');
}

static const struct {
    const char *name;
    size_t numbers;
    void (*act)(struct live *live, const uint32_t *numbers);
} commands[] = {
    {"run", 1, run},   {"deliver", 1, deliver}, {"move", 2, move}, {"step", 3, any_step},
    {"call", 1, call}, {"rest", 0, rest},       {"panel", 0, panel}, {"view", 1, view},
};

enum { COMMANDS = sizeof commands / sizeof commands[0] };

/* Digits: at most nine, so that the number fits; the core is to say what is too large. */
static bool parse_number(const char *word, uint32_t *number)
{
    size_t length = strlen(word);
    *number = 0;
    if (length < 1 || length > 9 || strspn(word, "0123456789") != length)
        return false;
    for (; *word != '\0'; word++)
        *number = 10 * *number + (uint32_t)(*word - '0');
    return true;
}

/* The words of a line as numbers; where one is none, says so. */
static bool parse_numbers(struct live *live, char *const *words, size_t count, uint32_t numbers[BYTES])
{
    for (size_t i = 0; i < count; i++)
        if (!parse_number(words[i], &numbers[i])) {
            misread(live, words[i], "no number");
            return false;
        }
    return true;
}

/* The four bytes of a step. */
static void act_on_bytes(struct live *live, char *const *words, size_t count)
{
    uint32_t n[BYTES];
    if (count != BYTES) {
        misread(live, words[0], "a step has four bytes");
        return;
    }
    if (!parse_numbers(live, words, count, n))
        return;
    for (size_t i = 0; i < BYTES; i++)
        if (n[i] > 255) {
            misread(live, words[i], "no byte");
            return;
        }
    step(live, n[0], n[1], n[2] + 256 * n[3]);
}

static void act(struct live *live, char *const *words, size_t count)
{
    static const char *const needed[] = {"no number is needed", "one number is needed", "two numbers are needed",
                                         "three numbers are needed"};
    uint32_t n[BYTES];
    if (words[0][0] >= '0' && words[0][0] <= '9') {
        act_on_bytes(live, words, count);
        return;
    }
    for (size_t i = 0; i < COMMANDS; i++) {
        if (strcmp(words[0], commands[i].name) != 0)
            continue;
        if (count - 1 != commands[i].numbers)
            misread(live, words[0], needed[commands[i].numbers]);
        else if (parse_numbers(live, words + 1, count - 1, n))
            commands[i].act(live, n);
        return;
    }
    misread(live, words[0], "neither run, deliver, move, step, call, rest, panel, view nor the four bytes of a step");
}

/* A line without its line feed. */
static void take_line(struct live *live, char *line)
{
    char *words[WORDS];
    size_t count = 0;
    line[strcspn(line, "#")] = '\0';
    for (char *word = strtok(line, " \t\r"); word != NULL; word = strtok(NULL, " \t\r")) {
        if (count == WORDS) {
            misread(live, word, "too many words");
            return;
        }
        words[count++] = word;
    }
    if (count > 0)
        act(live, words, count);
}

/* Reads a line; false at the end of the input. One that is too long or has a zero byte is told, and is empty. */
static bool read_line(struct live *live, char line[LONGEST + 1])
{
    size_t length = 0;
    bool zero = false;
    int c = getchar();
    if (c == EOF)
        return false;
    live->line++;
    for (; c != EOF && c != '\n'; c = getchar(), length++) {
        zero = zero || c == '\0';
        if (length < LONGEST)
            line[length] = (char)c;
    }
    line[length < LONGEST ? length : LONGEST] = '\0';
    if (length > LONGEST || zero) {
        misread(live, "", zero ? "a zero byte" : "over 100 bytes");
        line[0] = '\0';
    }
    return true;
}

/* The show has finished when task 1 is done: its finish is refused while a child lives. */
static void tell_end(const struct live *live)
{
    struct mortarsedge_view first;
    uint64_t answer = mortarsedge_rest(live->rig, sizeof live->rig);
    uint32_t letters = mortarsedge_letters(answer);
    look(live, 1, &first);
    fprintf(stderr, "%s, ", first.state == MORTARSEDGE_DONE ? "finished" : "not finished");
    if (mortarsedge_at_rest(answer))
        fprintf(stderr, "at rest\n");
    else
        fprintf(stderr, "not at rest, %u letter%s\n", (unsigned)letters, letters == 1 ? "" : "s");
}

/* Each line, and what it leaves to be said before the next. */
static int drive(struct live *live)
{
    char line[LONGEST + 1];
    errno = 0;
    while (read_line(live, line)) {
        take_line(live, line);
        if (fflush(stdout) != 0)
            return broken("standard output", strerror(errno));
    }
    if (ferror(stdin))
        return broken("standard input", strerror(errno));
    tell_end(live);
    return live->misread ? USAGE : DONE;
}

int live_run(uint32_t desks, const char *desks_word, const char *plan_name)
{
    static struct live live;
    struct file plan;
    if (!file_load(plan_name, &plan))
        return BROKEN;
    uint32_t number = mortarsedge_start(desks, plan.bytes, plan.length, live.rig, sizeof live.rig);
    file_free(&plan);
    if (number != MORTARSEDGE_ACCEPTED)
        return refused(number == MORTARSEDGE_BAD_DESKS ? desks_word : plan_name, number);
    return drive(&live);
}
