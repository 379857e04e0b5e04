/* driver [--logs DIR] DESKS PLANFILE STEPFILE: stands where a dimmer's driver stands.
 * driver --live DESKS PLANFILE: the same with steps from standard input, one at a time (live.h).
 *
 * Each word that a task receives becomes a line `level CHANNEL`, its four levels, on
 * standard output, in order. Refused steps, tasks that met a sum over the top
 * and the end of the run are told on standard error. With --logs the sender's and
 * the receiver's log of the run are written to DIR/sent.log and DIR/received.log.
 * Exit status: 0 the run was done; 1 the desks or a file are
 * refused; 2 wrong usage; 3 a file cannot be read, or the levels or the logs
 * cannot be written. */
#include <errno.h>
#include <stdio.h>
#include <string.h>

#include "file.h"
#include "live.h"
#include "logs.h"
#include "mortarsedge.h"
#include "say.h"

static int usage(void)
{
    fprintf(stderr, "usage: driver [--logs DIR] DESKS PLANFILE STEPFILE\n"
                    "       driver --live DESKS PLANFILE\n"
                    "DESKS is a number, and 1 to 6 are accepted; the files are explained in docs/FORMATS.md\n");
    return USAGE;
}

/* One to nine digits. */
static bool parse_desks(const char *text, uint32_t *desks)
{
    size_t length = strlen(text);
    *desks = 0;
    if (length < 1 || length > 9 || strspn(text, "0123456789") != length)
        return false;
    for (; *text != '\0'; text++)
        *desks = 10 * *desks + (uint32_t)(*text - '0');
    return true;
}

/* What is run, and what its trace has told so far. */
struct show {
    uint32_t desks;
    const char *desks_word, *plan_name, *steps_name; /* as on the command line */
    const char *logs_folder;                         /* NULL: no logs are asked for */
    struct file plan, steps;
    uint32_t runs; /* accepted runs of task 1 */
};

/* The show has finished when task 1 has executed all its instructions: its last
 * is finish, which is refused while a child lives (docs/FORMATS.md). Their number
 * stands in bytes 6 and 7 of the plan file, which is accepted here. */
static bool has_finished(const struct show *show)
{
    return show->runs == show->plan.bytes[6] + 256u * show->plan.bytes[7];
}

static void report_end(const struct show *show, const struct mortarsedge_line *line)
{
    const char *finished = has_finished(show) ? "finished" : "not finished";
    if (line->at_rest)
        fprintf(stderr, "%s, at rest\n", finished);
    else
        fprintf(stderr, "%s, not at rest, %u letter%s\n", finished, (unsigned)line->letters,
                line->letters == 1 ? "" : "s");
}

static void report_word(const struct mortarsedge_line *line)
{
    printf("level %u", (unsigned)line->channel);
    for (size_t i = 0; i < MORTARSEDGE_LEVELS; i++)
        printf(" %u", (unsigned)line->level[i]);
    putchar('\n');
}

static void report_step(struct show *show, const struct mortarsedge_line *line)
{
    const uint8_t *step = show->steps.bytes + MORTARSEDGE_STEP_BYTES * (line->step - 1);
    if (line->received)
        report_word(line);
    if (line->answer != MORTARSEDGE_ACCEPTED)
        fprintf(stderr, "step %u refused, %u: %s\n", (unsigned)line->step, (unsigned)line->answer,
                mortarsedge_refusal_text(line->answer));
    else if (step[0] == MORTARSEDGE_STEP_RUN && step[1] == 1)
        show->runs++;
}

static void report_line(struct show *show, const struct mortarsedge_line *line)
{
    if (line->kind == MORTARSEDGE_LINE_STEP)
        report_step(show, line);
    else if (line->kind == MORTARSEDGE_LINE_OVER)
        fprintf(stderr, "task %u went over the top: a sum passed 65535\n", (unsigned)line->task);
    else
        report_end(show, line);
}

/* The lines of a trace, up to the last. */
static int report(struct show *show, const uint8_t *trace, size_t length)
{
    struct mortarsedge_line line;
    do {
        size_t taken = mortarsedge_take_line(trace, length, &line);
        if (line.kind == MORTARSEDGE_LINE_OTHER)
            return broken("the trace", "a line of no known form");
        report_line(show, &line);
        trace += taken;
        length -= taken;
    } while (line.kind != MORTARSEDGE_LINE_END);
    return fflush(stdout) == 0 ? DONE : broken("standard output", strerror(errno));
}

static bool write_log(const char *folder, const char *name, const struct log *log)
{
    char path[4096];
    int length = snprintf(path, sizeof path, "%s/%s", folder, name);
    if (length < 0 || (size_t)length >= sizeof path)
        return false;
    FILE *to = fopen(path, "wb");
    if (to == NULL)
        return false;
    bool written = fwrite(log->bytes, 1, log->length, to) == log->length;
    return fclose(to) == 0 && written;
}

/* Both logs, taken after the same step. */
static int report_logs(const struct show *show)
{
    static struct logs logs;
    errno = 0;
    if (!logs_of(show->desks, show->plan.bytes, show->plan.length, show->steps.bytes, show->steps.length, &logs))
        return broken("the trace", "a line of no known form");
    if (MORTARSEDGE_STEP_BYTES * logs.after < show->steps.length)
        fprintf(stderr, "logs taken after step %u: behind the last of 2,000 steps nothing can be asked\n",
                (unsigned)logs.after);
    if (!write_log(show->logs_folder, "sent.log", &logs.sent)
        || !write_log(show->logs_folder, "received.log", &logs.received))
        return broken(show->logs_folder, errno == 0 ? "the logs cannot be written" : strerror(errno));
    return DONE;
}

static int run(struct show *show)
{
    static uint8_t out[MORTARSEDGE_OUTPUT_ENOUGH];
    const struct file *plan = &show->plan, *steps = &show->steps;
    uint32_t number = mortarsedge_plan_check(show->desks, plan->bytes, plan->length);
    if (number != MORTARSEDGE_ACCEPTED)
        return refused(number == MORTARSEDGE_BAD_DESKS ? show->desks_word : show->plan_name, number);
    uint64_t answer = mortarsedge_run(show->desks, plan->bytes, plan->length, steps->bytes, steps->length,
                                      out, sizeof out);
    number = mortarsedge_number(answer);
    if (number != MORTARSEDGE_ACCEPTED)
        return refused(show->steps_name, number);
    int status = report(show, out, mortarsedge_filled(answer));
    return status == DONE && show->logs_folder != NULL ? report_logs(show) : status;
}

int main(int argc, char **argv)
{
    struct show show = {.desks = 0};
    int status = BROKEN;
    if (argc == 4 && strcmp(argv[1], "--live") == 0)
        return parse_desks(argv[2], &show.desks) ? live_run(show.desks, argv[2], argv[3]) : usage();
    if (argc == 6 && strcmp(argv[1], "--logs") == 0) {
        show.logs_folder = argv[2];
        argv += 2;
        argc -= 2;
    }
    if (argc != 4 || !parse_desks(argv[1], &show.desks))
        return usage();
    show.desks_word = argv[1];
    show.plan_name = argv[2];
    show.steps_name = argv[3];
    if (file_load(show.plan_name, &show.plan) && file_load(show.steps_name, &show.steps))
        status = run(&show);
    file_free(&show.plan);
    file_free(&show.steps);
    return status;
}
