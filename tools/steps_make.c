/* The notation of steps, line by line. A letter may be named by what it is: it is then looked for in the mail at that
 * point, which the simulator supplies. */
#include "steps_input.h"
#include "letters.h"
#include "watch.h"

/* Steps in the making. */
struct making {
    struct show *show;
    struct watch watch;
    size_t room; /* of steps */
};

/* A task by its name or number. A number is any that fits the field: the core is to say whether it is one. */
static bool take_task(struct making *making, struct line *line, uint32_t *task)
{
    struct word word;
    if (!take_any(line, "the task", &word))
        return false;
    if (is_number(&word)) {
        line->next--;
        return take_number(line, "a task", 255, task);
    }
    *task = making->show->plan.source == NULL ? 0 : source_task_number(making->show->plan.source, &word);
    if (*task == 0)
        fail_at(line->file, word.place, "there is no task '%.*s' in the plan's text", shown(&word), word.at);
    return *task != 0;
}

static bool take_channel(struct making *making, struct line *line, uint32_t *channel)
{
    struct word word;
    if (!take_any(line, "the channel", &word))
        return false;
    if (is_number(&word)) {
        line->next--;
        return take_number(line, "a channel", 65535, channel);
    }
    *channel = making->show->plan.source == NULL ? 0 : source_channel_number(making->show->plan.source, &word);
    if (*channel == 0)
        fail_at(line->file, word.place, "there is no channel '%.*s' in the plan's text", shown(&word), word.at);
    return *channel != 0;
}

/* `deliver offer 3 number 1 to 2`: kind and subject, then what tells it from others. */
static bool take_letter(struct making *making, struct line *line, uint32_t *position)
{
    struct word kind;
    struct wanted wanted = {0, 0, 0, 0};
    if (!take_any(line, "a position or a letter", &kind))
        return false;
    wanted.kind = letter_kind(&kind);
    if (wanted.kind == 0) {
        fail_at(line->file, kind.place, "'%.*s' is no position, and no letter: offer, advert, call, word, ended, mover",
                shown(&kind), kind.at);
        return false;
    }
    if (wanted.kind == ENDED || wanted.kind == MOVER ? !take_task(making, line, &wanted.subject)
                                                     : !take_channel(making, line, &wanted.subject))
        return false;
    if (take_word(line, "number") && !take_number(line, "an offer's number", 255, &wanted.number))
        return false;
    if (take_word(line, "to") && !take_number(line, "a desk", 255, &wanted.desk))
        return false;
    *position = letter_position(&making->watch.after, &wanted);
    if (*position == 0) {
        struct text mail = {NULL, 0, 0};
        put_mail(&mail, &making->show->plan.names, &making->watch.after);
        fail_at(line->file, kind.place, "no such letter is in the mail here: %s", mail.bytes);
        text_free(&mail);
    }
    return *position != 0;
}

static bool take_deliver(struct making *making, struct line *line, uint32_t *position)
{
    if (line->next < line->count && is_number(&line->word[line->next]))
        return take_number(line, "a position", 65535, position);
    return take_letter(making, line, position);
}

static bool take_move(struct making *making, struct line *line, uint32_t *task, uint32_t *desk)
{
    struct word word;
    if (!take_task(making, line, task))
        return false;
    if (!take_word(line, "to")) {
        if (take_any(line, "`to` and a desk", &word))
            fail_at(line->file, word.place, "'%.*s' is no `to`: move TASK to DESK", shown(&word), word.at);
        return false;
    }
    return take_number(line, "a desk", 65535, desk);
}

/* A step that is none of the three, by its fields. */
static bool take_fields(struct line *line, uint32_t field[3])
{
    return take_number(line, "the kind", 255, &field[0]) && take_number(line, "the task", 255, &field[1])
        && take_number(line, "the number", 65535, &field[2]);
}

static bool take_step(struct making *making, struct line *line, uint32_t field[3])
{
    const struct word *word = &line->word[0];
    field[0] = field[1] = field[2] = 0;
    if (take_word(line, "run")) {
        field[0] = MORTARSEDGE_STEP_RUN;
        return take_task(making, line, &field[1]);
    }
    if (take_word(line, "deliver")) {
        field[0] = MORTARSEDGE_STEP_DELIVER;
        return take_deliver(making, line, &field[2]);
    }
    if (take_word(line, "move")) {
        field[0] = MORTARSEDGE_STEP_MOVE;
        return take_move(making, line, &field[1], &field[2]);
    }
    if (take_word(line, "step"))
        return take_fields(line, field);
    fail_at(line->file, word->place, "'%.*s' is no step: run, deliver, move", shown(word), word->at);
    return false;
}

static void add_step(struct making *making, const struct line *line, const uint32_t field[3])
{
    struct steps_input *to = &making->show->steps;
    size_t count = to->length / MORTARSEDGE_STEP_BYTES;
    struct moment moment;
    if (count == making->room) {
        making->room = 2 * count + 64;
        to->made = memory(to->made, MORTARSEDGE_STEP_BYTES * making->room);
        to->place = memory(to->place, making->room * sizeof to->place[0]);
    }
    mortarsedge_put_step(to->made + to->length, field[0], field[1], field[2]);
    to->place[count] = line->word[0].place;
    watch_step(&making->watch, to->made + to->length, &moment);
    to->length += MORTARSEDGE_STEP_BYTES;
}

int steps_make(struct show *show)
{
    static struct making making;
    struct lines lines = {&show->steps.file, 0, 0};
    struct line line;
    uint32_t field[3];
    int status;
    making.show = show;
    making.room = 0;
    show->steps.length = 0;
    if (!watch_start(&making.watch, show->desks, show->plan.plan, show->plan.length))
        return fail(show->plan.file.name, "the library accepts this plan, and the simulator does not");
    while (next_line(&lines, &line, &status)) {
        if (!take_step(&making, &line, field) || !line_ends(&line))
            return FAILED;
        add_step(&making, &line, field);
    }
    show->steps.steps = show->steps.made;
    return status;
}
