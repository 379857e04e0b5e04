/* 3, 4 and 21 to 23: instructions by themselves, and within their task. */
#include "spot.h"

static uint32_t tasks_of(const struct search *search)
{
    return u16(search->input->given);
}

/* The least and the most argument of a kind; false for a kind that is none. */
static bool argument_range(const struct search *search, uint8_t kind, uint32_t *least, uint32_t *most)
{
    *least = 0;
    *most = 0;
    switch (kind) {
    case MORTARSEDGE_INSTRUCTION_CREATE:
        *least = 2;
        *most = tasks_of(search);
        return true;
    case MORTARSEDGE_INSTRUCTION_SYNC:
    case MORTARSEDGE_INSTRUCTION_FINISH:
    case MORTARSEDGE_INSTRUCTION_REPEAT_END:
        return true;
    case MORTARSEDGE_INSTRUCTION_SEND:
    case MORTARSEDGE_INSTRUCTION_RECEIVE:
        *least = 1;
        *most = MORTARSEDGE_MAX_CHANNELS;
        return true;
    case MORTARSEDGE_INSTRUCTION_SET:
    case MORTARSEDGE_INSTRUCTION_ADD:
        *most = 65535;
        return true;
    case MORTARSEDGE_INSTRUCTION_REPEAT:
        *least = 1;
        *most = 64;
        return true;
    default:
        return false;
    }
}

static void find_instruction(struct search *search, uint32_t task, uint32_t index)
{
    const uint8_t *at = task_code(search, task, index);
    bool levels = at[0] == MORTARSEDGE_INSTRUCTION_SET || at[0] == MORTARSEDGE_INSTRUCTION_ADD;
    uint32_t argument = u16(at + 2), least, most;
    if (!argument_range(search, at[0], &least, &most))
        spot(search, task, index, "kind %u is unknown", at[0]);
    else if (levels && at[1] >= MORTARSEDGE_LEVELS)
        spot(search, task, index, "there is no level %u: a word has levels 0 to 3", at[1]);
    else if (!levels && at[1] != 0)
        spot(search, task, index, "its second byte is %u, and only set and add have a level", at[1]);
    else if (least > most)
        spot(search, task, index, "the plan has one task: there is no other to create");
    else if (argument < least || argument > most)
        spot(search, task, index, "its argument is %u, and %u to %u are possible", argument, least, most);
}

/* The kinds of the new edition, where the refusal is plan check's, which has seven. */
static void find_edition(struct search *search, uint32_t task, uint32_t index)
{
    if (task_code(search, task, index)[0] >= MORTARSEDGE_INSTRUCTION_REPEAT)
        spot(search, task, index, "repeats are of the new edition: `mortarsedge convert` writes them out");
}

void find_instructions(struct search *search)
{
    void (*const passes[])(struct search *, uint32_t, uint32_t) = {find_instruction, find_edition};
    for (uint32_t pass = 0; pass < 2 && search->found == 0; pass++)
        for (uint32_t t = 1; t <= tasks_of(search); t++)
            for (uint32_t i = 1; i <= task_count(search, t); i++)
                passes[pass](search, t, i);
}

/* The last instruction of a task when it is written out, and how often it is; 0 if none is left. */
static uint32_t last_written(const struct search *search, uint32_t task)
{
    for (uint32_t i = task_count(search, task); i > 0; i--)
        if (task_code(search, task, i)[0] < MORTARSEDGE_INSTRUCTION_REPEAT)
            return i;
    return 0;
}

/* A finish before the last, or in several rounds. */
static void find_early(struct search *search, uint32_t task, uint32_t last)
{
    uint32_t rounds = 1;
    for (uint32_t i = 1; i <= task_count(search, task); i++) {
        const uint8_t *at = task_code(search, task, i);
        if (at[0] == MORTARSEDGE_INSTRUCTION_REPEAT)
            rounds = u16(at + 2);
        else if (at[0] == MORTARSEDGE_INSTRUCTION_REPEAT_END)
            rounds = 1;
        else if (at[0] == MORTARSEDGE_INSTRUCTION_FINISH && i < last)
            spot(search, task, i, "finish is the last instruction of a task, and another stands behind it");
        else if (at[0] == MORTARSEDGE_INSTRUCTION_FINISH && rounds > 1)
            spot(search, task, i, "finish is repeated %u times", rounds);
    }
}

void find_finishes(struct search *search)
{
    for (uint32_t t = 1; t <= tasks_of(search); t++) {
        uint32_t last = last_written(search, t);
        if (last == 0)
            spot(search, t, 0, "nothing is left of it when its repeats are written out: it has no finish");
        else if (task_code(search, t, last)[0] != MORTARSEDGE_INSTRUCTION_FINISH)
            spot(search, t, last, "this is its last instruction, and finish has to be");
        find_early(search, t, last);
    }
}

/* 21, of one task. */
static void find_pairs(struct search *search, uint32_t task)
{
    uint32_t open = 0;
    for (uint32_t i = 1; i <= task_count(search, task); i++) {
        uint8_t kind = task_code(search, task, i)[0];
        if (kind == MORTARSEDGE_INSTRUCTION_REPEAT && open != 0)
            spot(search, task, i, "it stands within the repeat at instruction %u, and none may", open);
        else if (kind == MORTARSEDGE_INSTRUCTION_REPEAT)
            open = i;
        else if (kind == MORTARSEDGE_INSTRUCTION_REPEAT_END && open == 0)
            spot(search, task, i, "no repeat is open in this task");
        else if (kind == MORTARSEDGE_INSTRUCTION_REPEAT_END)
            open = 0;
    }
    if (open != 0)
        spot(search, task, open, "its end is missing in this task");
}

void find_repeats(struct search *search)
{
    for (uint32_t t = 1; t <= tasks_of(search); t++)
        find_pairs(search, t);
}

void find_repeated(struct search *search)
{
    for (uint32_t t = 1; t <= tasks_of(search); t++) {
        bool open = false;
        for (uint32_t i = 1; i <= task_count(search, t); i++) {
            uint8_t kind = task_code(search, t, i)[0];
            if (kind == MORTARSEDGE_INSTRUCTION_CREATE && open)
                spot(search, t, i, "a create stands in no repeat, not even of one round");
            open = kind == MORTARSEDGE_INSTRUCTION_REPEAT || (open && kind != MORTARSEDGE_INSTRUCTION_REPEAT_END);
        }
    }
}

void find_long(struct search *search)
{
    for (uint32_t t = 1; t <= tasks_of(search); t++) {
        uint32_t rounds = 1, count = 0;
        for (uint32_t i = 1; i <= task_count(search, t); i++) {
            const uint8_t *at = task_code(search, t, i);
            if (at[0] == MORTARSEDGE_INSTRUCTION_REPEAT)
                rounds = u16(at + 2);
            else if (at[0] == MORTARSEDGE_INSTRUCTION_REPEAT_END)
                rounds = 1;
            else
                count += rounds;
        }
        if (count > MORTARSEDGE_MAX_INSTRUCTIONS)
            spot(search, t, 0, "it has %u instructions when its repeats are written out, and 64 are possible", count);
    }
}
