#include "why.h"

#include <stdio.h>

#include "spot.h"

int why_desks(uint32_t desks)
{
    struct text name = {NULL, 0, 0};
    text_put(&name, "%u desk%s", desks, desks == 1 ? "" : "s");
    int status = refuse(name.bytes, MORTARSEDGE_BAD_DESKS);
    text_free(&name);
    return status;
}

static void (*finder(uint32_t number))(struct search *)
{
    switch (number) {
    case MORTARSEDGE_BAD_LAYOUT:
        return find_layout;
    case MORTARSEDGE_BAD_INSTRUCTION:
        return find_instructions;
    case MORTARSEDGE_BAD_FINISH:
        return find_finishes;
    case MORTARSEDGE_BAD_CREATE:
        return find_creates;
    case MORTARSEDGE_BAD_CHANNEL:
        return find_channels;
    case MORTARSEDGE_BAD_REPEAT:
        return find_repeats;
    case MORTARSEDGE_REPEATED_CREATE:
        return find_repeated;
    case MORTARSEDGE_TOO_LONG:
        return find_long;
    default:
        return NULL;
    }
}

int why_plan(const struct plan_input *input, uint32_t number)
{
    struct search search = {input, 0};
    void (*find)(struct search *) = finder(number);
    int status = refuse(input->file.name, number);
    if (find != NULL)
        find(&search);
    if (search.found > SPOTS)
        fprintf(stderr, "%s: and %u places more\n", input->file.name, search.found - SPOTS);
    return status;
}

int why_steps(const struct file *file, size_t length)
{
    const char *name = file->name;
    int status = refuse(name, MORTARSEDGE_BAD_STEP_FILE);
    if (length == file->length && file_is_text(file))
        fprintf(stderr, "%s: no byte is zero: `mortarsedge steps` takes a text\n", name);
    if (length % MORTARSEDGE_STEP_BYTES != 0)
        fprintf(stderr, "%s: byte %zu: the file has %zu bytes: behind the last whole step there are %zu\n", name,
                length - length % MORTARSEDGE_STEP_BYTES, length, length % MORTARSEDGE_STEP_BYTES);
    else
        fprintf(stderr, "%s: it has %zu steps\n", name, length / MORTARSEDGE_STEP_BYTES);
    return status;
}
