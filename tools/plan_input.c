#include "plan_input.h"

#include <stdlib.h>
#include <string.h>

#include "why.h"

static int read_text(struct plan_input *input)
{
    input->source = memory(NULL, sizeof *input->source);
    int status = source_read(&input->file, input->source);
    if (status != ACCEPTED)
        return status;
    names_of(input->source, &input->names);
    input->given = input->made;
    input->given_length = source_bytes(input->source, input->made);
    input->plan = input->given;
    input->length = input->given_length;
    return input->source->repeats ? plan_convert(input) : ACCEPTED;
}

int plan_read(const char *name, bool bytes, struct plan_input *input)
{
    memset(input, 0, sizeof *input);
    int status = file_read(name, &input->file);
    if (status != ACCEPTED)
        return status;
    if (!bytes && file_is_text(&input->file))
        return read_text(input);
    input->given = input->plan = input->file.bytes;
    input->given_length = input->length = input->file.length;
    return ACCEPTED;
}

int plan_check(const struct plan_input *input, uint32_t desks)
{
    uint32_t number = mortarsedge_plan_check(desks, input->plan, input->length);
    if (number == MORTARSEDGE_BAD_DESKS)
        return why_desks(desks);
    return number == MORTARSEDGE_ACCEPTED ? ACCEPTED : why_plan(input, number);
}

int plan_convert(struct plan_input *input)
{
    uint64_t answer = mortarsedge_convert(input->given, input->given_length, input->written, sizeof input->written);
    uint32_t number = mortarsedge_number(answer);
    if (number != MORTARSEDGE_ACCEPTED)
        return why_plan(input, number);
    input->plan = input->written;
    input->length = mortarsedge_filled(answer);
    return ACCEPTED;
}

void plan_free(struct plan_input *input)
{
    free(input->source);
    input->source = NULL;
    file_free(&input->file);
}
