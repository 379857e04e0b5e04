#include "steps_input.h"

#include <stdlib.h>
#include <string.h>

int show_read(uint32_t desks, const struct show_names *names, struct show *show)
{
    memset(&show->steps, 0, sizeof show->steps);
    show->desks = desks;
    int status = plan_read(names->plan, names->plan_bytes, &show->plan);
    if (status == ACCEPTED)
        status = plan_check(&show->plan, desks);
    if (status == ACCEPTED)
        status = file_read(names->steps, &show->steps.file);
    if (status != ACCEPTED)
        return status;
    show->steps.steps = show->steps.file.bytes;
    show->steps.length = show->steps.file.length;
    return !names->steps_bytes && file_is_text(&show->steps.file) ? steps_make(show) : ACCEPTED;
}

void put_step_place(struct text *to, const struct steps_input *input, uint32_t step)
{
    text_put(to, "%s:", input->file.name);
    if (input->place != NULL)
        text_put(to, "%u:%u:", input->place[step - 1].line, input->place[step - 1].column);
    text_put(to, " ");
}

void show_free(struct show *show)
{
    free(show->steps.place);
    free(show->steps.made);
    file_free(&show->steps.file);
    plan_free(&show->plan);
}
