/* 2: the header of counts and offsets, and the length. */
#include "spot.h"

static void find_counts(struct search *search, uint32_t tasks)
{
    const uint8_t *plan = search->input->given;
    uint32_t offset = 4 + 4 * tasks, sum = 0;
    for (uint32_t t = 1; t <= tasks; t++) {
        uint32_t count = task_count(search, t);
        if (count < 1 || count > MORTARSEDGE_MAX_INSTRUCTIONS)
            spot(search, t, 0, "it has %u instructions, and 1 to 64 are possible", count);
        if (u16(plan + 4 * t) != offset)
            spot(search, t, 0, "its offset is %u, and its instructions are due at byte %u", u16(plan + 4 * t), offset);
        offset += 4 * count;
        sum += count;
    }
    if (u16(plan + 2) != sum)
        spot_byte(search, 2, "N is %u, and the tasks have %u instructions together", u16(plan + 2), sum);
    else if (search->input->given_length != offset)
        spot_byte(search, search->input->given_length, "the file has %zu bytes, and %u are due",
                  search->input->given_length, offset);
}

void find_layout(struct search *search)
{
    size_t length = search->input->given_length;
    uint32_t tasks = length < 4 ? 0 : u16(search->input->given);
    if (length < 4)
        spot_byte(search, length, "the file has %zu byte%s: a plan has 4 at least, T and N", length, length == 1 ? "" : "s");
    else if (tasks > MORTARSEDGE_MAX_TASKS && search->input->source != NULL)
        spot(search, MORTARSEDGE_MAX_TASKS + 1, 0, "a plan has at most 64 tasks");
    else if (search->input->source == NULL && file_is_text(&search->input->file))
        spot_byte(search, 0, "T is %u tasks, and 1 to 64 are possible. No byte is zero: `mortarsedge plan` takes a text", tasks);
    else if (tasks < 1 || tasks > MORTARSEDGE_MAX_TASKS)
        spot_byte(search, 0, "T is %u tasks, and 1 to 64 are possible", tasks);
    else if (length < 4 + 4 * tasks)
        spot_byte(search, length, "the file has %zu bytes, and the header of %u tasks has %u", length, tasks, 4 + 4 * tasks);
    else
        find_counts(search, tasks);
}
