#include "sim_live.h"

#include <string.h>

#include "sim_ask.h"

enum { RECORD = 10, REPORT = 11, DRIVER_VIEW = DRIVER_BYTES + 1 };

bool sim_live_read(const uint8_t *rig, size_t rig_length, struct sim_rig *to)
{
    return rig_length >= IMAGE_BYTES && sim_image_read(rig, to) && sim_rig_is_right(to);
}

uint32_t sim_live_start(uint32_t desks, const uint8_t *plan, size_t plan_length, uint8_t *rig, size_t rig_length)
{
    struct sim_rig made;
    memset(&made, 0, sizeof made);
    uint32_t number = sim_start(&made, desks, plan, plan_length);
    if (number != 0)
        return number;
    if (rig_length < IMAGE_BYTES)
        return 20;
    sim_image_write(&made, rig);
    if (MUTANT == 117 && rig_length > IMAGE_BYTES)
        rig[IMAGE_BYTES] = 0;
    return 0;
}

static void put_record(uint8_t record[RECORD], struct sim_received received)
{
    memset(record, 0, RECORD);
    if (received.channel == 0)
        return;
    record[0] = received.channel;
    for (uint32_t i = 0; i < LEVELS; i++)
        put_u16(record + 2 + 2 * i, received.word.level[MUTANT == 118 ? LEVELS - 1 - i : i]);
}

/* The four bytes of a step; zeros, which 19 refuses, where a number does not fit. */
static void put_step(uint8_t step[4], uint32_t kind, uint32_t task, uint32_t number)
{
    memset(step, 0, 4);
    if ((kind > 255 || task > 255 || number > 65535) && MUTANT != 119)
        return;
    step[0] = (uint8_t)kind;
    step[1] = (uint8_t)task;
    put_u16(step + 2, number);
}

uint32_t sim_live_step(uint8_t *rig, size_t rig_length, uint32_t kind, uint32_t task, uint32_t number,
                       uint8_t *record, size_t record_length)
{
    struct sim_rig read;
    struct sim_received received = {.channel = 0};
    uint8_t step[4];
    uint32_t answer = 9;
    if (record_length < RECORD)
        return 20;
    put_step(step, kind, task, number);
    if (sim_live_read(rig, rig_length, &read))
        answer = sim_step(&read, step, &received);
    if (answer == 0 || MUTANT != 120)
        put_record(record, received);
    if (answer == 0)
        sim_image_write(&read, rig);
    else if (MUTANT == 121 && rig_length >= IMAGE_BYTES)
        rig[IMAGE_CHOSEN] = 0;
    return answer;
}

uint64_t sim_live_dispatch(uint8_t *rig, size_t rig_length, uint32_t desk, uint8_t *steps, size_t steps_length,
                           uint8_t *records, size_t records_length)
{
    struct sim_rig read;
    struct sim_made made[2];
    uint32_t count;
    if ((steps_length < 8 || records_length < 2 * REPORT) && !(MUTANT == 122 && !sim_live_read(rig, rig_length, &read)))
        return 20;
    if (!sim_live_read(rig, rig_length, &read))
        return 9;
    uint32_t answer = sim_call(&read, MUTANT == 123 ? desk % 256 : desk, made, &count);
    if (answer != 0)
        return answer;
    for (uint32_t i = 0; i < count; i++) {
        memcpy(steps + 4 * i, made[i].step, 4);
        records[REPORT * i] = (uint8_t)made[i].answer;
        put_record(records + REPORT * i + 1, made[i].received);
    }
    if (MUTANT == 124 && count == 1)
        memset(steps + 4, 0, 4);
    if (MUTANT == 125 && count > 0 && made[count - 1].answer != 0)
        read.chosen[desk] = rig[IMAGE_CHOSEN + desk - 1];
    sim_image_write(&read, rig);
    return 256 * (uint64_t)(4 * count);
}

uint32_t sim_live_panel(const uint8_t *rig, size_t rig_length, uint32_t *counts, size_t counts_length)
{
    struct sim_rig read;
    uint16_t shown[ANSWERS];
    if (counts_length < ANSWERS)
        return 20;
    if (!sim_live_read(rig, rig_length, &read))
        return 9;
    sim_panel(&read, shown);
    for (uint32_t a = 0; a < ANSWERS; a++)
        counts[a] = shown[a];
    return 0;
}

/* The first bytes of what the driver shows of a task. */
static uint32_t view(const uint8_t *rig, size_t rig_length, uint32_t task, uint8_t *out, size_t bytes)
{
    struct sim_rig read;
    uint8_t record[DRIVER_VIEW] = {0};
    if (!sim_live_read(rig, rig_length, &read))
        return 9;
    if (task < 1 || task > read.tasks)
        return 10;
    sim_view(&read, task, record);
    for (uint32_t t = 1; t <= MAX_TASKS; t++)
        record[DRIVER_BYTES] = (uint8_t)(record[DRIVER_BYTES] + ((read.task[task].children & sim_bit(t)) != 0));
    memcpy(out, record, MUTANT == 126 ? DRIVER_VIEW : bytes);
    return 0;
}

uint32_t sim_live_tablet_view(const uint8_t *rig, size_t rig_length, uint32_t task, uint8_t *out, size_t out_length)
{
    return out_length < TABLET_BYTES ? 20 : view(rig, rig_length, task, out, TABLET_BYTES);
}

uint32_t sim_live_driver_view(const uint8_t *rig, size_t rig_length, uint32_t task, uint8_t *out, size_t out_length)
{
    return out_length < DRIVER_VIEW ? 20 : view(rig, rig_length, task, out, DRIVER_VIEW);
}

uint64_t sim_live_rest(const uint8_t *rig, size_t rig_length)
{
    struct sim_rig read;
    if (!sim_live_read(rig, rig_length, &read))
        return 9;
    return 256 * (uint64_t)(sim_at_rest(&read) && MUTANT != 127) + 65536 * (uint64_t)read.letters;
}
