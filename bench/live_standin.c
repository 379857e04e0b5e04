/* The calls of a live rig by the simulator, under the library's names: what the tests are tried on. */
#include "../include/mortarsedge.h"
#include "sim_live.h"

uint32_t mortarsedge_start(uint32_t desks, const uint8_t *plan, size_t plan_length, uint8_t *rig, size_t rig_length)
{
    return sim_live_start(desks, plan, plan_length, rig, rig_length);
}

uint32_t mortarsedge_step(uint8_t *rig, size_t rig_length, uint32_t kind, uint32_t task, uint32_t number,
                          uint8_t *record, size_t record_length)
{
    return sim_live_step(rig, rig_length, kind, task, number, record, record_length);
}

uint64_t mortarsedge_dispatch(uint8_t *rig, size_t rig_length, uint32_t desk, uint8_t *steps, size_t steps_length,
                              uint8_t *records, size_t records_length)
{
    return sim_live_dispatch(rig, rig_length, desk, steps, steps_length, records, records_length);
}

uint32_t mortarsedge_panel(const uint8_t *rig, size_t rig_length, uint32_t *counts, size_t counts_length)
{
    return sim_live_panel(rig, rig_length, counts, counts_length);
}

uint32_t mortarsedge_tablet_view(const uint8_t *rig, size_t rig_length, uint32_t task, uint8_t *out, size_t out_length)
{
    return sim_live_tablet_view(rig, rig_length, task, out, out_length);
}

uint32_t mortarsedge_driver_view(const uint8_t *rig, size_t rig_length, uint32_t task, uint8_t *out, size_t out_length)
{
    return sim_live_driver_view(rig, rig_length, task, out, out_length);
}

uint64_t mortarsedge_rest(const uint8_t *rig, size_t rig_length)
{
    return sim_live_rest(rig, rig_length);
}
