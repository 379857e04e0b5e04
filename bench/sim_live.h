/* The calls of a live rig, over the simulator. They have the signatures and the promises of those in
 * include/mortarsedge.h. */
#ifndef SIM_LIVE_H
#define SIM_LIVE_H

#include <stddef.h>
#include <stdint.h>

#include "sim_image.h"

uint32_t sim_live_start(uint32_t desks, const uint8_t *plan, size_t plan_length, uint8_t *rig, size_t rig_length);

uint32_t sim_live_step(uint8_t *rig, size_t rig_length, uint32_t kind, uint32_t task, uint32_t number,
                       uint8_t *record, size_t record_length);

uint64_t sim_live_dispatch(uint8_t *rig, size_t rig_length, uint32_t desk, uint8_t *steps, size_t steps_length,
                           uint8_t *records, size_t records_length);

uint32_t sim_live_panel(const uint8_t *rig, size_t rig_length, uint32_t *counts, size_t counts_length);

uint32_t sim_live_tablet_view(const uint8_t *rig, size_t rig_length, uint32_t task, uint8_t *out, size_t out_length);

uint32_t sim_live_driver_view(const uint8_t *rig, size_t rig_length, uint32_t task, uint8_t *out, size_t out_length);

uint64_t sim_live_rest(const uint8_t *rig, size_t rig_length);

/* The rig in lent bytes; false where the answer is 9. */
bool sim_live_read(const uint8_t *rig, size_t rig_length, struct sim_rig *to);

#endif
