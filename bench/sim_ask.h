/* What is asked of the simulator's rig and leaves it as it is: the panel, and views of a task. */
#ifndef SIM_ASK_H
#define SIM_ASK_H

#include "sim_rig.h"

enum { ANSWERS = 27, TABLET_BYTES = 4, DRIVER_BYTES = 20 };

/* Over all runs, all deliveries at 1 to 256 and all moves to desks of the rig: how many get each answer. */
void sim_panel(const struct sim_rig *rig, uint16_t counts[ANSWERS]);

/* Task t: number, state, desk and place, which is a tablet's record; then the levels of its word and its children. */
void sim_view(const struct sim_rig *rig, uint32_t t, uint8_t record[DRIVER_BYTES]);

#endif
