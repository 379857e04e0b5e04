/* The check of two logs, written from the paper alone: it shares no line with the library. */
#ifndef SIM_LOGS_H
#define SIM_LOGS_H

#include <stddef.h>
#include <stdint.h>

/* The number, and 256 times the channel of a no, as mortarsedge_logs of include/mortarsedge.h. */
uint64_t sim_logs(const uint8_t *sent, size_t sent_length, const uint8_t *received, size_t received_length);

#endif
