/* What the example prints on standard output. */
#ifndef GATEWAY_REPORT_H
#define GATEWAY_REPORT_H

#include <stdint.h>

#include "flows.h"
#include "noppalerk.h"
#include "capture/packet.h"

enum { REPORT_NUMBERS = NOPPALERK_E6 + 1 };

struct counts {
    uint64_t packets;
    uint64_t by_number[REPORT_NUMBERS]; /* TCP segments by refusal number, 0 for readable ones */
    uint64_t by_class[PACKET_CLASSES];
};

void report_refused(uint64_t packet_number, const struct endpoints *endpoints, uint32_t number);
void report_counts(const struct counts *counts);
void report_flows(const struct flows *flows);
void report_rto(uint64_t srtt, uint64_t rttvar);

#endif
