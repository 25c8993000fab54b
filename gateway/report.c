/* The example's lines: refused segments, counts, flows and the RTO. */
#define _POSIX_C_SOURCE 200809L /* for inet_ntop */

#include "report.h"

#include <arpa/inet.h>
#include <inttypes.h>
#include <stdbool.h>
#include <stdio.h>

static const char *const MEANINGS[REPORT_NUMBERS] = {
    [NOPPALERK_READABLE] = "readable",
    [NOPPALERK_E1] = "segment under 20 octets",
    [NOPPALERK_E2] = "segment over 65,535 octets",
    [NOPPALERK_E3] = "offset below 5, or 4 x offset past the end",
    [NOPPALERK_E4] = "option without length octet, length under 2, or past the header",
    [NOPPALERK_E5] = "known kind, wrong length",
    [NOPPALERK_E6] = "known kind a second time",
};

static const char *const CLASSES[PACKET_CLASSES] = {
    [PACKET_TCP] = "TCP segment",
    [PACKET_NOT_IP] = "not IP",
    [PACKET_NOT_TCP] = "not TCP",
    [PACKET_FRAGMENT] = "fragment",
    [PACKET_CUT] = "cut short by the capture",
    [PACKET_DAMAGED] = "damaged IP header",
    [PACKET_WITHOUT_LENGTH] = "no length in the IP header (jumbogram, or left to the network card)",
};

static void print_end(unsigned ip_version, const uint8_t *address, bool has_port, uint16_t port)
{
    char room[INET6_ADDRSTRLEN];
    const char *text = inet_ntop(ip_version == 4 ? AF_INET : AF_INET6, address, room, sizeof room);
    const char *shown = text != NULL ? text : "?";
    if (!has_port) {
        printf("%s", shown);
    } else if (ip_version == 4) {
        printf("%s:%u", shown, (unsigned)port);
    } else {
        printf("[%s]:%u", shown, (unsigned)port);
    }
}

static void print_endpoints(const struct endpoints *ends)
{
    print_end(ends->ip_version, ends->source, ends->has_ports, ends->source_port);
    printf(" > ");
    print_end(ends->ip_version, ends->destination, ends->has_ports, ends->destination_port);
}

void report_refused(uint64_t packet_number, const struct endpoints *endpoints, uint32_t number)
{
    printf("packet %" PRIu64 ": ", packet_number);
    print_endpoints(endpoints);
    printf(": E%" PRIu32 ", %s\n", number, MEANINGS[number]);
}

static void report_class(const struct counts *counts, enum packet_class class)
{
    printf("  %8" PRIu64 "  %s\n", counts->by_class[class], CLASSES[class]);
}

void report_counts(const struct counts *counts)
{
    printf("packets: %" PRIu64 "\n", counts->packets);
    printf("TCP segments: %" PRIu64 "\n", counts->by_class[PACKET_TCP]);
    printf("  %8" PRIu64 "  readable\n", counts->by_number[NOPPALERK_READABLE]);
    for (unsigned number = NOPPALERK_E1; number < REPORT_NUMBERS; number++) {
        printf("  %8" PRIu64 "  E%u, %s\n", counts->by_number[number], number, MEANINGS[number]);
    }
    printf("packets without a TCP segment: %" PRIu64 "\n", counts->packets - counts->by_class[PACKET_TCP]);
    report_class(counts, PACKET_NOT_IP);
    report_class(counts, PACKET_NOT_TCP);
    report_class(counts, PACKET_FRAGMENT);
    report_class(counts, PACKET_CUT);
    report_class(counts, PACKET_DAMAGED);
    report_class(counts, PACKET_WITHOUT_LENGTH);
}

static void report_flow(const struct flow *flow)
{
    printf("  ");
    print_endpoints(&flow->endpoints);
    printf(": readable %" PRIu64, flow->segments);
    if (flow->segments > 1) {
        printf(", longest jump %+" PRId32, flow->longest_jump);
    }
    printf("\n");
}

void report_flows(const struct flows *flows)
{
    printf("flows with readable segments: %zu\n", flows->count);
    for (size_t i = 0; i < flows->count; i++) {
        report_flow(&flows->list[i]);
    }
}

void report_rto(uint64_t srtt, uint64_t rttvar)
{
    uint32_t milliseconds = noppalerk_milliseconds(srtt, rttvar);
    printf("RTO for S %" PRIu64 " and V %" PRIu64 ": ", srtt, rttvar);
    if (milliseconds == 0) {
        printf("none, since S or V is above 153,600,000\n");
    } else {
        printf("%" PRIu32 " ms\n", milliseconds);
    }
}
