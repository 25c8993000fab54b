/*
 * An example of a gateway that calls Noppalerk: it reads a capture, passes each TCP segment to the library, and prints the
 * refused ones, counts, flows and the RTO.
 *
 * Status 0 where the whole capture was read, 1 where it was not or the output failed, 2 for bad usage.
 */
#include <assert.h>
#include <inttypes.h>
#include <stdbool.h>
#include <stdint.h>
#include <stdio.h>

#include "capture/capture.h"
#include "flows.h"
#include "noppalerk.h"
#include "capture/packet.h"
#include "report.h"

enum status { STATUS_DONE = 0, STATUS_FAILED = 1, STATUS_USAGE = 2 };

struct arguments {
    const char *capture;
    bool has_timer;
    uint64_t srtt;
    uint64_t rttvar;
};

/* What has been seen of the capture so far. */
struct seen {
    struct counts counts;
    struct flows flows;
};

/* Decimal digits alone; strtoull would take signs and blanks too. */
static bool read_number(const char *text, uint64_t *number)
{
    *number = 0;
    for (const char *digit = text; *digit != '\0'; digit++) {
        if (*digit < '0' || *digit > '9') {
            return false;
        }
        uint64_t value = (uint64_t)(*digit - '0');
        if (*number > (UINT64_MAX - value) / 10) {
            return false;
        }
        *number = 10 * *number + value;
    }
    return *text != '\0';
}

static bool read_timer_number(const char *name, const char *text, uint64_t *number)
{
    if (read_number(text, number)) {
        return true;
    }
    fprintf(stderr, "example: %s must be a decimal whole number of at most 64 bits, not '%s'\n", name, text);
    return false;
}

static bool read_arguments(int argc, char **argv, struct arguments *arguments)
{
    *arguments = (struct arguments){ .has_timer = argc == 4 };
    if (argc != 2 && argc != 4) {
        return false;
    }
    arguments->capture = argv[1];
    return argc == 2
        || (read_timer_number("S", argv[2], &arguments->srtt) && read_timer_number("V", argv[3], &arguments->rttvar));
}

static bool open_capture(struct capture *capture, const char *name)
{
    if (!capture_open(capture, name)) {
        return false;
    }
    if (!packet_link_is_known(capture->link_type)) {
        fprintf(stderr, "%s: unknown link type %" PRIu32 ", at octet 20; ", name, capture->link_type);
        fprintf(stderr, "known are 1 (Ethernet) and 12, 14, 101, 228, 229 (raw IP)\n");
        capture_close(capture);
        return false;
    }
    return true;
}

/* False where memory is out. */
static bool handle_segment(struct seen *seen, const struct packet *packet)
{
    uint32_t number = noppalerk_refusal(packet->segment.at, packet->segment.length);
    assert(number < REPORT_NUMBERS); /* the library's promise, on which the counts rely */
    seen->counts.by_number[number] += 1;
    if (number != NOPPALERK_READABLE) {
        report_refused(seen->counts.packets, &packet->endpoints, number);
        return true;
    }
    return flows_note(&seen->flows, &packet->endpoints, octets_u32(packet->segment, 4));
}

/* False where not all packets could be handled. */
static bool handle_packets(struct capture *capture, struct seen *seen)
{
    struct captured captured;
    enum capture_step step = capture_next(capture, &captured);
    while (step == CAPTURE_PACKET) {
        struct packet packet = packet_read(capture->link_type, captured.octets, captured.lost);
        seen->counts.packets += 1;
        seen->counts.by_class[packet.class] += 1;
        if (packet.class == PACKET_TCP && !handle_segment(seen, &packet)) {
            fprintf(stderr, "%s: out of memory for flows\n", capture->name);
            return false;
        }
        step = capture_next(capture, &captured);
    }
    return step == CAPTURE_END;
}

static bool flush_output(void)
{
    if (fflush(stdout) == 0 && !ferror(stdout)) {
        return true;
    }
    fprintf(stderr, "example: standard output could not be written\n");
    return false;
}

int main(int argc, char **argv)
{
    struct arguments arguments;
    struct capture capture;
    struct seen seen = { .counts = { .packets = 0 } };
    if (!read_arguments(argc, argv, &arguments)) {
        fprintf(stderr, "usage: example CAPTURE [S V], with S and V in 1/256 ms\n");
        return STATUS_USAGE;
    }
    if (!open_capture(&capture, arguments.capture)) {
        return STATUS_FAILED;
    }
    bool is_whole = handle_packets(&capture, &seen);
    capture_close(&capture);
    report_counts(&seen.counts);
    report_flows(&seen.flows);
    if (arguments.has_timer) {
        report_rto(arguments.srtt, arguments.rttvar);
    }
    flows_free(&seen.flows);
    return flush_output() && is_whole ? STATUS_DONE : STATUS_FAILED;
}
