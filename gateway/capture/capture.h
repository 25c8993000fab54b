/* Reads a capture file in the classic pcap format, packet by packet: both byte orders, micro- and nanoseconds. */
#ifndef GATEWAY_CAPTURE_H
#define GATEWAY_CAPTURE_H

#include <stdbool.h>
#include <stddef.h>
#include <stdint.h>
#include <stdio.h>

#include "octets.h"

struct capture {
    FILE *file;
    const char *name;
    bool is_little_endian;
    uint32_t link_type;
    uint64_t packets;  /* read whole so far */
    uint64_t position; /* in the file, of the record that comes next */
    uint8_t *buffer;
};

/* One packet; its octets stay until the next one is read. */
struct captured {
    struct octets octets;
    size_t lost; /* how many more octets the packet had on the link */
};

enum capture_step { CAPTURE_PACKET, CAPTURE_END, CAPTURE_FAILED };

/* False where the file is no capture that can be read; the reason is then on standard error and nothing is left open. */
bool capture_open(struct capture *capture, const char *name);

/* The next packet, the file's end, or a failure whose reason is then on standard error. */
enum capture_step capture_next(struct capture *capture, struct captured *packet);

void capture_close(struct capture *capture);

#endif
