/* Builds frames octet by octet and writes them as a capture; for the sample and the tests. Checksums are written as 0. */
#ifndef GATEWAY_FRAMES_H
#define GATEWAY_FRAMES_H

#include <stdbool.h>
#include <stddef.h>
#include <stdint.h>
#include <stdio.h>

/* What is built: a frame, a segment or options. Octets past its room are left out. */
struct bytes {
    uint8_t octets[256];
    size_t length;
};

void put_u8(struct bytes *bytes, uint8_t number);
void put_u16(struct bytes *bytes, uint16_t number);
void put_u32(struct bytes *bytes, uint32_t number);
void put_octets(struct bytes *bytes, const uint8_t *octets, size_t count);
void put_bytes(struct bytes *bytes, const struct bytes *more);

/* So many octets of one value. */
void put_fill(struct bytes *bytes, uint8_t octet, size_t count);

/* The octets that a text has as pairs of lower-case hexadecimal digits, with blanks between pairs left out. */
struct bytes hex(const char *text);

enum tcp_flags { FIN = 1, SYN = 2, RST = 4, PSH = 8, ACK = 16 };

struct tcp {
    uint16_t source_port;
    uint16_t destination_port;
    uint32_t sequence;
    uint32_t acknowledgment;
    uint8_t flags;
};

/* A segment's header with these options, of which there is a multiple of 4 octets; payload may be put behind it. */
struct bytes tcp_segment(const struct tcp *tcp, const struct bytes *options);

enum protocol { PROTOCOL_HOP_BY_HOP = 0, PROTOCOL_TCP = 6, PROTOCOL_UDP = 17, PROTOCOL_FRAGMENT = 44, PROTOCOL_DESTINATION = 60 };

/* An Ethernet header and an IPv4 header before this payload; of each address the last octet is given. */
struct bytes ipv4_frame(uint8_t source_last, uint8_t destination_last, uint8_t protocol, const struct bytes *payload);

/* The same with IPv6. */
struct bytes ipv6_frame(uint8_t source_last, uint8_t destination_last, uint8_t next_header, const struct bytes *payload);

/* A capture's file header: little-endian, microseconds, Ethernet. False where writing failed, here and below. */
bool write_file_header(FILE *file);

/* A frame as a record, at so many milliseconds after a fixed time; `lost` octets of it were not captured. */
bool write_record(FILE *file, uint32_t milliseconds, const struct bytes *frame, uint32_t lost);

#endif
