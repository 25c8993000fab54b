/* Frames and captures, written octet by octet, so that no machine's byte order or layout shows in them. */
#include "frames.h"

void put_u8(struct bytes *bytes, uint8_t number)
{
    if (bytes->length < sizeof bytes->octets) {
        bytes->octets[bytes->length] = number;
        bytes->length += 1;
    }
}

void put_u16(struct bytes *bytes, uint16_t number)
{
    put_u8(bytes, (uint8_t)(number >> 8));
    put_u8(bytes, (uint8_t)(number & 255));
}

void put_u32(struct bytes *bytes, uint32_t number)
{
    put_u16(bytes, (uint16_t)(number >> 16));
    put_u16(bytes, (uint16_t)(number & 65535));
}

void put_octets(struct bytes *bytes, const uint8_t *octets, size_t count)
{
    for (size_t i = 0; i < count; i++) {
        put_u8(bytes, octets[i]);
    }
}

void put_bytes(struct bytes *bytes, const struct bytes *more)
{
    put_octets(bytes, more->octets, more->length);
}

void put_fill(struct bytes *bytes, uint8_t octet, size_t count)
{
    for (size_t i = 0; i < count; i++) {
        put_u8(bytes, octet);
    }
}

static unsigned digit_value(char digit)
{
    return (unsigned)(digit <= '9' ? digit - '0' : digit - 'a' + 10);
}

struct bytes hex(const char *text)
{
    struct bytes bytes = { .length = 0 };
    while (*text != '\0') {
        if (*text == ' ') {
            text += 1;
        } else {
            put_u8(&bytes, (uint8_t)(digit_value(text[0]) << 4 | digit_value(text[1])));
            text += 2;
        }
    }
    return bytes;
}

struct bytes tcp_segment(const struct tcp *tcp, const struct bytes *options)
{
    struct bytes segment = { .length = 0 };
    put_u16(&segment, tcp->source_port);
    put_u16(&segment, tcp->destination_port);
    put_u32(&segment, tcp->sequence);
    put_u32(&segment, tcp->acknowledgment);
    put_u8(&segment, (uint8_t)((5 + options->length / 4) << 4));
    put_u8(&segment, tcp->flags);
    put_u16(&segment, 512); /* window */
    put_u16(&segment, 0);   /* checksum */
    put_u16(&segment, 0);   /* urgent */
    put_bytes(&segment, options);
    return segment;
}

/* Addresses that are set aside for local use. */
static void put_ethernet(struct bytes *frame, uint16_t type)
{
    static const uint8_t addresses[12] = { 2, 0, 0, 0, 0, 1, 2, 0, 0, 0, 0, 2 };
    put_octets(frame, addresses, sizeof addresses);
    put_u16(frame, type);
}

/* Addresses that are set aside for documents, as IPv6's below. */
static void put_ipv4_address(struct bytes *frame, uint8_t last)
{
    static const uint8_t network[3] = { 192, 0, 2 };
    put_octets(frame, network, sizeof network);
    put_u8(frame, last);
}

static void put_ipv6_address(struct bytes *frame, uint8_t last)
{
    static const uint8_t network[4] = { 0x20, 0x01, 0x0d, 0xb8 };
    put_octets(frame, network, sizeof network);
    put_fill(frame, 0, 11);
    put_u8(frame, last);
}

struct bytes ipv4_frame(uint8_t source_last, uint8_t destination_last, uint8_t protocol, const struct bytes *payload)
{
    struct bytes frame = { .length = 0 };
    put_ethernet(&frame, 0x0800);
    put_u8(&frame, 0x45);
    put_u8(&frame, 0);
    put_u16(&frame, (uint16_t)(20 + payload->length));
    put_u16(&frame, 0);      /* identification */
    put_u16(&frame, 0x4000); /* do not fragment */
    put_u8(&frame, 64);
    put_u8(&frame, protocol);
    put_u16(&frame, 0); /* checksum */
    put_ipv4_address(&frame, source_last);
    put_ipv4_address(&frame, destination_last);
    put_bytes(&frame, payload);
    return frame;
}

struct bytes ipv6_frame(uint8_t source_last, uint8_t destination_last, uint8_t next_header, const struct bytes *payload)
{
    struct bytes frame = { .length = 0 };
    put_ethernet(&frame, 0x86dd);
    put_u32(&frame, 0x60000000);
    put_u16(&frame, (uint16_t)payload->length);
    put_u8(&frame, next_header);
    put_u8(&frame, 64);
    put_ipv6_address(&frame, source_last);
    put_ipv6_address(&frame, destination_last);
    put_bytes(&frame, payload);
    return frame;
}

static void put_little_endian(struct bytes *bytes, uint32_t number)
{
    for (unsigned shift = 0; shift < 32; shift += 8) {
        put_u8(bytes, (uint8_t)(number >> shift & 255));
    }
}

static bool write_bytes(FILE *file, const struct bytes *bytes)
{
    return fwrite(bytes->octets, 1, bytes->length, file) == bytes->length;
}

bool write_file_header(FILE *file)
{
    struct bytes header = { .length = 0 };
    put_little_endian(&header, 0xa1b2c3d4);
    put_little_endian(&header, 0x00040002); /* version 2.4 */
    put_little_endian(&header, 0);
    put_little_endian(&header, 0);
    put_little_endian(&header, 65535);
    put_little_endian(&header, 1);
    return write_bytes(file, &header);
}

bool write_record(FILE *file, uint32_t milliseconds, const struct bytes *frame, uint32_t lost)
{
    struct bytes header = { .length = 0 };
    put_little_endian(&header, 1700000000 + milliseconds / 1000);
    put_little_endian(&header, milliseconds % 1000 * 1000);
    put_little_endian(&header, (uint32_t)frame->length);
    put_little_endian(&header, (uint32_t)frame->length + lost);
    return write_bytes(file, &header) && write_bytes(file, frame);
}
