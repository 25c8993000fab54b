/* Octets in memory with their count. Every read is checked against the count, and an octet past the end is read as 0. */
#ifndef GATEWAY_OCTETS_H
#define GATEWAY_OCTETS_H

#include <stddef.h>
#include <stdint.h>

struct octets {
    const uint8_t *at;
    size_t length;
};

/* The first `count`, or all where there are fewer. */
struct octets octets_first(struct octets all, size_t count);

/* What follows the first `count`: nothing where there are fewer. */
struct octets octets_after(struct octets all, size_t count);

uint8_t octets_u8(struct octets all, size_t place);

/* Big-endian numbers. */
uint16_t octets_u16(struct octets all, size_t place);
uint32_t octets_u32(struct octets all, size_t place);

/* A number with its lowest octet first, as captures often have it. */
uint32_t octets_little_endian_u32(struct octets all, size_t place);

void octets_copy(uint8_t *to, struct octets all, size_t place, size_t count);

#endif
