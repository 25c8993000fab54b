/* lwIP's reading of a segment. */
#ifndef LWIP_READ_H
#define LWIP_READ_H

#include <stddef.h>
#include <stdint.h>

/* The sum of the fields that lwIP keeps of a segment: its header, and what tcp_parseopt takes of its options. */
uint64_t lwip_read(const uint8_t *segment, size_t length);

#endif
