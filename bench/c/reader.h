/*
 * A straightforward C reader of the rules E1 to E6 (gateway/noppalerk.h), to measure the library beside.
 */
#ifndef READER_H
#define READER_H

#include <stdbool.h>
#include <stddef.h>
#include <stdint.h>

enum { READER_MOST_BLOCKS = 4 };

struct reader_block {
    uint32_t left, right;
};

struct reader_segment {
    uint16_t source, destination;
    uint32_t seq, ack;
    uint8_t flags;
    uint16_t window, urgent;
    bool has_mss, has_scale, sack_permitted, has_stamps;
    uint16_t mss;
    uint8_t scale;
    uint8_t skipped; /* how many unknown options */
    uint8_t place; /* of the option at fault, 0 where there is none */
    uint8_t steps; /* NOPs, an end of list and options, up to the one at fault */
    uint32_t tsval, tsecr;
    size_t block_count;
    struct reader_block blocks[READER_MOST_BLOCKS];
    size_t payload_start, payload_length;
};

/* The number of the segment's refusal, 0 to 6: 0 where it can be read. */
uint32_t reader_refusal(const uint8_t *segment, size_t length);

/* The same number; at 0 `read` has every field but the place, else the place and the steps alone are to be used. */
uint32_t reader_read(const uint8_t *segment, size_t length, struct reader_segment *read);

#endif
