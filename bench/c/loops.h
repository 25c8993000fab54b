/* The loops in C that are timed: one short run goes through a set so many times. */
#ifndef LOOPS_H
#define LOOPS_H

#include <stddef.h>
#include <stdint.h>

/* Segments of one length, side by side; for the distances pairs of serial numbers. */
struct loops_set {
    const uint8_t *first;
    size_t length, count;
};

enum loops_reader { LOOPS_LIBRARY_REFUSAL, LOOPS_C_REFUSAL, LOOPS_C_FIELDS, LOOPS_LWIP, LOOPS_LIBRARY_DISTANCE, LOOPS_C_DISTANCE };

/* The nanoseconds of `rounds` rounds, after one that is not timed and warms the caches. */
uint64_t loops_run(enum loops_reader reader, struct loops_set set, size_t rounds);

/* What one round adds up: refusal numbers, fields as the stream programs sum them, or distances. */
uint64_t loops_sum(enum loops_reader reader, struct loops_set set);

#endif
