/*
 * Noppalerk for C: a segment's refusal number, the distance of two serial numbers, and the retransmission timer from S and V.
 *
 * Each call takes any octets and any numbers, and needs no check by its caller. None keeps state, allocates or writes to memory
 * of the caller's, so any thread may call them at any time. Link with libgateway.a, which `bash gateway/run` writes.
 */
#ifndef NOPPALERK_H
#define NOPPALERK_H

#include <stddef.h>
#include <stdint.h>

#ifdef __cplusplus
extern "C" {
#endif

/* The refusal numbers of a segment, judged in this order: E1, E2, E3; then options left to right, at each one E4, E5, E6. */
enum noppalerk_number {
    NOPPALERK_READABLE = 0, /* none of the below */
    NOPPALERK_E1 = 1,       /* segment under 20 octets */
    NOPPALERK_E2 = 2,       /* segment over 65,535 octets */
    NOPPALERK_E3 = 3,       /* offset below 5, or 4 x offset past the end */
    NOPPALERK_E4 = 4,       /* option without length octet, length under 2, or past the header */
    NOPPALERK_E5 = 5,       /* known kind, wrong length */
    NOPPALERK_E6 = 6        /* known kind a second time */
};

/* The greatest S and the greatest V that have a timer: 600,000 ms, in 1/256 ms. */
enum { NOPPALERK_TIMER_LIMIT = 153600000 };

/*
 * The number of a segment's refusal, 0 to 6: 0 where the segment can be read.
 *
 * `segment` points to the `length` octets of a TCP segment: header, options and payload, with no IP header before them and no
 * link padding after them. NULL with length 0 is allowed, and is E1 as any segment without octets. The octets are only read,
 * and must not change during the call. Checksums are not looked at.
 *
 * Known kinds are 2 (MSS, length 4), 3 (window scale, 3), 4 (SACK-permitted, 2), 5 (SACK, 10, 18, 26 or 34) and
 * 8 (timestamps, 10). Other kinds may have any length from 2 on and come more than once.
 */
uint32_t noppalerk_refusal(const uint8_t *segment, size_t length);

/*
 * The distance from one serial number to another, sequence numbers or timestamps alike: the whole number from -2^31 to
 * 2^31 - 1 that equals `to - from` modulo 2^32.
 *
 * Above 0, `from` is before `to`; at least 0, it is at or before it. At 2^31 apart the distance is -2^31 in both directions,
 * and neither is before the other. -2^31 has no counterpart in int32_t: do not pass it to abs() or negate it.
 */
int32_t noppalerk_distance(uint32_t from, uint32_t to);

/*
 * The retransmission timer in whole milliseconds, 1,000 to 60,000, of a smoothed round-trip time S (`srtt`) and its
 * variation V (`rttvar`), both in 1/256 ms: the least whole number not below (S + max(256, 4V) + 887)/256, then raised to
 * 1,000 or cut to 60,000.
 *
 * The margin of 887 covers S and V that were rounded down at every sample, with weights of 1/(8N) and 1/(4N) for any N from
 * 1 to 16, where N is RFC 7323's ExpectedSamples (Appendix G).
 *
 * S and V are 64 bits wide, so that no number is cut before it is judged. It is 0 where S or V is above 153,600,000.
 */
uint32_t noppalerk_milliseconds(uint64_t srtt, uint64_t rttvar);

#ifdef __cplusplus
}
#endif

#endif
