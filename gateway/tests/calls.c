/* Calls the three functions at their limits and compares the answers with numbers written from the order's document 01. */
#include <inttypes.h>
#include <stdbool.h>
#include <stddef.h>
#include <stdint.h>
#include <stdio.h>
#include <stdlib.h>
#include <string.h>

#include "../sample/frames.h"
#include "../noppalerk.h"

/* How a segment of so many octets is judged, with this data offset and these options; the other octets are 0. */
struct segment_case {
    const char *name;
    size_t length;
    unsigned data_offset;
    const char *options;
    uint32_t number;
};

static const struct segment_case SEGMENTS[] = {
    { "no octets", 0, 0, "", NOPPALERK_E1 },
    { "1 octet", 1, 0, "", NOPPALERK_E1 },
    { "19 octets", 19, 5, "", NOPPALERK_E1 },
    { "19 octets, offset 0: E1 before E3", 19, 0, "", NOPPALERK_E1 },
    { "20 octets (M6, no options)", 20, 5, "", NOPPALERK_READABLE },
    { "65,535 octets", 65535, 5, "", NOPPALERK_READABLE },
    { "65,536 octets", 65536, 5, "", NOPPALERK_E2 },
    { "65,536 octets, offset 0: E2 before E3", 65536, 0, "", NOPPALERK_E2 },
    { "1 MiB", 1048576, 5, "", NOPPALERK_E2 },

    { "offset 0", 20, 0, "", NOPPALERK_E3 },
    { "offset 4", 60, 4, "", NOPPALERK_E3 },
    { "offset 6 and 20 octets", 20, 6, "", NOPPALERK_E3 },
    { "offset 6 and 23 octets", 23, 6, "020405", NOPPALERK_E3 },
    { "offset 15 and 59 octets", 59, 15, "", NOPPALERK_E3 },
    { "offset 15 and 60 octets", 60, 15, "", NOPPALERK_READABLE },
    { "offset past the end, option without length: E3 before E4", 21, 6, "08", NOPPALERK_E3 },

    { "kind 2 without length octet", 24, 6, "010101 02", NOPPALERK_E4 },
    { "kind 254 without length octet", 24, 6, "010101 fe", NOPPALERK_E4 },
    { "without length octet, payload behind it", 60, 6, "010101 02 04 05b4", NOPPALERK_E4 },
    { "known kind, length 0", 24, 6, "02000000", NOPPALERK_E4 },
    { "known kind, length 1", 24, 6, "04010000", NOPPALERK_E4 },
    { "unknown kind, length 0", 24, 6, "fe000000", NOPPALERK_E4 },
    { "unknown kind, length 1", 24, 6, "fe010000", NOPPALERK_E4 },
    { "M7, past the header", 24, 6, "08090102", NOPPALERK_E4 },
    { "M7 with payload behind it", 60, 6, "08090102 03040506", NOPPALERK_E4 },
    { "SACK of five blocks, past the header", 60, 15, "052a", NOPPALERK_E4 },
    { "length 255", 60, 15, "feff", NOPPALERK_E4 },
    { "unknown kind to the header's end", 60, 15, "fe28", NOPPALERK_READABLE },
    { "unknown kind past the header's end by one", 60, 15, "fe29", NOPPALERK_E4 },

    { "MSS, length 3", 24, 6, "02030501", NOPPALERK_E5 },
    { "MSS, length 4", 24, 6, "020405b4", NOPPALERK_READABLE },
    { "MSS, length 5", 28, 7, "020505b400", NOPPALERK_E5 },
    { "window scale, length 2", 24, 6, "03020000", NOPPALERK_E5 },
    { "window scale, length 3", 24, 6, "03030f01", NOPPALERK_READABLE },
    { "window scale, length 4", 24, 6, "03040000", NOPPALERK_E5 },
    { "SACK-permitted, length 2", 24, 6, "04020101", NOPPALERK_READABLE },
    { "SACK-permitted, length 3", 24, 6, "04030001", NOPPALERK_E5 },
    { "SACK, length 2", 24, 6, "05020101", NOPPALERK_E5 },
    { "SACK, length 9", 60, 15, "0509", NOPPALERK_E5 },
    { "SACK, length 10", 60, 15, "050a", NOPPALERK_READABLE },
    { "SACK, length 11", 60, 15, "050b", NOPPALERK_E5 },
    { "SACK, length 18", 60, 15, "0512", NOPPALERK_READABLE },
    { "SACK, length 26", 60, 15, "051a", NOPPALERK_READABLE },
    { "SACK, length 34", 60, 15, "0522", NOPPALERK_READABLE },
    { "SACK, length 35", 60, 15, "0523", NOPPALERK_E5 },
    { "timestamps, length 9", 32, 8, "0809", NOPPALERK_E5 },
    { "timestamps, length 10", 32, 8, "080a", NOPPALERK_READABLE },
    { "timestamps, length 11", 32, 8, "080b", NOPPALERK_E5 },

    { "MSS twice", 28, 7, "020405b4 020405b4", NOPPALERK_E6 },
    { "window scale twice", 28, 7, "030307 030307", NOPPALERK_E6 },
    { "SACK-permitted twice, NOP between", 28, 7, "0402 01 0402", NOPPALERK_E6 },
    { "SACK twice", 40, 10, "050a0000000000000000 050a", NOPPALERK_E6 },
    { "timestamps twice", 40, 10, "080a0000000000000000 080a", NOPPALERK_E6 },
    { "unknown kind twice", 28, 7, "fe02 fe02", NOPPALERK_READABLE },
    { "a second MSS of a wrong length: E5 before E6", 28, 7, "020405b4 02030501", NOPPALERK_E5 },
    { "a second MSS past the header: E4 before E6", 28, 7, "020405b4 02050000", NOPPALERK_E4 },
    { "E5 to the left of E4", 28, 7, "02030501 08090102", NOPPALERK_E5 },
    { "E4 to the left of E5", 28, 7, "fe000000 02030501", NOPPALERK_E4 },

    { "nothing behind kind 0 is looked at", 28, 7, "00 02000000 fe01", NOPPALERK_READABLE },
    { "NOPs alone", 28, 7, "0101010101010101", NOPPALERK_READABLE },
    { "a SYN's options", 40, 10, "020405b4 0402 080a0000000100000002 01 030307", NOPPALERK_READABLE },
    { "M8's options", 32, 8, "0101080a0000000100000002", NOPPALERK_READABLE },
    { "M9's options", 32, 8, "0101050a0000157c00002328", NOPPALERK_READABLE },
};

struct distance_case {
    uint32_t from;
    uint32_t to;
    int32_t distance;
};

static const struct distance_case DISTANCES[] = {
    { UINT32_MAX, 0, 1 },                          /* M1 */
    { 0, UINT32_C(2147483648), INT32_MIN },        /* M2 */
    { 0, 2147483647, 2147483647 },                 /* M3 */
    { UINT32_C(2147483648), 0, INT32_MIN },
    { UINT32_MAX, 2147483647, INT32_MIN },
    { 0, UINT32_C(2147483649), -2147483647 },
    { UINT32_C(2147483649), 0, 2147483647 },
    { 0, 0, 0 },
    { UINT32_MAX, UINT32_MAX, 0 },
    { 0, UINT32_MAX, -1 },
    { UINT32_C(2147483648), 2147483647, -1 },
    { 2147483647, UINT32_C(2147483648), 1 },
};

struct timer_case {
    uint64_t srtt;
    uint64_t rttvar;
    uint32_t milliseconds;
};

static const struct timer_case TIMERS[] = {
    { 256000, 128000, 3004 },           /* M11 */
    { 256032, 96064, 2505 },            /* M12 */
    { 0, 0, 1000 },                     /* raised */
    { 254857, 0, 1000 },                /* (254857 + 256 + 887)/256 is 1,000 */
    { 254858, 0, 1001 },
    { 254857, 64, 1000 },               /* 4V is 256 too */
    { 254857, 65, 1001 },
    { 15358601, 0, 59999 },             /* (15358601 + 256 + 887)/256 is 59,999 */
    { 15358602, 0, 60000 },
    { 15358857, 0, 60000 },
    { 15358858, 0, 60000 },             /* cut */
    { 153600000, 153600000, 60000 },
    { 153600000, 0, 60000 },
    { 0, 153600000, 60000 },
    { 153600001, 0, 0 },
    { 0, 153600001, 0 },
    { 153600001, 153600001, 0 },
    { UINT64_C(4294967296), 0, 0 },     /* 0 if it were cut to 32 bits */
    { 0, UINT64_C(4294967296), 0 },
    { UINT64_C(4294967296) + 256000, UINT64_C(4294967296) + 128000, 0 },
    { UINT64_MAX, 0, 0 },
    { 0, UINT64_MAX, 0 },
    { UINT64_MAX, UINT64_MAX, 0 },
};

#define COUNT(cases) (sizeof(cases) / sizeof(cases)[0])

static bool is_number(const char *name, uint32_t answer, uint32_t expected)
{
    if (answer != expected) {
        fprintf(stderr, "calls: refusal of %s: %" PRIu32 ", expected %" PRIu32 "\n", name, answer, expected);
    }
    return answer == expected;
}

static void fill(uint8_t *octets, const struct segment_case *one)
{
    struct bytes options = hex(one->options);
    memset(octets, 0, one->length);
    if (one->length > 12) {
        octets[12] = (uint8_t)(one->data_offset << 4);
    }
    for (size_t i = 0; i < options.length && 20 + i < one->length; i++) {
        octets[20 + i] = options.octets[i];
    }
}

/* In a block of exactly its length, so that a memory checker sees a read past it; the copy shows that nothing was written. */
static bool segment_holds(const struct segment_case *one)
{
    uint8_t *octets = malloc(one->length);
    uint8_t *copy = malloc(one->length);
    bool holds = one->length == 0 || (octets != NULL && copy != NULL);
    if (holds && one->length > 0) {
        fill(octets, one);
        fill(copy, one);
    }
    holds = holds && is_number(one->name, noppalerk_refusal(octets, one->length), one->number);
    if (holds && one->length > 0 && memcmp(octets, copy, one->length) != 0) {
        fprintf(stderr, "calls: refusal of %s changed the octets\n", one->name);
        holds = false;
    }
    free(octets);
    free(copy);
    return holds;
}

static bool distance_holds(const struct distance_case *one)
{
    int32_t answer = noppalerk_distance(one->from, one->to);
    if (answer != one->distance) {
        fprintf(stderr, "calls: distance from %" PRIu32 " to %" PRIu32 ": %" PRId32 ", expected %" PRId32 "\n", one->from,
                one->to, answer, one->distance);
    }
    return answer == one->distance;
}

static bool timer_holds(const struct timer_case *one)
{
    uint32_t answer = noppalerk_milliseconds(one->srtt, one->rttvar);
    if (answer != one->milliseconds) {
        fprintf(stderr, "calls: timer of S %" PRIu64 " and V %" PRIu64 ": %" PRIu32 ", expected %" PRIu32 "\n", one->srtt,
                one->rttvar, answer, one->milliseconds);
    }
    return answer == one->milliseconds;
}

int main(void)
{
    size_t wrong = is_number("NULL and 0", noppalerk_refusal(NULL, 0), NOPPALERK_E1) ? 0 : 1;
    for (size_t i = 0; i < COUNT(SEGMENTS); i++) {
        wrong += segment_holds(&SEGMENTS[i]) ? 0 : 1;
    }
    for (size_t i = 0; i < COUNT(DISTANCES); i++) {
        wrong += distance_holds(&DISTANCES[i]) ? 0 : 1;
    }
    for (size_t i = 0; i < COUNT(TIMERS); i++) {
        wrong += timer_holds(&TIMERS[i]) ? 0 : 1;
    }
    printf("calls: %zu answers, %zu wrong\n", 1 + COUNT(SEGMENTS) + COUNT(DISTANCES) + COUNT(TIMERS), wrong);
    return wrong == 0 ? 0 : 1;
}
