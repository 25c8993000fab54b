/* The loops in C. A reader or a distance is called and not inlined, as it stands in another file. */
#define _POSIX_C_SOURCE 199309L
#include "loops.h"

#include <string.h>
#include <time.h>

#include "distance.h"
#include "lwip.h"
#include "noppalerk.h"
#include "reader.h"

typedef uint64_t round_function(const struct loops_set *set);
typedef int32_t distance_function(uint32_t from, uint32_t to);

static inline const uint8_t *segment(const struct loops_set *set, size_t i)
{
    return set->first + i * set->length;
}

static uint64_t library_refusal(const struct loops_set *set)
{
    uint64_t sum = 0;
    for (size_t i = 0; i < set->count; i++) {
        sum += noppalerk_refusal(segment(set, i), set->length);
    }
    return sum;
}

static uint64_t c_refusal(const struct loops_set *set)
{
    uint64_t sum = 0;
    for (size_t i = 0; i < set->count; i++) {
        sum += reader_refusal(segment(set, i), set->length);
    }
    return sum;
}

static inline uint64_t flag_count(uint8_t flags)
{
    return (uint64_t)__builtin_popcount(flags);
}

static inline uint64_t field_sum(const struct reader_segment *read)
{
    uint64_t sum = (uint64_t)read->source + read->destination + read->seq + read->ack + flag_count(read->flags) + read->window
        + read->urgent + read->mss + read->scale + read->sack_permitted + read->tsval + read->tsecr;
    for (size_t i = 0; i < read->block_count; i++) {
        sum += (uint64_t)read->blocks[i].left + read->blocks[i].right;
    }
    return sum + read->skipped + read->steps + read->payload_start + read->payload_length;
}

static uint64_t c_fields(const struct loops_set *set)
{
    uint64_t sum = 0;
    for (size_t i = 0; i < set->count; i++) {
        struct reader_segment read;
        uint32_t number = reader_read(segment(set, i), set->length, &read);
        sum += number != 0 ? number + read.place + read.steps : field_sum(&read);
    }
    return sum;
}

static uint64_t lwip(const struct loops_set *set)
{
    uint64_t sum = 0;
    for (size_t i = 0; i < set->count; i++) {
        sum += lwip_read(segment(set, i), set->length);
    }
    return sum;
}

struct pair {
    uint32_t from, to;
};

static inline struct pair pair(const struct loops_set *set, size_t i)
{
    struct pair numbers;
    memcpy(&numbers, set->first + i * set->length, sizeof numbers);
    return numbers;
}

static inline uint64_t distance_sum(const struct loops_set *set, distance_function *distance_of)
{
    uint64_t sum = 0;
    for (size_t i = 0; i < set->count; i++) {
        struct pair numbers = pair(set, i);
        sum += (uint64_t)distance_of(numbers.from, numbers.to);
    }
    return sum;
}

static uint64_t library_distance(const struct loops_set *set)
{
    return distance_sum(set, noppalerk_distance);
}

static uint64_t c_distance(const struct loops_set *set)
{
    return distance_sum(set, distance);
}

static round_function *const rounds_of[] = {
    [LOOPS_LIBRARY_REFUSAL] = library_refusal,
    [LOOPS_C_REFUSAL] = c_refusal,
    [LOOPS_C_FIELDS] = c_fields,
    [LOOPS_LWIP] = lwip,
    [LOOPS_LIBRARY_DISTANCE] = library_distance,
    [LOOPS_C_DISTANCE] = c_distance,
};

static uint64_t now(void)
{
    struct timespec time;
    clock_gettime(CLOCK_MONOTONIC, &time);
    return (uint64_t)time.tv_sec * 1000000000u + (uint64_t)time.tv_nsec;
}

uint64_t loops_run(enum loops_reader reader, struct loops_set set, size_t rounds)
{
    /* The sum is kept, so that no call can be left out. */
    static volatile uint64_t kept;
    kept += rounds_of[reader](&set);
    uint64_t start = now();
    for (size_t i = 0; i < rounds; i++) {
        kept += rounds_of[reader](&set);
    }
    return now() - start;
}

uint64_t loops_sum(enum loops_reader reader, struct loops_set set)
{
    return rounds_of[reader](&set);
}
