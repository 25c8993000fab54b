/* The flow table: a list, and a hash table of places in it with open addressing that is at most half full. */
#include "flows.h"

#include <stdlib.h>
#include <string.h>

#include "noppalerk.h"

enum { FIRST_SLOTS = 64 };

/* FNV-1a, 64 bits. */
static uint64_t hash_octets(uint64_t hash, const uint8_t *octets, size_t count)
{
    for (size_t i = 0; i < count; i++) {
        hash = (hash ^ octets[i]) * UINT64_C(1099511628211);
    }
    return hash;
}

static uint64_t hash_of(const struct endpoints *endpoints)
{
    uint8_t ports[4] = {
        (uint8_t)(endpoints->source_port >> 8),
        (uint8_t)(endpoints->source_port & 255),
        (uint8_t)(endpoints->destination_port >> 8),
        (uint8_t)(endpoints->destination_port & 255),
    };
    uint64_t hash = UINT64_C(14695981039346656037) + endpoints->ip_version;
    hash = hash_octets(hash, endpoints->source, sizeof endpoints->source);
    hash = hash_octets(hash, endpoints->destination, sizeof endpoints->destination);
    hash = hash_octets(hash, ports, sizeof ports);
    return hash ^ hash >> 32;
}

static bool are_same(const struct endpoints *one, const struct endpoints *other)
{
    return one->ip_version == other->ip_version && one->source_port == other->source_port
        && one->destination_port == other->destination_port
        && memcmp(one->source, other->source, sizeof one->source) == 0
        && memcmp(one->destination, other->destination, sizeof one->destination) == 0;
}

/* The slot of a flow, or the free one where it belongs. There are free slots, so the search ends. */
static size_t slot_of(const struct flows *flows, const struct endpoints *endpoints)
{
    size_t slot = (size_t)hash_of(endpoints) & (flows->slot_count - 1);
    while (flows->slots[slot] != 0 && !are_same(&flows->list[flows->slots[slot] - 1].endpoints, endpoints)) {
        slot = (slot + 1) & (flows->slot_count - 1);
    }
    return slot;
}

/* The list has room for half as many flows as there are slots. */
static bool grow(struct flows *flows)
{
    size_t slot_count = flows->slot_count == 0 ? FIRST_SLOTS : 2 * flows->slot_count;
    if (slot_count > SIZE_MAX / 2 / sizeof *flows->list) {
        return false;
    }
    size_t *slots = calloc(slot_count, sizeof *slots);
    struct flow *list = slots == NULL ? NULL : realloc(flows->list, slot_count / 2 * sizeof *list);
    if (list == NULL) {
        free(slots);
        return false;
    }
    free(flows->slots);
    flows->list = list;
    flows->slots = slots;
    flows->slot_count = slot_count;
    for (size_t i = 0; i < flows->count; i++) {
        flows->slots[slot_of(flows, &list[i].endpoints)] = i + 1;
    }
    return true;
}

/* Unsigned, since -2^31 has no counterpart in int32_t. */
static uint32_t magnitude(int32_t jump)
{
    return jump < 0 ? 0 - (uint32_t)jump : (uint32_t)jump;
}

static void note_jump(struct flow *flow, uint32_t sequence)
{
    int32_t jump = noppalerk_distance(flow->last_sequence, sequence);
    if (magnitude(jump) > magnitude(flow->longest_jump)) {
        flow->longest_jump = jump;
    }
    flow->last_sequence = sequence;
    flow->segments += 1;
}

bool flows_note(struct flows *flows, const struct endpoints *endpoints, uint32_t sequence)
{
    if (flows->count == flows->slot_count / 2 && !grow(flows)) {
        return false;
    }
    size_t slot = slot_of(flows, endpoints);
    if (flows->slots[slot] != 0) {
        note_jump(&flows->list[flows->slots[slot] - 1], sequence);
        return true;
    }
    flows->list[flows->count] = (struct flow){ *endpoints, 1, sequence, 0 };
    flows->count += 1;
    flows->slots[slot] = flows->count;
    return true;
}

void flows_free(struct flows *flows)
{
    free(flows->list);
    free(flows->slots);
}
