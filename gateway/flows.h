/* The flows of a capture: for each direction of each connection its readable segments and their sequence numbers' jumps. */
#ifndef GATEWAY_FLOWS_H
#define GATEWAY_FLOWS_H

#include <stdbool.h>
#include <stddef.h>
#include <stdint.h>

#include "capture/packet.h"

struct flow {
    struct endpoints endpoints;
    uint64_t segments;
    uint32_t last_sequence;
    int32_t longest_jump; /* by magnitude, with its sign; of equal ones the first */
};

/* All zero is a table without flows. `list` has them in the order in which they first came. */
struct flows {
    struct flow *list;
    size_t count;
    size_t *slots; /* 0, or the place in `list` plus 1 */
    size_t slot_count;
};

/* Notes a readable segment; false where memory is out, and then the table is as it was. */
bool flows_note(struct flows *flows, const struct endpoints *endpoints, uint32_t sequence);

void flows_free(struct flows *flows);

#endif
