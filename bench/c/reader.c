/* The C reader: once for the refusal alone, once for all fields. Each has a walk of its own, since a shared one slows the refusal. */
#include "reader.h"

enum { MOST_OCTETS = 65535, LEAST_HEADER = 20 };
enum { E1 = 1, E2, E3, E4, E5, E6 };
enum { END = 0, NOP = 1, MSS = 2, SCALE = 3, SACK_PERMITTED = 4, SACK = 5, STAMPS = 8 };

static inline uint16_t number16(const uint8_t *at)
{
    return (uint16_t)(at[0] << 8 | at[1]);
}

static inline uint32_t number32(const uint8_t *at)
{
    return (uint32_t)at[0] << 24 | (uint32_t)at[1] << 16 | (uint32_t)at[2] << 8 | at[3];
}

/* Where the header ends is in `header`, if the answer is 0. */
static inline uint32_t header_refusal(const uint8_t *segment, size_t length, size_t *header)
{
    if (length < LEAST_HEADER) {
        return E1;
    }
    if (length > MOST_OCTETS) {
        return E2;
    }
    *header = (size_t)(segment[12] >> 4) * 4;
    return *header < LEAST_HEADER || *header > length ? E3 : 0;
}

/* `left` octets lie between the option's first one and the header's end. */
static inline bool runs_past(const uint8_t *option, size_t left)
{
    return left < 2 || option[1] < 2 || option[1] > left;
}

/* `seen` has a bit for each known kind that came before. */
static inline uint32_t option_refusal(const uint8_t *option, size_t left, uint32_t *seen)
{
    if (runs_past(option, left)) {
        return E4;
    }
    bool right;
    switch (option[0]) {
    case MSS:
        right = option[1] == 4;
        break;
    case SCALE:
        right = option[1] == 3;
        break;
    case SACK_PERMITTED:
        right = option[1] == 2;
        break;
    case SACK:
        right = option[1] == 10 || option[1] == 18 || option[1] == 26 || option[1] == 34;
        break;
    case STAMPS:
        right = option[1] == 10;
        break;
    default:
        return 0;
    }
    if (!right) {
        return E5;
    }
    if (*seen & 1u << option[0]) {
        return E6;
    }
    *seen |= 1u << option[0];
    return 0;
}

uint32_t reader_refusal(const uint8_t *segment, size_t length)
{
    size_t header;
    uint32_t number = header_refusal(segment, length, &header);
    if (number != 0) {
        return number;
    }
    uint32_t seen = 0;
    for (size_t at = LEAST_HEADER; at < header && segment[at] != END;) {
        if (segment[at] == NOP) {
            at++;
            continue;
        }
        number = option_refusal(segment + at, header - at, &seen);
        if (number != 0) {
            return number;
        }
        at += segment[at + 1];
    }
    return 0;
}

static inline void read_blocks(const uint8_t *option, struct reader_segment *read)
{
    read->block_count = (size_t)(option[1] - 2) / 8;
    for (size_t i = 0; i < read->block_count; i++) {
        read->blocks[i].left = number32(option + 2 + 8 * i);
        read->blocks[i].right = number32(option + 6 + 8 * i);
    }
}

/* The option has its kind's right length; an unknown kind is counted. */
static inline void read_option(const uint8_t *option, struct reader_segment *read)
{
    switch (option[0]) {
    case MSS:
        read->has_mss = true;
        read->mss = number16(option + 2);
        break;
    case SCALE:
        read->has_scale = true;
        read->scale = option[2];
        break;
    case SACK_PERMITTED:
        read->sack_permitted = true;
        break;
    case SACK:
        read_blocks(option, read);
        break;
    case STAMPS:
        read->has_stamps = true;
        read->tsval = number32(option + 2);
        read->tsecr = number32(option + 6);
        break;
    default:
        read->skipped++;
        break;
    }
}

static inline void read_header(const uint8_t *segment, struct reader_segment *read)
{
    read->source = number16(segment);
    read->destination = number16(segment + 2);
    read->seq = number32(segment + 4);
    read->ack = number32(segment + 8);
    read->flags = segment[13];
    read->window = number16(segment + 14);
    read->urgent = number16(segment + 18);
}

/* Absent numbers are 0; the blocks stay, as their count says that there are none. */
static inline void clear_options(struct reader_segment *read)
{
    read->has_mss = read->has_scale = read->sack_permitted = read->has_stamps = false;
    read->mss = 0;
    read->scale = 0;
    read->tsval = read->tsecr = 0;
    read->block_count = 0;
    read->skipped = read->steps = 0;
}

uint32_t reader_read(const uint8_t *segment, size_t length, struct reader_segment *read)
{
    size_t header;
    uint32_t number = header_refusal(segment, length, &header);
    if (number != 0) {
        read->place = read->steps = 0;
        return number;
    }
    clear_options(read);
    uint32_t seen = 0;
    for (size_t at = LEAST_HEADER; at < header;) {
        read->steps++;
        if (segment[at] == END) {
            break;
        }
        if (segment[at] == NOP) {
            at++;
            continue;
        }
        number = option_refusal(segment + at, header - at, &seen);
        if (number != 0) {
            read->place = (uint8_t)at;
            return number;
        }
        read_option(segment + at, read);
        at += segment[at + 1];
    }
    read_header(segment, read);
    read->payload_start = header;
    read->payload_length = length - header;
    return 0;
}
