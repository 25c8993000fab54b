/* The TCP segment in an IPv6 packet, behind the usual extension headers. */
#include <stdbool.h>

#include "ip.h"

enum { FIXED_HEADER = 40, ADDRESS = 16, SHORTEST_EXTENSION = 8 };

enum extension { HOP_BY_HOP = 0, ROUTING = 43, FRAGMENT = 44, AUTHENTICATION = 51, DESTINATION = 60, MOBILITY = 135 };

enum option { OPTION_PAD1 = 0, OPTION_JUMBO = 0xc2 };

enum { FRAGMENT_BITS = 0xfff9 }; /* the fragment offset, and more fragments */

/* What is left of a packet behind the headers that have been passed. */
struct rest {
    uint8_t next_header;
    struct octets octets;
    size_t lost; /* how many more the packet had by its payload length */
};

static bool is_extension(uint8_t header)
{
    return header == HOP_BY_HOP || header == ROUTING || header == FRAGMENT || header == AUTHENTICATION
        || header == DESTINATION || header == MOBILITY;
}

static size_t extension_length(const struct rest *rest)
{
    size_t units = octets_u8(rest->octets, 1);
    switch (rest->next_header) {
    case FRAGMENT:
        return 8;
    case AUTHENTICATION:
        return 4 * (units + 2);
    default:
        return 8 * (units + 1);
    }
}

/* Passes extension headers; a fragment header of a packet that is whole is passed as any other. */
static enum packet_class class_behind_extensions(struct rest *rest)
{
    while (is_extension(rest->next_header)) {
        size_t length = rest->octets.length < SHORTEST_EXTENSION ? SHORTEST_EXTENSION : extension_length(rest);
        if (rest->octets.length < length) {
            return ip_lacking(length - rest->octets.length, rest->lost);
        }
        if (rest->next_header == FRAGMENT && (octets_u16(rest->octets, 2) & FRAGMENT_BITS) != 0) {
            return PACKET_FRAGMENT;
        }
        rest->next_header = octets_u8(rest->octets, 0);
        rest->octets = octets_after(rest->octets, length);
    }
    if (rest->next_header != IP_PROTOCOL_TCP) {
        return PACKET_NOT_TCP;
    }
    return rest->lost > 0 ? PACKET_CUT : PACKET_TCP;
}

static bool has_jumbo_option(struct octets options)
{
    size_t place = 0;
    while (place < options.length) {
        uint8_t option = octets_u8(options, place);
        if (option == OPTION_JUMBO) {
            return true;
        }
        place += option == OPTION_PAD1 ? 1 : 2 + (size_t)octets_u8(options, place + 1);
    }
    return false;
}

/* Payload length 0 before hop-by-hop options is a jumbogram's, and damage otherwise. */
static enum packet_class class_without_length(const struct rest *rest)
{
    size_t length = rest->octets.length < SHORTEST_EXTENSION ? SHORTEST_EXTENSION : extension_length(rest);
    if (rest->octets.length < length) {
        return ip_lacking(length - rest->octets.length, rest->lost);
    }
    struct octets options = octets_after(octets_first(rest->octets, length), 2);
    return has_jumbo_option(options) ? PACKET_WITHOUT_LENGTH : PACKET_DAMAGED;
}

static enum packet_class class_of(struct octets ip, size_t lost, struct rest *rest)
{
    size_t payload = octets_u16(ip, 4);
    if (ip.length < FIXED_HEADER) {
        return ip_lacking(FIXED_HEADER - ip.length, lost);
    }
    if (octets_u8(ip, 0) >> 4 != 6) {
        return PACKET_DAMAGED;
    }
    *rest = (struct rest){ octets_u8(ip, 6), octets_after(ip, FIXED_HEADER), lost };
    if (payload == 0 && rest->next_header == HOP_BY_HOP) {
        return class_without_length(rest);
    }
    if (payload > rest->octets.length + lost) {
        return PACKET_DAMAGED;
    }
    rest->octets = octets_first(rest->octets, payload);
    rest->lost = payload - rest->octets.length;
    return class_behind_extensions(rest);
}

struct packet ipv6_read(struct octets ip, size_t lost)
{
    struct rest rest = { 0, { NULL, 0 }, 0 };
    struct packet packet = { .class = class_of(ip, lost, &rest) };
    if (packet.class == PACKET_TCP) {
        packet.endpoints.ip_version = 6;
        octets_copy(packet.endpoints.source, ip, 8, ADDRESS);
        octets_copy(packet.endpoints.destination, ip, 24, ADDRESS);
        packet.segment = rest.octets;
    }
    return packet;
}
