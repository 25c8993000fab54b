/* The TCP segment in an IPv4 packet, with or without IP options. The header checksum is not looked at. */
#include "ip.h"

enum {
    FIXED_HEADER = 20,
    ADDRESS = 4,
    FRAGMENT_BITS = 0x3fff /* more fragments, and the fragment offset */
};

static size_t header_length(struct octets ip)
{
    return 4 * (size_t)(octets_u8(ip, 0) & 15);
}

static enum packet_class class_of(struct octets ip, size_t lost)
{
    size_t total = octets_u16(ip, 2);
    if (ip.length < FIXED_HEADER) {
        return ip_lacking(FIXED_HEADER - ip.length, lost);
    }
    if (octets_u8(ip, 0) >> 4 != 4 || header_length(ip) < FIXED_HEADER) {
        return PACKET_DAMAGED;
    }
    if (total == 0) {
        return PACKET_WITHOUT_LENGTH;
    }
    if (total < header_length(ip) || total > ip.length + lost) {
        return PACKET_DAMAGED;
    }
    if ((octets_u16(ip, 6) & FRAGMENT_BITS) != 0) {
        return PACKET_FRAGMENT;
    }
    if (octets_u8(ip, 9) != IP_PROTOCOL_TCP) {
        return PACKET_NOT_TCP;
    }
    return total > ip.length ? PACKET_CUT : PACKET_TCP;
}

struct packet ipv4_read(struct octets ip, size_t lost)
{
    struct packet packet = { .class = class_of(ip, lost) };
    if (packet.class == PACKET_TCP) {
        packet.endpoints.ip_version = 4;
        octets_copy(packet.endpoints.source, ip, 12, ADDRESS);
        octets_copy(packet.endpoints.destination, ip, 16, ADDRESS);
        packet.segment = octets_after(octets_first(ip, octets_u16(ip, 2)), header_length(ip));
    }
    return packet;
}
