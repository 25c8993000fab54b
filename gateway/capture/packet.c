/* The link layers: finds the IP packet in a frame, and the ports of its TCP segment. */
#include "packet.h"

#include "ip.h"

enum link { ETHERNET = 1, RAW_BSD = 12, RAW_OPENBSD = 14, RAW = 101, RAW_IPV4 = 228, RAW_IPV6 = 229 };

enum ether_type { TYPE_IPV4 = 0x0800, TYPE_IPV6 = 0x86dd, TYPE_TAG = 0x8100, TYPE_SERVICE_TAG = 0x88a8 };

enum { ETHERNET_ADDRESSES = 12, ETHER_TYPE = 2, TAG = 4 };

bool packet_link_is_known(uint32_t link_type)
{
    return link_type == ETHERNET || link_type == RAW_BSD || link_type == RAW_OPENBSD || link_type == RAW
        || link_type == RAW_IPV4 || link_type == RAW_IPV6;
}

static struct packet of_class(enum packet_class class)
{
    return (struct packet){ .class = class };
}

static bool is_tag(uint16_t type)
{
    return type == TYPE_TAG || type == TYPE_SERVICE_TAG;
}

static struct packet read_ethernet(struct octets frame, size_t lost)
{
    struct octets rest = octets_after(frame, ETHERNET_ADDRESSES);
    while (is_tag(octets_u16(rest, 0))) {
        rest = octets_after(rest, TAG);
    }
    uint16_t type = octets_u16(rest, 0);
    if (rest.length < ETHER_TYPE) {
        return of_class(lost > 0 ? PACKET_CUT : PACKET_NOT_IP);
    }
    struct octets ip = octets_after(rest, ETHER_TYPE);
    switch (type) {
    case TYPE_IPV4:
        return ipv4_read(ip, lost);
    case TYPE_IPV6:
        return ipv6_read(ip, lost);
    default:
        return of_class(PACKET_NOT_IP);
    }
}

/* With no link header, the version in the first octet tells the two apart. */
static struct packet read_raw(struct octets ip, size_t lost)
{
    if (ip.length == 0) {
        return of_class(lost > 0 ? PACKET_CUT : PACKET_NOT_IP);
    }
    switch (octets_u8(ip, 0) >> 4) {
    case 4:
        return ipv4_read(ip, lost);
    case 6:
        return ipv6_read(ip, lost);
    default:
        return of_class(PACKET_NOT_IP);
    }
}

static struct packet read_link(uint32_t link_type, struct octets frame, size_t lost)
{
    switch (link_type) {
    case ETHERNET:
        return read_ethernet(frame, lost);
    case RAW_IPV4:
        return ipv4_read(frame, lost);
    case RAW_IPV6:
        return ipv6_read(frame, lost);
    default:
        return read_raw(frame, lost);
    }
}

struct packet packet_read(uint32_t link_type, struct octets frame, size_t lost)
{
    struct packet packet = read_link(link_type, frame, lost);
    packet.endpoints.has_ports = packet.segment.length >= 4;
    packet.endpoints.source_port = octets_u16(packet.segment, 0);
    packet.endpoints.destination_port = octets_u16(packet.segment, 2);
    return packet;
}
