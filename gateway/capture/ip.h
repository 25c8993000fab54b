/* Finds the TCP segment in an IP packet. Octets after the IP packet, such as link padding, are left out of it. */
#ifndef GATEWAY_IP_H
#define GATEWAY_IP_H

#include <stddef.h>

#include "octets.h"
#include "packet.h"

enum { IP_PROTOCOL_TCP = 6 };

struct packet ipv4_read(struct octets ip, size_t lost);
struct packet ipv6_read(struct octets ip, size_t lost);

/* What a packet counts as that has so many octets fewer than its headers need, where the capture lost some. */
static inline enum packet_class ip_lacking(size_t lacking, size_t lost)
{
    return lacking <= lost ? PACKET_CUT : PACKET_DAMAGED;
}

#endif
