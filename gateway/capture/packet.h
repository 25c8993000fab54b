/* Finds the TCP segment in a captured packet, or says why there is none. */
#ifndef GATEWAY_PACKET_H
#define GATEWAY_PACKET_H

#include <stdbool.h>
#include <stddef.h>
#include <stdint.h>

#include "octets.h"

enum packet_class {
    PACKET_TCP,
    PACKET_NOT_IP,
    PACKET_NOT_TCP,
    PACKET_FRAGMENT,
    PACKET_CUT,            /* the capture does not have all of it */
    PACKET_DAMAGED,        /* the IP header contradicts itself or the packet's length */
    PACKET_WITHOUT_LENGTH, /* an IPv6 jumbogram, or an IPv4 packet whose total length is left to the network card */
    PACKET_CLASSES
};

/* Where a segment comes from and goes to. An IPv4 address has the first 4 octets, and the rest are 0. */
struct endpoints {
    unsigned ip_version;
    uint8_t source[16];
    uint8_t destination[16];
    bool has_ports;
    uint16_t source_port;
    uint16_t destination_port;
};

/* Endpoints and segment are set only where the class is PACKET_TCP. */
struct packet {
    enum packet_class class;
    struct endpoints endpoints;
    struct octets segment;
};

bool packet_link_is_known(uint32_t link_type);

/* The packet in a frame that had `lost` more octets than were captured. */
struct packet packet_read(uint32_t link_type, struct octets frame, size_t lost);

#endif
