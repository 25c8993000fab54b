/*
 * Writes the sample capture to standard output, the same octets on every run: a transfer over IPv4 and one over IPv6, packets
 * without a TCP segment, and refused segments.
 *
 * E2 is not among them: an IPv4 packet holds at most 65,515 octets of segment and an IPv6 packet without the jumbo option at
 * most 65,535, so no packet whose segment the example passes on can show it.
 */
#include <stdbool.h>
#include <stdint.h>
#include <stdio.h>

#include "frames.h"

enum { STATION = 10, OTHER_STATION = 11, CORRELATOR = 20 };
enum { STATION_PORT = 40000, CORRELATOR_PORT = 7000 };
enum { PAYLOAD = 32 };

/* 81 octets after it, the sequence number wraps. */
static const uint32_t STATION_ISS = 0xffffffaf;
static const uint32_t CORRELATOR_ISS = 5000;

/* MSS 1460, SACK-permitted, timestamps, window scale 7. */
static const char *const SYN_OPTIONS = "020405b4 0402 080a000003e800000000 01 030307";
static const char *const SYN_ACK_OPTIONS = "020405b4 0402 080a00001388000003e8 01 030307";
static const char *const TIMESTAMPS = "0101 080a000003e900001388";

/* The station asks for the correlator's link address. */
static const char *const ARP_REQUEST = "0806 0001 0800 06 04 0001 020000000001 c000020a 000000000000 c0000214";

struct sample {
    FILE *file;
    uint32_t packets;
    bool failed;
};

static void add_cut(struct sample *sample, struct bytes frame, uint32_t lost)
{
    if (!write_record(sample->file, sample->packets, &frame, lost)) {
        sample->failed = true;
    }
    sample->packets += 1;
}

static void add(struct sample *sample, struct bytes frame)
{
    add_cut(sample, frame, 0);
}

static struct bytes from_station(uint8_t flags, uint32_t sequence, const char *options)
{
    struct tcp tcp = { STATION_PORT, CORRELATOR_PORT, sequence, (flags & ACK) != 0 ? CORRELATOR_ISS + 1 : 0, flags };
    struct bytes octets = hex(options);
    return tcp_segment(&tcp, &octets);
}

static struct bytes from_correlator(uint8_t flags, uint32_t sequence, uint32_t acknowledgment, const char *options)
{
    struct tcp tcp = { CORRELATOR_PORT, STATION_PORT, sequence, acknowledgment, flags };
    struct bytes octets = hex(options);
    return tcp_segment(&tcp, &octets);
}

/* A segment with payload, `offset` octets into the station's data. */
static struct bytes data_at(uint32_t offset)
{
    struct bytes segment = from_station(ACK | PSH, STATION_ISS + 1 + offset, TIMESTAMPS);
    put_fill(&segment, 0xda, PAYLOAD);
    return segment;
}

static struct bytes to_correlator(struct bytes segment)
{
    return ipv4_frame(STATION, CORRELATOR, PROTOCOL_TCP, &segment);
}

static struct bytes to_station(struct bytes segment)
{
    return ipv4_frame(CORRELATOR, STATION, PROTOCOL_TCP, &segment);
}

static struct bytes padded(struct bytes frame)
{
    while (frame.length < 60) {
        put_u8(&frame, 0);
    }
    return frame;
}

/* Octets put into a frame at a place. */
static struct bytes with_octets(struct bytes frame, size_t place, const char *octets)
{
    struct bytes more = hex(octets);
    struct bytes longer = { .length = 0 };
    put_octets(&longer, frame.octets, place);
    put_bytes(&longer, &more);
    put_octets(&longer, frame.octets + place, frame.length - place);
    return longer;
}

/* A number of 16 bits in a frame set anew. */
static struct bytes with_u16(struct bytes frame, size_t place, uint16_t number)
{
    frame.octets[place] = (uint8_t)(number >> 8);
    frame.octets[place + 1] = (uint8_t)(number & 255);
    return frame;
}

static void add_handshake(struct sample *sample)
{
    add(sample, to_correlator(from_station(SYN, STATION_ISS, SYN_OPTIONS)));
    add(sample, to_station(from_correlator(SYN | ACK, CORRELATOR_ISS, STATION_ISS + 1, SYN_ACK_OPTIONS)));
    add(sample, to_correlator(from_station(ACK, STATION_ISS + 1, TIMESTAMPS)));
}

/* The fifth part is missing until the receiver has asked for it; the third one is where the sequence number wraps. */
static void add_data(struct sample *sample)
{
    uint32_t have = STATION_ISS + 1 + 4 * PAYLOAD;
    add(sample, to_correlator(data_at(0)));
    add(sample, to_correlator(data_at(PAYLOAD)));
    add(sample, to_correlator(data_at(2 * PAYLOAD)));
    add(sample, to_correlator(data_at(3 * PAYLOAD)));
    add(sample, to_correlator(data_at(5 * PAYLOAD)));
    add(sample, to_station(from_correlator(ACK, CORRELATOR_ISS + 1, have, "0101 080a00001389000003e9 0101 050a0000005000000070")));
    add(sample, to_correlator(data_at(4 * PAYLOAD)));
    add(sample, padded(to_station(from_correlator(ACK, CORRELATOR_ISS + 1, have + 2 * PAYLOAD, ""))));
}

/* Frames with one and two tags, and an IPv4 header with options. */
static void add_other_headers(struct sample *sample)
{
    struct bytes with_ip_options = with_octets(to_correlator(data_at(8 * PAYLOAD)), 34, "01010100");
    with_ip_options.octets[14] = 0x46;
    add(sample, with_octets(to_correlator(data_at(6 * PAYLOAD)), 12, "81000007"));
    add(sample, with_octets(to_correlator(data_at(7 * PAYLOAD)), 12, "88a80064 81000007"));
    add(sample, with_u16(with_ip_options, 16, (uint16_t)(with_ip_options.length - 14)));
}

/* Two sequence numbers 2^31 apart, in a flow of their own. */
static void add_farthest_jump(struct sample *sample)
{
    struct bytes near = from_station(ACK, 0, "");
    struct bytes far = from_station(ACK, UINT32_C(1) << 31, "");
    add(sample, padded(ipv4_frame(OTHER_STATION, CORRELATOR, PROTOCOL_TCP, &near)));
    add(sample, padded(ipv4_frame(OTHER_STATION, CORRELATOR, PROTOCOL_TCP, &far)));
}

/* A segment behind extension headers, given with the kind of the first. */
static struct bytes behind(const char *extensions, uint8_t first, struct bytes segment)
{
    struct bytes payload = hex(extensions);
    put_bytes(&payload, &segment);
    return ipv6_frame(STATION, CORRELATOR, first, &payload);
}

static void add_ipv6(struct sample *sample)
{
    struct bytes answer = from_correlator(SYN | ACK, CORRELATOR_ISS, STATION_ISS + 1, SYN_ACK_OPTIONS);
    add(sample, behind("", PROTOCOL_TCP, from_station(SYN, STATION_ISS, SYN_OPTIONS)));
    add(sample, ipv6_frame(CORRELATOR, STATION, PROTOCOL_TCP, &answer));
    add(sample, behind("", PROTOCOL_TCP, data_at(0)));
    add(sample, behind("3c00010400000000 0600010400000000", PROTOCOL_HOP_BY_HOP, data_at(PAYLOAD)));
    /* A fragment header of a packet that is whole. */
    add(sample, behind("0600000000000001", PROTOCOL_FRAGMENT, data_at(2 * PAYLOAD)));
    add(sample, behind("", PROTOCOL_TCP, from_station(ACK, STATION_ISS + 1, "080900000000000000 010101")));
}

/* A frame of which only the beginning was captured. */
static void add_beginning(struct sample *sample, struct bytes frame, size_t length)
{
    uint32_t lost = (uint32_t)(frame.length - length);
    frame.length = length;
    add_cut(sample, frame, lost);
}

static void add_without_segment(struct sample *sample)
{
    struct bytes datagram = hex("9c40 1b58 000c 0000 00000000");
    struct bytes frame = to_correlator(data_at(0));
    struct bytes short_header = frame;
    struct bytes link_addresses = frame;
    short_header.octets[14] = 0x44;
    link_addresses.length = 12;
    add(sample, padded(with_octets(link_addresses, 12, ARP_REQUEST)));
    add(sample, padded(ipv4_frame(STATION, CORRELATOR, PROTOCOL_UDP, &datagram)));
    add(sample, with_u16(frame, 20, 0x2000)); /* the first fragment */
    add(sample, with_u16(frame, 20, 0x0004)); /* the last one */
    add(sample, behind("0600000100000001", PROTOCOL_FRAGMENT, data_at(0)));
    add_beginning(sample, frame, 60);
    add_beginning(sample, behind("", PROTOCOL_TCP, data_at(0)), 80);
    add(sample, short_header);
    add(sample, with_u16(frame, 16, 1500)); /* a total length past the frame */
    add(sample, with_u16(frame, 16, 0));
    /* A jumbogram of 65,544 octets behind its header, as the jumbo option says. */
    add_cut(sample, with_u16(behind("0600c20400010008", PROTOCOL_HOP_BY_HOP, data_at(0)), 18, 0), 65472);
}

/* A segment behind all data. */
static struct bytes last_segment(const char *options)
{
    return from_station(ACK, STATION_ISS + 1 + 9 * PAYLOAD, options);
}

/* A segment of so few octets, E1. */
static struct bytes shortened(size_t length)
{
    struct bytes segment = last_segment("");
    segment.length = length;
    return padded(to_correlator(segment));
}

/* E3: data offset 4 has no room for the header, and data offset 6 points past the end, whatever follows in the frame. */
static struct bytes with_data_offset(unsigned data_offset)
{
    struct bytes segment = last_segment("");
    segment.octets[12] = (uint8_t)(data_offset << 4);
    return segment;
}

static struct bytes with_frame_check(struct bytes frame)
{
    put_u32(&frame, 0x01010101);
    return frame;
}

static struct bytes with_options(const char *options)
{
    return padded(to_correlator(last_segment(options)));
}

static void add_refused(struct sample *sample)
{
    add(sample, shortened(19));
    add(sample, shortened(3));
    add(sample, shortened(0));
    add(sample, padded(to_correlator(with_data_offset(4))));
    add(sample, padded(to_correlator(with_data_offset(6))));
    add(sample, with_frame_check(behind("", PROTOCOL_TCP, with_data_offset(6))));
    add(sample, with_options("010101 08"));          /* E4, no length octet */
    add(sample, with_options("0101 fe01"));          /* E4, length 1 */
    add(sample, with_options("08090000"));           /* E4, past the header */
    add(sample, with_options("0203 05 01"));         /* E5, MSS of length 3 */
    add(sample, with_options("020405b4 0402 0402")); /* E6, SACK-permitted twice */
    add(sample, with_options("0000 0203"));          /* readable, since nothing behind kind 0 is looked at */
    add(sample, with_options("fe02 fe02 01010101")); /* readable, since unknown kinds may come twice */
}

int main(void)
{
    struct sample sample = { stdout, 0, !write_file_header(stdout) };
    add_handshake(&sample);
    add_data(&sample);
    add_other_headers(&sample);
    add_farthest_jump(&sample);
    add_ipv6(&sample);
    add_without_segment(&sample);
    add_refused(&sample);
    if (fflush(stdout) != 0 || sample.failed) {
        fprintf(stderr, "sample: standard output could not be written\n");
        return 1;
    }
    return 0;
}
