/*
 * lwIP's own option reader, tcp_parseopt, is static: this file includes lwIP's tcp_in.c whole, from Debian's source package.
 * All options that lwIP reads are on, its assertions off, and numbers are turned round by the compiler's own instruction.
 */
#define LWIP_TCP_TIMESTAMPS 1
#define LWIP_TCP_SACK_OUT 1
#define LWIP_NOASSERT 1
#define lwip_htons(number) __builtin_bswap16(number)
#define lwip_htonl(number) __builtin_bswap32(number)

#include "core/tcp_in.c"

#include "lwip.h"

static struct tcp_pcb connection;

/* As tcp_input does before it looks for the connection; 0 where it would drop the segment. */
static int read_header(const uint8_t *segment, size_t length)
{
    if (length < TCP_HLEN) {
        return 0;
    }
    tcphdr = (struct tcp_hdr *)segment;
    u8_t header = TCPH_HDRLEN_BYTES(tcphdr);
    if (header < TCP_HLEN || header > length) {
        return 0;
    }
    tcphdr_optlen = tcphdr_opt1len = (u16_t)(header - TCP_HLEN);
    tcphdr_opt2 = NULL;
    seqno = lwip_ntohl(tcphdr->seqno);
    ackno = lwip_ntohl(tcphdr->ackno);
    flags = TCPH_FLAGS(tcphdr);
    tcplen = (u16_t)(length - header);
    return 1;
}

/* The fields of the record that decide what tcp_parseopt takes, so that it takes all. */
static void clear_connection(void)
{
    connection.flags = 0;
    connection.mss = 0;
    connection.snd_scale = 0;
    connection.ts_recent = 0;
    connection.ts_lastacksent = seqno;
}

uint64_t lwip_read(const uint8_t *segment, size_t length)
{
    if (!read_header(segment, length)) {
        return 0;
    }
    clear_connection();
    tcp_parseopt(&connection);
    return (uint64_t)lwip_ntohs(tcphdr->src) + lwip_ntohs(tcphdr->dest) + seqno + ackno + flags + lwip_ntohs(tcphdr->wnd) + tcplen
        + connection.mss + connection.snd_scale + connection.flags + connection.ts_recent;
}
