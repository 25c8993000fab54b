/* The capture reader. Times are not read: nothing that the example prints depends on them. */
#include "capture.h"

#include <errno.h>
#include <inttypes.h>
#include <stdlib.h>
#include <string.h>

enum {
    FILE_HEADER = 24,
    RECORD_HEADER = 16,
    LONGEST_PACKET = 16 * 1024 * 1024 /* a longer one is a damaged record, and must not decide how much memory is taken */
};

static const uint32_t MICROSECONDS = 0xa1b2c3d4;
static const uint32_t NANOSECONDS = 0xa1b23c4d;
static const uint32_t PCAPNG = 0x0a0d0d0a;

/* Above these bits of the link type stands the length of a frame check sequence, which the IP lengths leave out anyway. */
static const uint32_t LINK_TYPE_BITS = 0x03ffffff;

/* A number of 32 bits in the capture's byte order. */
static uint32_t number_at(const struct capture *capture, struct octets header, size_t place)
{
    return capture->is_little_endian ? octets_little_endian_u32(header, place) : octets_u32(header, place);
}

static bool is_pcap(uint32_t magic)
{
    return magic == MICROSECONDS || magic == NANOSECONDS;
}

static bool read_magic(struct capture *capture, struct octets header)
{
    capture->is_little_endian = is_pcap(octets_little_endian_u32(header, 0));
    if (capture->is_little_endian || is_pcap(octets_u32(header, 0))) {
        return true;
    }
    if (octets_u32(header, 0) == PCAPNG) {
        fprintf(stderr, "%s: a pcapng file, which is not read; convert it with: editcap -F pcap %s converted.pcap\n",
                capture->name, capture->name);
    } else {
        fprintf(stderr, "%s: no classic pcap file: it does not begin with that format's magic number\n", capture->name);
    }
    return false;
}

/* Older versions exchange the two lengths of a record, so they are not guessed at. */
static bool has_version(const struct capture *capture, struct octets header)
{
    uint32_t version = number_at(capture, header, 4);
    uint32_t major = capture->is_little_endian ? version & 0xffff : version >> 16;
    uint32_t minor = capture->is_little_endian ? version >> 16 : version & 0xffff;
    if (major == 2 && minor == 4) {
        return true;
    }
    fprintf(stderr, "%s: pcap version %" PRIu32 ".%" PRIu32 ", at octet 4; only 2.4 is read\n", capture->name, major, minor);
    return false;
}

static bool read_file_header(struct capture *capture)
{
    uint8_t room[FILE_HEADER];
    struct octets header = { room, fread(room, 1, sizeof room, capture->file) };
    if (ferror(capture->file)) {
        fprintf(stderr, "%s: cannot be read: %s\n", capture->name, strerror(errno));
        return false;
    }
    if (!read_magic(capture, header)) {
        return false;
    }
    if (header.length < sizeof room) {
        fprintf(stderr, "%s: the file ends at octet %zu, inside the file header\n", capture->name, header.length);
        return false;
    }
    capture->link_type = number_at(capture, header, 20) & LINK_TYPE_BITS;
    capture->position = sizeof room;
    return has_version(capture, header);
}

bool capture_open(struct capture *capture, const char *name)
{
    *capture = (struct capture){ .name = name };
    capture->file = fopen(name, "rb");
    if (capture->file == NULL) {
        fprintf(stderr, "%s: cannot be opened: %s\n", name, strerror(errno));
        return false;
    }
    if (!read_file_header(capture)) {
        capture_close(capture);
        return false;
    }
    return true;
}

static enum capture_step failed(const struct capture *capture, const char *reason)
{
    fprintf(stderr, "%s: packet %" PRIu64 ", whose record begins at octet %" PRIu64 ": %s\n", capture->name,
            capture->packets + 1, capture->position, reason);
    return CAPTURE_FAILED;
}

static enum capture_step ended_inside(const struct capture *capture, const char *reason)
{
    return failed(capture, ferror(capture->file) ? strerror(errno) : reason);
}

/* Every packet gets a block of its own length, so that memory checkers see a read past its end. */
static bool make_room(struct capture *capture, size_t length)
{
    free(capture->buffer);
    capture->buffer = length > 0 ? malloc(length) : NULL;
    return length == 0 || capture->buffer != NULL;
}

static enum capture_step read_packet(struct capture *capture, struct octets header, struct captured *packet)
{
    uint32_t length = number_at(capture, header, 8);
    uint32_t own_length = number_at(capture, header, 12);
    if (length > LONGEST_PACKET) {
        return failed(capture, "its captured length is over 16 MiB, so the record is damaged");
    }
    if (!make_room(capture, length)) {
        return failed(capture, "out of memory");
    }
    if (length > 0 && fread(capture->buffer, 1, length, capture->file) < length) {
        return ended_inside(capture, "the file ends inside the packet");
    }
    *packet = (struct captured){ { capture->buffer, length }, own_length > length ? own_length - length : 0 };
    capture->packets += 1;
    capture->position += (uint64_t)RECORD_HEADER + length;
    return CAPTURE_PACKET;
}

enum capture_step capture_next(struct capture *capture, struct captured *packet)
{
    uint8_t room[RECORD_HEADER];
    struct octets header = { room, fread(room, 1, sizeof room, capture->file) };
    if (header.length == 0 && !ferror(capture->file)) {
        return CAPTURE_END;
    }
    if (header.length < sizeof room) {
        return ended_inside(capture, "the file ends inside the record's header");
    }
    return read_packet(capture, header, packet);
}

void capture_close(struct capture *capture)
{
    free(capture->buffer);
    fclose(capture->file);
}
