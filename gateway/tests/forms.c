/*
 * Writes the sample capture in another form to standard output: forms SAMPLE ORDER UNIT LINK VERSION.
 *
 * ORDER is little or big, UNIT is micro or nano, LINK is the link type to write, and VERSION is 4 or 6 for the packets of
 * that IP version alone, or all. For a link type other than 1 the Ethernet header and its tags are left out.
 */
#include <stdbool.h>
#include <stddef.h>
#include <stdint.h>
#include <stdio.h>
#include <stdlib.h>
#include <string.h>

#include "../capture/octets.h"

enum { LONGEST_SAMPLE = 65536, FILE_HEADER = 24, RECORD_HEADER = 16, ETHERNET = 1 };

struct form {
    bool is_big_endian;
    bool is_nano;
    uint32_t link_type;
    unsigned version; /* 0 for both */
};

static void write_number(const struct form *form, uint32_t number, unsigned bits)
{
    for (unsigned written = 0; written < bits; written += 8) {
        unsigned shift = form->is_big_endian ? bits - 8 - written : written;
        putchar((int)(number >> shift & 255));
    }
}

static void write_file_header(const struct form *form)
{
    write_number(form, form->is_nano ? 0xa1b23c4d : 0xa1b2c3d4, 32);
    write_number(form, 2, 16);
    write_number(form, 4, 16);
    write_number(form, 0, 32);
    write_number(form, 0, 32);
    write_number(form, 65535, 32);
    write_number(form, form->link_type, 32);
}

static size_t ethernet_length(struct octets frame)
{
    size_t length = 14;
    while (octets_u16(frame, length - 2) == 0x8100 || octets_u16(frame, length - 2) == 0x88a8) {
        length += 4;
    }
    return length;
}

static bool is_wanted(const struct form *form, struct octets frame)
{
    uint16_t type = octets_u16(frame, ethernet_length(frame) - 2);
    return form->version == 0 || (form->version == 4 && type == 0x0800) || (form->version == 6 && type == 0x86dd);
}

static void write_record(const struct form *form, struct octets record)
{
    struct octets frame = octets_after(record, RECORD_HEADER);
    size_t left_out = form->link_type == ETHERNET ? 0 : ethernet_length(frame);
    struct octets kept = octets_after(frame, left_out);
    if (!is_wanted(form, frame)) {
        return;
    }
    write_number(form, octets_little_endian_u32(record, 0), 32);
    write_number(form, octets_little_endian_u32(record, 4) * (form->is_nano ? 1000 : 1), 32);
    write_number(form, (uint32_t)kept.length, 32);
    write_number(form, octets_little_endian_u32(record, 12) - (uint32_t)left_out, 32);
    fwrite(kept.at, 1, kept.length, stdout);
}

/* No octets where it cannot be read. */
static size_t read_sample(const char *name, uint8_t *room)
{
    FILE *file = fopen(name, "rb");
    if (file == NULL) {
        return 0;
    }
    size_t length = fread(room, 1, LONGEST_SAMPLE, file);
    fclose(file);
    return length;
}

static void write_form(const struct form *form, struct octets sample)
{
    struct octets rest = octets_after(sample, FILE_HEADER);
    write_file_header(form);
    while (rest.length > 0) {
        size_t length = RECORD_HEADER + (size_t)octets_little_endian_u32(rest, 8);
        write_record(form, octets_first(rest, length));
        rest = octets_after(rest, length);
    }
}

int main(int argc, char **argv)
{
    if (argc != 6) {
        fprintf(stderr, "usage: forms SAMPLE little|big micro|nano LINK 4|6|all\n");
        return 2;
    }
    struct form form = {
        strcmp(argv[2], "big") == 0,
        strcmp(argv[3], "nano") == 0,
        (uint32_t)strtoul(argv[4], NULL, 10),
        (unsigned)strtoul(argv[5], NULL, 10),
    };
    uint8_t *room = malloc(LONGEST_SAMPLE);
    size_t length = room == NULL ? 0 : read_sample(argv[1], room);
    if (length == 0) {
        fprintf(stderr, "forms: %s cannot be read\n", argv[1]);
        free(room);
        return 1;
    }
    write_form(&form, (struct octets){ room, length });
    free(room);
    return fflush(stdout) == 0 && !ferror(stdout) ? 0 : 1;
}
