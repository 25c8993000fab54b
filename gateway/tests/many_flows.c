/* Writes a capture to standard output in which every segment is of another flow: many_flows COUNT. */
#include <stdint.h>
#include <stdio.h>
#include <stdlib.h>

#include "../sample/frames.h"

int main(int argc, char **argv)
{
    unsigned long count = argc == 2 ? strtoul(argv[1], NULL, 10) : 0;
    bool is_written = write_file_header(stdout);
    struct bytes no_options = { .length = 0 };
    for (unsigned long i = 0; i < count && is_written; i++) {
        struct tcp tcp = { (uint16_t)(i & 65535), 7000, 0, 0, SYN };
        struct bytes segment = tcp_segment(&tcp, &no_options);
        struct bytes frame = ipv4_frame((uint8_t)(i >> 16 & 255), 20, PROTOCOL_TCP, &segment);
        is_written = write_record(stdout, 0, &frame, 0);
    }
    return fflush(stdout) == 0 && is_written ? 0 : 1;
}
