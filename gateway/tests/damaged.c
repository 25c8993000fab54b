/*
 * Runs a command, the example, on many damaged copies of a capture, and checks how it ends.
 *
 * damaged truncations STEP SAMPLE SCRATCH COMMAND..: the capture cut off at every STEP-th length. The status must be 0 where
 * the cut is between packets and 1 elsewhere, and the packets before the cut must have been counted.
 *
 * damaged damages COUNT SAMPLE SCRATCH COMMAND..: COUNT captures in which some octets are others, the same on every run. The
 * status must be 0 or 1.
 *
 * Each damaged capture is the file SCRATCH, and what the command prints goes to SCRATCH.out and SCRATCH.err.
 */
#define _POSIX_C_SOURCE 200809L /* for fork and its companions */

#include <fcntl.h>
#include <stdbool.h>
#include <stddef.h>
#include <stdint.h>
#include <stdio.h>
#include <stdlib.h>
#include <string.h>
#include <sys/types.h>
#include <sys/wait.h>
#include <unistd.h>

#include "../capture/octets.h"

enum { LONGEST_SAMPLE = 65536, LONGEST_NAME = 4096, MOST_WORDS = 32, FILE_HEADER = 24, RECORD_HEADER = 16 };
enum { LONGEST_SECONDS = 60 };

struct trial {
    uint8_t sample[LONGEST_SAMPLE];
    size_t length;
    uint8_t work[LONGEST_SAMPLE]; /* a damaged copy, or what a command printed */
    const char *scratch;
    char out[LONGEST_NAME];
    char err[LONGEST_NAME];
    char *command[MOST_WORDS + 2];
};

static void stop(const char *reason, const char *name)
{
    fprintf(stderr, "damaged: %s: %s\n", name, reason);
    exit(2);
}

static size_t read_file(const char *name, uint8_t *octets, size_t room)
{
    FILE *file = fopen(name, "rb");
    if (file == NULL) {
        stop("cannot be opened", name);
    }
    size_t length = fread(octets, 1, room, file);
    fclose(file);
    return length;
}

static void write_scratch(const struct trial *trial, const uint8_t *octets, size_t length)
{
    FILE *file = fopen(trial->scratch, "wb");
    if (file == NULL) {
        stop("cannot be opened", trial->scratch);
    }
    bool is_written = fwrite(octets, 1, length, file) == length;
    if (fclose(file) != 0 || !is_written) {
        stop("cannot be written", trial->scratch);
    }
}

static void redirect(int descriptor, const char *name)
{
    int file = open(name, O_WRONLY | O_CREAT | O_TRUNC, 0600);
    if (file < 0 || dup2(file, descriptor) < 0) {
        _exit(127);
    }
}

/* The command's status, or 128 and more where a signal ended it. */
static int run_command(struct trial *trial)
{
    int status = 0;
    pid_t child = fork();
    if (child == 0) {
        redirect(1, trial->out);
        redirect(2, trial->err);
        alarm(LONGEST_SECONDS); /* a command that does not end is ended by a signal */
        execvp(trial->command[0], trial->command);
        _exit(127);
    }
    if (child < 0 || waitpid(child, &status, 0) != child) {
        stop("cannot be run", trial->command[0]);
    }
    return WIFEXITED(status) ? WEXITSTATUS(status) : 128 + WTERMSIG(status);
}

static void show_errors(struct trial *trial)
{
    fwrite(trial->work, 1, read_file(trial->err, trial->work, sizeof trial->work), stderr);
}

/* How many whole packets the first octets of the sample hold, and whether they end with the last of them. */
static unsigned long whole_packets(struct octets octets, bool *ends_there)
{
    unsigned long packets = 0;
    size_t place = FILE_HEADER;
    while (place + RECORD_HEADER <= octets.length) {
        size_t next = place + RECORD_HEADER + octets_little_endian_u32(octets, place + 8);
        if (next > octets.length) {
            break;
        }
        place = next;
        packets += 1;
    }
    *ends_there = place == octets.length;
    return packets;
}

static bool printed_packets(struct trial *trial, unsigned long packets)
{
    char expected[64];
    size_t length = read_file(trial->out, trial->work, sizeof trial->work - 1);
    trial->work[length] = '\0';
    snprintf(expected, sizeof expected, "packets: %lu\n", packets);
    return strstr((const char *)trial->work, expected) != NULL;
}

static bool truncation_holds(struct trial *trial, size_t length)
{
    bool ends_there = false;
    unsigned long packets = whole_packets((struct octets){ trial->sample, length }, &ends_there);
    write_scratch(trial, trial->sample, length);
    int status = run_command(trial);
    if (status == (ends_there ? 0 : 1) && (length < FILE_HEADER || printed_packets(trial, packets))) {
        return true;
    }
    fprintf(stderr, "damaged: the capture cut off at octet %zu: status %d\n", length, status);
    return false;
}

static uint64_t next_random(uint64_t *state)
{
    *state += UINT64_C(0x9e3779b97f4a7c15);
    uint64_t mixed = (*state ^ *state >> 30) * UINT64_C(0xbf58476d1ce4e5b9);
    mixed = (mixed ^ mixed >> 27) * UINT64_C(0x94d049bb133111eb);
    return mixed ^ mixed >> 31;
}

/* Every other damage is of one octet; the others are of 2 to 17, half of them in one run. */
static void damage(uint8_t *octets, size_t length, uint64_t seed)
{
    uint64_t state = seed;
    size_t count = seed % 2 == 0 ? 1 : 2 + (size_t)(next_random(&state) % 16);
    bool is_run = seed % 4 == 1;
    size_t place = (size_t)(next_random(&state) % length);
    for (size_t i = 0; i < count; i++) {
        octets[place] = (uint8_t)(next_random(&state) & 255);
        place = (is_run ? place + 1 : (size_t)next_random(&state)) % length;
    }
}

static bool damage_holds(struct trial *trial, uint64_t seed)
{
    memcpy(trial->work, trial->sample, trial->length);
    damage(trial->work, trial->length, seed);
    write_scratch(trial, trial->work, trial->length);
    int status = run_command(trial);
    if (status == 0 || status == 1) {
        return true;
    }
    fprintf(stderr, "damaged: damage %llu: status %d\n", (unsigned long long)seed, status);
    return false;
}

static unsigned long try_truncations(struct trial *trial, size_t step)
{
    unsigned long tried = 0;
    for (size_t length = 0; length <= trial->length; length += step) {
        if (!truncation_holds(trial, length)) {
            return 0;
        }
        tried += 1;
    }
    return tried;
}

static unsigned long try_damages(struct trial *trial, unsigned long count)
{
    for (unsigned long i = 0; i < count; i++) {
        if (!damage_holds(trial, i)) {
            return 0;
        }
    }
    return count;
}

static struct trial *prepare(int argc, char **argv)
{
    size_t words = 0;
    struct trial *trial = calloc(1, sizeof *trial);
    if (trial == NULL) {
        stop("out of memory", argv[0]);
    }
    trial->length = read_file(argv[3], trial->sample, sizeof trial->sample);
    trial->scratch = argv[4];
    snprintf(trial->out, sizeof trial->out, "%s.out", argv[4]);
    snprintf(trial->err, sizeof trial->err, "%s.err", argv[4]);
    for (int i = 5; i < argc && words < MOST_WORDS; i++) {
        trial->command[words] = argv[i];
        words += 1;
    }
    trial->command[words] = argv[4];
    return trial;
}

/* How many were tried and held, 0 where one did not. */
static unsigned long try_all(struct trial *trial, const char *what, unsigned long number)
{
    if (number > 0 && strcmp(what, "truncations") == 0) {
        return try_truncations(trial, number);
    }
    return strcmp(what, "damages") == 0 ? try_damages(trial, number) : 0;
}

int main(int argc, char **argv)
{
    if (argc < 6) {
        fprintf(stderr, "usage: damaged truncations STEP | damages COUNT, then SAMPLE SCRATCH COMMAND..\n");
        return 2;
    }
    struct trial *trial = prepare(argc, argv);
    unsigned long tried = try_all(trial, argv[1], strtoul(argv[2], NULL, 10));
    if (tried == 0) {
        show_errors(trial);
    }
    free(trial);
    printf("  %lu %s\n", tried, argv[1]);
    return tried > 0 ? 0 : 1;
}
