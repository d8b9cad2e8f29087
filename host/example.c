/*
 * example.c - reads a pattern recording and a trace recording, searches, and prints where the pattern's order occurs.
 *
 *     example PATTERN TRACE
 *
 * Copy this file to start from. Exit status: 0 searched, 1 refused or unreadable, 2 bad usage.
 */
#include <stdio.h>
#include <stdlib.h>

#include "tension.h"

/* A recording's samples in memory, as numbers and as the bytes that prepare and search take. */
struct recording {
    int32_t *samples;
    const uint8_t *bytes;
    size_t length;
};

static uint32_t word_at(const uint8_t *p)
{
    return (uint32_t)p[0] | (uint32_t)p[1] << 8 | (uint32_t)p[2] << 16 | (uint32_t)p[3] << 24;
}

static int refused(const char *what, uint64_t answer)
{
    fprintf(stderr, "%s: refusal %u place %u\n", what, (unsigned)TENSION_NUMBER(answer), (unsigned)TENSION_PLACE(answer));
    return 1;
}

/* Reads a whole file into memory, or tells why not and answers NULL. */
static uint8_t *contents(const char *name, size_t *length)
{
    FILE *f = fopen(name, "rb");
    size_t room = 1 << 16, got;
    uint8_t *bytes, *more;
    int failed;

    if (!f) {
        perror(name);
        return NULL;
    }
    *length = 0;
    bytes = malloc(room);
    while (bytes && (got = fread(bytes + *length, 1, room - *length, f)) > 0) {
        *length += got;
        if (*length == room) {
            more = realloc(bytes, room *= 2);
            if (!more)
                free(bytes);
            bytes = more;
        }
    }
    failed = ferror(f);
    fclose(f);
    if (bytes && !failed)
        return bytes;
    fprintf(stderr, "%s: %s\n", name, bytes ? "not read to its end" : "no memory");
    free(bytes);
    return NULL;
}

/* Reads the recording that a file ends with. */
static int load(const char *name, struct recording *r)
{
    size_t length, room, count, first;
    uint8_t *file = contents(name, &length);
    uint64_t answer;

    if (!file)
        return 0;
    room = length / 4; /* no recording of so many bytes has more samples */
    r->samples = malloc((room + 1) * sizeof *r->samples);
    if (!r->samples) {
        fprintf(stderr, "%s: no memory\n", name);
        free(file);
        return 0;
    }
    answer = tension_read(file, length, r->samples, room, &count, &first);
    free(file);
    if (answer) {
        free(r->samples);
        refused(name, answer);
        return 0;
    }
    r->bytes = (const uint8_t *)r->samples;
    r->length = count * sizeof *r->samples;
    return 1;
}

int main(int argc, char **argv)
{
    /* Tables for the longest pattern, and a window for every sample of the longest trace. */
    static uint8_t low[2 * TENSION_PATTERN_LIMIT], high[2 * TENSION_PATTERN_LIMIT];
    static uint8_t witness_i[2 * TENSION_PATTERN_LIMIT], witness_j[2 * TENSION_PATTERN_LIMIT];
    static uint8_t survivors[4 * TENSION_TRACE_LIMIT], positions[4 * TENSION_TRACE_LIMIT];
    uint8_t counts[4 * TENSION_COUNTS];
    struct recording pattern, trace;
    uint64_t answer;
    uint32_t k, found;

    if (argc != 3) {
        fprintf(stderr, "usage: %s PATTERN TRACE (two recordings)\n", argv[0]);
        return 2;
    }
    if (!load(argv[1], &pattern) || !load(argv[2], &trace))
        return 1;

    answer = tension_prepare(pattern.bytes, pattern.length, low, sizeof low, high, sizeof high,
                             witness_i, sizeof witness_i, witness_j, sizeof witness_j);
    if (answer)
        return refused("prepare", answer);
    answer = tension_search(pattern.bytes, pattern.length, low, sizeof low, high, sizeof high,
                            witness_i, sizeof witness_i, witness_j, sizeof witness_j,
                            trace.bytes, trace.length, survivors, sizeof survivors,
                            positions, sizeof positions, counts, sizeof counts);
    if (answer)
        return refused("search", answer);

    found = word_at(counts + 4 * TENSION_COUNT_FOUND);
    printf("windows %u duels %u survivors %u sweep %u found %u\n", (unsigned)word_at(counts),
           (unsigned)word_at(counts + 4), (unsigned)word_at(counts + 8), (unsigned)word_at(counts + 12), (unsigned)found);
    for (k = 0; k < found; k++)
        printf("%u\n", (unsigned)word_at(positions + 4 * k));
    free(pattern.samples);
    free(trace.samples);
    return 0;
}
