/*
 * camera.c - looks for a patch in a camera's frame, and prints the row and column of each place where its order occurs.
 *
 *     camera               a small frame and a patch that are built in
 *     camera FRAME PATCH   two pictures: binary PGM (P5), 8 or 16 bits a sample
 *
 * Copy this file to start from; search() is what a driver needs. Exit status: 0 searched, 1 refused or unreadable, 2 bad usage.
 */
#include <ctype.h>
#include <stdio.h>
#include <stdlib.h>

#include "tension.h"

/* A picture as it lies in a driver's buffer of so many samples: row r begins at sample r * pitch. */
struct picture {
    uint16_t *samples;
    size_t length, height, width, pitch;
};

/* Why a search is refused, by number from TENSION_ZERO_SIZE on. */
static const char *const reasons[] = {
    "a picture has no row or no column",
    "a frame has at most 1,024 rows and 1,024 columns, a patch 1,024 samples",
    "the pitch is below the width, so rows of the frame overlap",
    "a buffer has fewer samples than its picture needs",
    "the list is shorter than the number of places to try",
};

/* Lends a driver's buffer and prints what is found. The patch's rows lie one right behind the other: its pitch is its width. */
static int search(const struct picture *frame, const struct picture *patch)
{
    static uint32_t positions[TENSION_FRAME_LIMIT * TENSION_FRAME_LIMIT]; /* enough for every frame */
    size_t places, found, k;
    uint64_t answer = tension_frame(frame->samples, frame->length, frame->height, frame->width, frame->pitch,
                                    patch->samples, patch->length, patch->height, patch->width,
                                    positions, sizeof positions / sizeof *positions, &places, &found);

    if (answer) {
        fprintf(stderr, "refusal %u: %s\n", (unsigned)TENSION_NUMBER(answer), reasons[TENSION_NUMBER(answer) - TENSION_ZERO_SIZE]);
        return 1;
    }
    printf("places %zu found %zu\n", places, found);
    for (k = 0; k < found; k++)
        printf("%zu %zu\n", positions[k] / frame->width, positions[k] % frame->width);
    return 0;
}

/* The next number of a PGM's head, 1 to 65,535, and the one blank behind it; 0 if there is none. Comments may stand before it. */
static size_t number(FILE *f)
{
    size_t n = 0;
    int c, comment = 0;

    for (c = getc(f); comment || c == '#' || isspace(c); c = getc(f))
        comment = c != '\n' && c != EOF && (comment || c == '#');
    for (; c >= '0' && c <= '9' && n <= 65535; c = getc(f))
        n = 10 * n + (size_t)(c - '0');
    return n <= 65535 && isspace(c) ? n : 0;
}

/* Reads the samples behind a PGM's head: a byte each, or two and the high one first. Answers what is wrong, or NULL. */
static const char *fill(FILE *f, int bytes, struct picture *p)
{
    size_t r, c;

    p->samples = calloc(p->height, p->pitch * sizeof *p->samples);
    if (!p->samples)
        return "no memory";
    p->length = p->height * p->pitch;
    for (r = 0; r < p->height && !feof(f); r++)
        for (c = 0; c < p->width; c++) {
            unsigned v = (unsigned)getc(f) & 255;
            if (bytes == 2)
                v = v << 8 | ((unsigned)getc(f) & 255);
            p->samples[r * p->pitch + c] = (uint16_t)v;
        }
    if (!feof(f) && !ferror(f))
        return NULL;
    free(p->samples);
    return "ends before its last sample";
}

/* Reads a picture into memory, with a margin of so many samples behind each row, or tells why not. */
static int load(const char *name, size_t margin, struct picture *p)
{
    const char *wrong = "not a binary PGM (P5)";
    FILE *f = fopen(name, "rb");
    size_t most;

    if (!f) {
        perror(name);
        return 0;
    }
    if (getc(f) == 'P' && getc(f) == '5' && (p->width = number(f)) && (p->height = number(f)) && (most = number(f))) {
        p->pitch = p->width + margin;
        wrong = fill(f, most < 256 ? 1 : 2, p);
    }
    fclose(f);
    if (wrong)
        fprintf(stderr, "%s: %s\n", name, wrong);
    return !wrong;
}

int main(int argc, char **argv)
{
    /* Three rows of six columns, eight samples apart; the last row needs no margin, and what stands in one counts for nothing. */
    static uint16_t ribs[] = {40, 70, 40, 70, 40, 70, 0, 0,
                              41, 72, 42, 75, 44, 71, 0, 0,
                              60, 30, 61, 33, 90, 20};
    static uint16_t stitch[] = {1, 3, 2, 4};
    struct picture frame = {ribs, TENSION_FRAME_SAMPLES(3, 6, 8), 3, 6, 8}, patch = {stitch, 4, 2, 2, 2};
    int status = 1;

    if (argc == 1)
        return search(&frame, &patch);
    if (argc != 3) {
        fprintf(stderr, "usage: %s [FRAME PATCH] (two pictures, binary PGM)\n", argv[0]);
        return 2;
    }
    if (!load(argv[1], 64, &frame))
        return 1;
    if (load(argv[2], 0, &patch)) {
        status = search(&frame, &patch);
        free(patch.samples);
    }
    free(frame.samples);
    return status;
}
