/* frames.c - the rows that are frames. */
#include "frames.h"

#include <math.h>
#include <stdio.h>
#include <stdlib.h>
#include <string.h>

#include "../tension.h"
#include "matchers.h"
#include "rows.h"

enum { HEIGHT = 1024, WIDTH = 1024, PITCH = 1280, STRIPE = 8, PATCHES = 6, SAMPLES = 9 };

enum { RANDOM, LEVEL, GRADIENT, STRIPED, NOISY, SAWTOOTH, FRAMES };

static const char *const names[FRAMES] = {"random", "level", "gradient", "striped", "noisy", "sawtooth"};
static const size_t patches[PATCHES][2] = {{1, 1}, {2, 2}, {4, 4}, {8, 8}, {32, 32}, {1, 1024}};

/* What is aimed at: the largest ratio of some rows, of others, and of all. */
enum { ONE, BLOCKS, ALL, AIMS };

static const struct {
    const char *rows;
    double most;
} aims[AIMS] = {
    [ONE] = {"1 x 1", 0.7},
    [BLOCKS] = {"random, level, gradient and noisy, 2 x 2 to 32 x 32", 0.35},
    [ALL] = {"all rows", 1.1},
};

/* The row at hand, and both answers. */
static uint16_t frame[TENSION_FRAME_SAMPLES(HEIGHT, WIDTH, PITCH)], patch[LONGEST];
static size_t height, width, pitch, h, k;
static uint32_t positions[HEIGHT * WIDTH], listed[HEIGHT * WIDTH];
static size_t places, found, plain_places, plain_found;

static void call_ours(void)
{
    if (tension_frame(frame, TENSION_FRAME_SAMPLES(height, width, pitch), height, width, pitch, patch, h * k, h, k, positions,
                      HEIGHT * WIDTH, &places, &found)) {
        fprintf(stderr, "refused\n");
        exit(1);
    }
}

static void call_plain(void) { plain_found = plain_frame(frame, height, width, pitch, patch, h, k, listed, &plain_places); }

static uint16_t stripes[WIDTH / STRIPE];

static uint16_t grey(int kind, size_t row, size_t column)
{
    switch (kind) {
    case RANDOM: return (uint16_t)(roll() >> 8);
    case LEVEL: return 7;
    case GRADIENT: return (uint16_t)(16 * row + 32 * column);
    case STRIPED: return stripes[column / STRIPE];
    case NOISY: return (uint16_t)(16 * row + 32 * column + (roll() >> 18));
    default: return (uint16_t)((row + column) % 9);
    }
}

/* A frame of a kind. What lies between its rows is drawn; behind the last nothing does. */
static void make_frame(int kind)
{
    roll_anew();
    for (size_t s = 0; s < WIDTH / STRIPE; s++)
        stripes[s] = (uint16_t)(1000 * (roll() >> 22));
    for (size_t at = 0; at < TENSION_FRAME_SAMPLES(height, width, pitch); at++)
        frame[at] = grey(at % pitch < width ? kind : RANDOM, at / pitch, at % pitch);
}

/* The middle of the frame. */
static void cut_patch(size_t rows, size_t columns)
{
    h = rows;
    k = columns;
    const uint16_t *from = frame + (height - h) / 2 * pitch + (width - k) / 2;
    for (size_t j = 0; j < h; j++)
        memcpy(patch + j * k, from + j * pitch, k * sizeof *patch);
}

/* Both must try as many places, find as many and list the same. */
static void check(void)
{
    memset(positions, 1, sizeof positions);
    memset(listed, 2, sizeof listed);
    call_ours();
    call_plain();
    if (places == plain_places && found == plain_found && !memcmp(positions, listed, places * sizeof *listed))
        return;
    fprintf(stderr, "answers differ: frame\n");
    exit(1);
}

/* Seconds a call, the best of the samples of each. A sample is as many calls as take a millisecond; the two take turns at it, since some
 * calls last long enough to meet what else the machine does. */
static void time_both(double *ours, double *plain)
{
    size_t our_calls = calls_for(call_ours, 1e-3), plain_calls = calls_for(call_plain, 1e-3);
    *ours = *plain = 1e9;
    for (int s = 0; s < SAMPLES; s++) {
        *ours = fmin(*ours, a_call(call_ours, our_calls));
        *plain = fmin(*plain, a_call(call_plain, plain_calls));
    }
}

/* Of the rows so far: the worst ratio of those that an aim speaks of, the logarithms, and how many there are. */
static double worst[AIMS], logs;
static int number;

static void measure(int kind)
{
    char size[32];
    double ours, plain, ratio;
    check();
    time_both(&ours, &plain);
    ratio = ours / plain;
    snprintf(size, sizeof size, "%zu x %zu", h, k);
    printf("%-10s %10s %10zu %10zu %11.2f %10.3f\n", names[kind], size, places, found, 1e6 * ours, ratio);
    fflush(stdout);
    number++;
    logs += log(ratio);
    worst[ALL] = fmax(worst[ALL], ratio);
    if (h * k == 1)
        worst[ONE] = fmax(worst[ONE], ratio);
    else if (h > 1 && kind != STRIPED && kind != SAWTOOTH)
        worst[BLOCKS] = fmax(worst[BLOCKS], ratio);
}

void compare_frames(int shorter)
{
    height = shorter ? 96 : HEIGHT;
    width = shorter ? 200 : WIDTH;
    pitch = shorter ? 250 : PITCH;
    printf("\n%-10s %10s %10s %10s %11s %10s\n", "frame", "patch", "places", "found", "ours (us)", "plain C");
    for (int kind = 0; kind < FRAMES; kind++) {
        make_frame(kind);
        for (int p = 0; p < PATCHES; p++)
            if (!shorter || patches[p][0] == 4) {
                cut_patch(patches[p][0], patches[p][1]);
                measure(kind);
            }
    }
    for (int a = 0; a < AIMS && !shorter; a++)
        printf("worst of %-51s %6.3f, aim: at most %.2f\n", aims[a].rows, worst[a], aims[a].most);
    printf("%-60s %6.3f\n", "geometric mean", exp(logs / number));
    printf("%d rows of frames, best of %d samples each\n", number, SAMPLES);
}
