/* rows.c - the rows of the comparison. */
#define _POSIX_C_SOURCE 200809L
#include "rows.h"

#include <stdio.h>
#include <stdlib.h>
#include <string.h>
#include <time.h>

const char *const kinds[KINDS] = {"random", "equal", "monotone", "sawtooth", "walk", "steps",
                                  "random, 1 % lost", "monotone, 1 % lost", "walk, 1 % lost"};
const size_t ms[MS] = {4, 8, 32, 128, 1024}, ns[NS] = {64, 2048, 65536};

int32_t trace[TRACE], pattern[LONGEST];
size_t m, n;

static uint32_t state;

void roll_anew(void)
{
    state = 12345;
}

uint32_t roll(void)
{
    state = state * 1664525u + 1013904223u;
    return state >> 8;
}

static int kind_number(const char *name)
{
    for (int k = 0; k < KINDS; k++)
        if (!strcmp(name, kinds[k]))
            return k;
    fprintf(stderr, "no kind of trace is named '%s'\n", name);
    exit(2);
}

/* Whether a kind's samples go as the name says, lost ones aside. */
static int goes(const char *kind, const char *name)
{
    return !strncmp(kind, name, strlen(name));
}

/* A trace of a kind, with no stitch lost. */
static void fill(const char *kind, int32_t *v, size_t length)
{
    int32_t level = 0;
    roll_anew();
    for (size_t k = 0; k < length; k++) {
        if (goes(kind, "random"))
            v[k] = (int32_t)(roll() % 2000000) - 1000000;
        else if (goes(kind, "equal"))
            v[k] = 7;
        else if (goes(kind, "monotone"))
            v[k] = (int32_t)k;
        else if (goes(kind, "sawtooth"))
            v[k] = (int32_t)(k % 9);
        else if (goes(kind, "walk"))
            v[k] = level += (int32_t)(roll() % 21) - 10;
        else
            v[k] = level += k % 16 ? 0 : (int32_t)(roll() % 5) - 2;
    }
}

/* Loses one sample of a hundred, rounded up, so that even the shortest trace has one; a place may be drawn twice. */
static void lose(int32_t *v, size_t length)
{
    for (size_t k = 0; k < length; k += 100)
        v[roll() % length] = LOST;
}

void make_row(const char *kind, size_t length, size_t samples)
{
    int number = kind_number(kind);
    m = length;
    n = samples;
    if (m > n)
        fill(kind, pattern, m);
    fill(kind, trace, n);
    if (m <= n)
        memcpy(pattern, trace + (n - m) / 2, 4 * m);
    if (number >= CLEAN)
        lose(trace, n); /* by the draws that follow the trace's, so the same stitches for every m */
}

static void accepted(uint64_t answer)
{
    if (answer) {
        fprintf(stderr, "refused\n");
        exit(1);
    }
}

void prepare_by(prepare_call *call, struct tables *t)
{
    accepted(call((const uint8_t *)pattern, 4 * m, (uint8_t *)t->low, 2 * LONGEST, (uint8_t *)t->high, 2 * LONGEST,
                  (uint8_t *)t->witness_i, 2 * LONGEST, (uint8_t *)t->witness_j, 2 * LONGEST));
}

int knows_lost(prepare_call *call)
{
    struct tables t;
    int32_t lost = LOST;
    return call((const uint8_t *)&lost, sizeof lost, (uint8_t *)t.low, 2, (uint8_t *)t.high, 2, (uint8_t *)t.witness_i, 2,
                (uint8_t *)t.witness_j, 2) != 0;
}

void search_by(search_call *call, const struct tables *t, size_t samples, uint32_t *survivors, uint32_t *positions,
               uint32_t *counts)
{
    accepted(call((const uint8_t *)pattern, 4 * m, (const uint8_t *)t->low, 2 * LONGEST, (const uint8_t *)t->high, 2 * LONGEST,
                  (const uint8_t *)t->witness_i, 2 * LONGEST, (const uint8_t *)t->witness_j, 2 * LONGEST, (const uint8_t *)trace,
                  4 * samples, (uint8_t *)survivors, 4 * TRACE, (uint8_t *)positions, 4 * TRACE, (uint8_t *)counts, 4 * COUNTS));
}

static double seconds(void)
{
    struct timespec t;
    clock_gettime(CLOCK_MONOTONIC, &t);
    return (double)t.tv_sec + 1e-9 * (double)t.tv_nsec;
}

double a_call(void (*call)(void), size_t calls)
{
    double start = seconds();
    for (size_t k = 0; k < calls; k++)
        call();
    return (seconds() - start) / (double)calls;
}

size_t calls_for(void (*call)(void), double least)
{
    size_t calls = 1;
    while (calls <= 1u << 20 && a_call(call, calls) * (double)calls <= least)
        calls *= 2;
    return calls;
}
