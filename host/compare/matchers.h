/*
 * What tension_search and tension_frame are compared with. On traces all four list the same positions; typed arrays, tables prepared
 * beforehand.
 *
 * A window that holds a lost stitch is no match. Each matcher here looks for lost stitches once and searches the stretches between them,
 * so that a trace with none costs it one scan and nothing else.
 */
#ifndef MATCHERS_H
#define MATCHERS_H

#include <stddef.h>
#include <stdint.h>

enum { LONGEST = 1024, NONE = 65535, LOST = INT32_MIN };

struct tables {
    uint16_t low[LONGEST], high[LONGEST], witness_i[LONGEST], witness_j[LONGEST];
};

/* In the order in which tension_search writes them. */
struct counts {
    uint32_t windows, duels, survivors, sweep, found, struck;
};

/* The same algorithm in C: neighbours by going over the earlier places, witnesses by one pass, duels, sweep. The search checks the
 * tables by preparing again. Both answer 0 where the pattern holds a lost stitch, and the search where the tables are not its own. */
int same_prepare(const int32_t *p, size_t m, struct tables *t);
int same_search(const int32_t *p, size_t m, const struct tables *t, const int32_t *trace, size_t n, uint32_t *survivors,
                uint32_t *positions, struct counts *c);

/* Order-preserving matching by a failure function, after Kubica, Kulczynski, Radoszewski, Rytter and Walen. It starts anew behind a lost
 * stitch. */
void kmp_prepare(const int32_t *p, size_t m, const struct tables *t, uint16_t *fail);
size_t kmp_search(size_t m, const struct tables *t, const uint16_t *fail, const int32_t *trace, size_t n, uint32_t *positions);

/* Each window that holds no lost stitch, until its first failing place. */
size_t naive_search(size_t m, const struct tables *t, const int32_t *trace, size_t n, uint32_t *positions);

/* Frames, the plain way: each place, until the first sample of the patch that stands otherwise to its two neighbours. These are looked
 * up inside the call, by going over the earlier samples, and so are the places of all three in the frame. Lists as tension_frame does,
 * and answers how many are found. For frames of less than 2^32 samples. */
size_t plain_frame(const uint16_t *frame, size_t height, size_t width, size_t pitch, const uint16_t *patch, size_t h, size_t k,
                   uint32_t *positions, size_t *places);

#endif
