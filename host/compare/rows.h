/* The rows of the comparison: traces of nine kinds with patterns cut from them; the draws that they are made by, and the clock. */
#ifndef ROWS_H
#define ROWS_H

#include <stddef.h>
#include <stdint.h>

#include "matchers.h"

enum { CLEAN = 6, KINDS = 9, MS = 5, NS = 3, TRACE = 65536 };

/* The kinds by name. The first CLEAN have no lost stitch; the others are three of these with one sample of a hundred lost. */
extern const char *const kinds[KINDS];
extern const size_t ms[MS], ns[NS];

/* The row at hand: m samples of the pattern, n of the trace. */
extern int32_t trace[TRACE], pattern[LONGEST];
extern size_t m, n;

/* Makes a row: the pattern is the middle of the trace, as it is before stitches are lost, or, where it is longer, a trace of the same
 * kind with none lost. Exits where there is no such kind. */
void make_row(const char *kind, size_t length, size_t samples);

/* tension_prepare and tension_search of any archive on the row at hand; they exit where the call refuses. Counts has room for the
 * counts of every archive. */
enum { COUNTS = 16 };
typedef uint64_t prepare_call(const uint8_t *, size_t, uint8_t *, size_t, uint8_t *, size_t, uint8_t *, size_t, uint8_t *, size_t);
typedef uint64_t search_call(const uint8_t *, size_t, const uint8_t *, size_t, const uint8_t *, size_t, const uint8_t *, size_t,
                             const uint8_t *, size_t, const uint8_t *, size_t, uint8_t *, size_t, uint8_t *, size_t, uint8_t *,
                             size_t);
void prepare_by(prepare_call *call, struct tables *t);
void search_by(search_call *call, const struct tables *t, size_t samples, uint32_t *survivors, uint32_t *positions,
               uint32_t *counts);

/* Whether an archive knows lost stitches, by its tension_prepare: it refuses a pattern that holds one. */
int knows_lost(prepare_call *call);

/* Numbers of 24 bits that look drawn at random, the same in every run: from the first one on again, and the next. */
void roll_anew(void);
uint32_t roll(void);

/* Seconds a call, of that many. */
double a_call(void (*call)(void), size_t calls);

/* How many calls take at least that long. */
size_t calls_for(void (*call)(void), double least);

#endif
