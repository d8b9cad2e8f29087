/* matchers.c - plain C matchers to compare with, written from their descriptions; see matchers.h. */
#include "matchers.h"

#include <string.h>

static int relation(int32_t a, int32_t b)
{
    return (a > b) - (a < b);
}

/* Where the first lost stitch stands from a sample on, or the end. The loop over a block has no branch, so that the compiler compares
 * several samples at once. */
static size_t first_lost(const int32_t *v, size_t from, size_t end)
{
    enum { BLOCK = 64 };
    for (; from + BLOCK <= end; from += BLOCK) {
        int lost = 0;
        for (size_t k = 0; k < BLOCK; k++)
            lost |= v[from + k] == LOST;
        if (lost)
            break;
    }
    while (from < end && v[from] != LOST)
        from++;
    return from;
}

/*
 * A stretch of the trace, from a sample up to an end: it holds no lost stitch and has room for a window. The next is looked for from
 * `next` on.
 *
 * What goes over the samples of a stretch is a function by itself and stays one: inside the loop over stretches the compiler makes worse
 * code of it, which a trace with no lost stitch would pay for.
 */
struct stretch {
    size_t from, end, next;
};

#define BY_ITSELF __attribute__((noinline)) static

static int next_stretch(const int32_t *trace, size_t n, size_t m, struct stretch *s)
{
    while (s->next + m <= n) {
        s->from = s->next;
        s->end = first_lost(trace, s->from, n);
        s->next = s->end + 1;
        if (s->from + m <= s->end)
            return 1;
    }
    return 0;
}

static void neighbours(const int32_t *p, size_t m, uint16_t *low, uint16_t *high)
{
    for (size_t j = 0; j < m; j++) {
        uint16_t l = NONE, h = NONE;
        for (size_t i = 0; i < j; i++) {
            if (p[i] <= p[j] && (l == NONE || p[l] <= p[i]))
                l = (uint16_t)i;
            if (p[i] >= p[j] && (h == NONE || p[h] >= p[i]))
                h = (uint16_t)i;
        }
        low[j] = l;
        high[j] = h;
    }
}

/* Place j's test on v: the neighbour that fails, or NONE; adds what it cost. */
static inline uint16_t failing(uint16_t l, uint16_t h, const int32_t *v, size_t j, uint32_t *cost)
{
    if (l == h) {
        if (l == NONE)
            return NONE;
        ++*cost;
        return v[j] == v[l] ? NONE : l;
    }
    if (l != NONE) {
        ++*cost;
        if (v[j] <= v[l])
            return l;
    }
    if (h != NONE) {
        ++*cost;
        if (v[j] >= v[h])
            return h;
    }
    return NONE;
}

static void witnesses(const int32_t *p, size_t m, struct tables *t)
{
    size_t start = 1, end = 1;
    uint32_t cost = 0;
    t->witness_i[0] = t->witness_j[0] = NONE;
    for (size_t a = 1; a < m; a++) {
        size_t j = 0;
        uint16_t i = NONE;
        if (a < end) {
            if (t->witness_j[a - start] < end - a) {
                t->witness_i[a] = t->witness_i[a - start];
                t->witness_j[a] = t->witness_j[a - start];
                continue;
            }
            j = end - a;
        }
        while (a + j < m && (i = failing(t->low[j], t->high[j], p + a, j, &cost)) == NONE)
            j++;
        t->witness_i[a] = i;
        t->witness_j[a] = a + j < m ? (uint16_t)j : NONE;
        if (end < a + j) {
            start = a;
            end = a + j;
        }
    }
}

int same_prepare(const int32_t *p, size_t m, struct tables *t)
{
    if (first_lost(p, 0, m) < m)
        return 0;
    neighbours(p, m, t->low, t->high);
    witnesses(p, m, t);
    return 1;
}

/* The windows of a stretch arrive, and those kept join the stack. None of them duels with a window of an earlier stretch, since it lies
 * more than m away. */
BY_ITSELF size_t duels(const int32_t *p, size_t m, const struct tables *t, const int32_t *trace, size_t from, size_t end,
                       uint32_t *stack, size_t kept, uint32_t *fought)
{
    size_t stop = end - m + 1;
    uint32_t d = 0;
    for (size_t y = from; y < stop; y++) {
        int push = 1;
        while (kept) {
            size_t a = y - stack[kept - 1];
            uint16_t i, j;
            int seen, newer, older;
            if (a >= m || (i = t->witness_i[a]) == NONE)
                break;
            j = t->witness_j[a];
            d++;
            seen = relation(trace[y + i], trace[y + j]);
            older = seen == relation(p[a + i], p[a + j]);
            newer = !older && seen == relation(p[i], p[j]);
            if (!older)
                kept--;
            if (!newer) {
                push = 0;
                break;
            }
        }
        if (push)
            stack[kept++] = (uint32_t)y;
    }
    *fought += d;
    return kept;
}

static size_t sweep(size_t m, const struct tables *t, const int32_t *trace, const uint32_t *survivors, size_t kept,
                    uint32_t *positions, uint32_t *spent)
{
    size_t reach = 0, found = 0;
    uint32_t cost = 0;
    for (size_t k = 0; k < kept; k++) {
        size_t x = survivors[k], stop = x + m;
        if (reach < x)
            reach = x;
        while (reach < stop && failing(t->low[reach - x], t->high[reach - x], trace + x, reach - x, &cost) == NONE)
            reach++;
        if (reach == stop)
            positions[found++] = (uint32_t)x;
    }
    *spent = cost;
    return found;
}

int same_search(const int32_t *p, size_t m, const struct tables *t, const int32_t *trace, size_t n, uint32_t *survivors,
                uint32_t *positions, struct counts *c)
{
    struct tables own;
    struct stretch s = {0, 0, 0};
    size_t windows = m <= n ? n - m + 1 : 0, arrived = 0, kept = 0, k;
    if (!same_prepare(p, m, &own) || memcmp(own.low, t->low, 2 * m) || memcmp(own.high, t->high, 2 * m) ||
        memcmp(own.witness_i, t->witness_i, 2 * m) || memcmp(own.witness_j, t->witness_j, 2 * m))
        return 0;
    c->windows = (uint32_t)windows;
    c->duels = 0;
    while (next_stretch(trace, n, m, &s)) {
        arrived += s.end - s.from - m + 1;
        kept = duels(p, m, t, trace, s.from, s.end, survivors, kept, &c->duels);
    }
    c->struck = (uint32_t)(windows - arrived);
    c->survivors = (uint32_t)kept;
    c->found = (uint32_t)sweep(m, t, trace, survivors, kept, positions, &c->sweep);
    for (k = c->survivors; k < windows; k++)
        survivors[k] = 4294967295u;
    for (k = c->found; k < windows; k++)
        positions[k] = 4294967295u;
    return 1;
}

void kmp_prepare(const int32_t *p, size_t m, const struct tables *t, uint16_t *fail)
{
    size_t k = 0;
    uint32_t cost = 0;
    fail[0] = 0;
    fail[1] = 0;
    for (size_t q = 1; q < m; q++) {
        while (k > 0 && failing(t->low[k], t->high[k], p + q - k, k, &cost) != NONE)
            k = fail[k];
        k++;
        fail[q + 1] = (uint16_t)k;
    }
}

BY_ITSELF size_t kmp_stretch(size_t m, const struct tables *t, const uint16_t *fail, const int32_t *trace, size_t from, size_t end,
                             uint32_t *positions)
{
    size_t q = 0, found = 0;
    uint32_t cost = 0;
    for (size_t i = from; i < end; i++) {
        while (q > 0 && failing(t->low[q], t->high[q], trace + i - q, q, &cost) != NONE)
            q = fail[q];
        q++;
        if (q == m) {
            positions[found++] = (uint32_t)(i + 1 - m);
            q = fail[q];
        }
    }
    return found;
}

size_t kmp_search(size_t m, const struct tables *t, const uint16_t *fail, const int32_t *trace, size_t n, uint32_t *positions)
{
    struct stretch s = {0, 0, 0};
    size_t found = 0;
    while (next_stretch(trace, n, m, &s))
        found += kmp_stretch(m, t, fail, trace, s.from, s.end, positions + found);
    return found;
}

BY_ITSELF size_t naive_stretch(size_t m, const struct tables *t, const int32_t *trace, size_t from, size_t end, uint32_t *positions)
{
    size_t found = 0;
    uint32_t cost = 0;
    for (size_t x = from; x + m <= end; x++) {
        size_t j = 0;
        while (j < m && failing(t->low[j], t->high[j], trace + x, j, &cost) == NONE)
            j++;
        if (j == m)
            positions[found++] = (uint32_t)x;
    }
    return found;
}

size_t naive_search(size_t m, const struct tables *t, const int32_t *trace, size_t n, uint32_t *positions)
{
    struct stretch s = {0, 0, 0};
    size_t found = 0;
    while (next_stretch(trace, n, m, &s))
        found += naive_stretch(m, t, trace, s.from, s.end, positions + found);
    return found;
}

/* A sample of a patch and its neighbours: where they stand in the frame, from the patch's first sample on. */
struct step {
    uint32_t at, low, high;
};

#define NOWHERE UINT32_MAX

static void make_steps(const uint16_t *patch, size_t h, size_t k, size_t pitch, struct step *steps)
{
    int32_t p[LONGEST] = {0};
    uint16_t low[LONGEST], high[LONGEST];
    for (size_t j = 0; j < h * k; j++)
        p[j] = patch[j];
    neighbours(p, h * k, low, high);
    for (size_t j = 0; j < h * k; j++) {
        steps[j].at = (uint32_t)(j / k * pitch + j % k);
        steps[j].low = low[j] == NONE ? NOWHERE : steps[low[j]].at;
        steps[j].high = high[j] == NONE ? NOWHERE : steps[high[j]].at;
    }
}

/* Whether a sample, not the first, stands to its neighbours in a frame from v on as it does in the patch. */
static inline int stands(const struct step *s, const uint16_t *v)
{
    uint16_t x = v[s->at];
    if (s->low == s->high)
        return x == v[s->low];
    if (s->low != NOWHERE && x <= v[s->low])
        return 0;
    return s->high == NOWHERE || x < v[s->high];
}

size_t plain_frame(const uint16_t *restrict frame, size_t height, size_t width, size_t pitch, const uint16_t *restrict patch, size_t h,
                   size_t k, uint32_t *restrict positions, size_t *restrict places)
{
    struct step steps[LONGEST];
    size_t m = h * k, found = 0;
    *places = h <= height && k <= width ? (height - h + 1) * (width - k + 1) : 0;
    if (*places == 0)
        return 0;
    make_steps(patch, h, k, pitch, steps);
    for (size_t r = 0; r + h <= height; r++)
        for (size_t c = 0; c + k <= width; c++) {
            const uint16_t *v = frame + r * pitch + c;
            size_t j = 1;
            while (j < m && stands(&steps[j], v))
                j++;
            if (j >= m)
                positions[found++] = (uint32_t)(r * width + c);
        }
    for (size_t i = found; i < *places; i++)
        positions[i] = 4294967295u;
    return found;
}
