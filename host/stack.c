/*
 * stack.c - measures the stack that the calls take: each runs on a painted stack, and what is no longer painted below the caller's
 * frame was used. The path of a call depends on the pattern, the tables and the lengths, and on the patch and the columns that are tried
 * in a frame, so all kinds of these are tried.
 *
 * Prints a line for each group of calls: the most bytes that one took, the first that took them, the limit of docs/HOST.md, and how
 * many of the bytes were written. Ends with status 1 where a call takes or writes more than its limit or answers anything but what
 * it must. So it does where a call writes no more than one with smaller arrays may: the limits would then no longer show that a
 * trace is searched in larger arrays than it needs, which the proofs allow.
 */
#define _GNU_SOURCE
#include <stdarg.h>
#include <stdio.h>
#include <stdlib.h>
#include <string.h>
#include <ucontext.h>

#include "tension.h"

/* Exported and in no header: docs/HOST.md says what for. */
uint64_t tension_search_large(const uint8_t *pattern, size_t pattern_bytes, const uint8_t *low, size_t low_bytes,
                              const uint8_t *high, size_t high_bytes, const uint8_t *witness_i, size_t witness_i_bytes,
                              const uint8_t *witness_j, size_t witness_j_bytes, const uint8_t *trace, size_t trace_bytes,
                              uint8_t *survivors, size_t survivors_bytes, uint8_t *positions, size_t positions_bytes,
                              uint8_t *counts, size_t counts_bytes);

/*
 * Groups of calls, and what holds for each call of a group: it takes no more than `limit` bytes of stack, and of these it writes more
 * than `above` and, where `written` is not 0, no more than that. Searches are grouped by the size of their arrays, which are cleared
 * first. The two small sizes have one limit, so only the bytes that are written tell them apart.
 */
enum {
    PREPARED, PREPARE_REFUSED,
    BRIEF, BRIEF_FOREIGN,
    SMALL, SMALL_FOREIGN, SMALL_REFUSED,
    LONG, LONG_FOREIGN, LONG_REFUSED,
    LARGE, LARGE_REFUSED,
    READ, READ_REFUSED,
    WRITTEN, WRITE_REFUSED,
    FRAME, FRAME_REFUSED,
    GROUPS
};

enum {
    RECORDING_LIMIT = 200,
    PREPARE_LIMIT = 15000,
    BRIEF_WRITTEN = 30000,
    FRAME_LIMIT = 32000,
    SMALL_LIMIT = 54000,
    LARGE_LIMIT = 960000
};

static const struct group {
    const char *what;
    size_t limit, above, written;
} groups[GROUPS] = {
    [PREPARED] = {"tension_prepare", PREPARE_LIMIT, 0, 0},
    [PREPARE_REFUSED] = {"tension_prepare, refused", PREPARE_LIMIT, 0, 0},
    [BRIEF] = {"tension_search, trace up to 256", SMALL_LIMIT, 0, BRIEF_WRITTEN},
    [BRIEF_FOREIGN] = {"tension_search, trace up to 256, foreign entry", SMALL_LIMIT, 0, BRIEF_WRITTEN},
    [SMALL] = {"tension_search, trace 257 to 2048", SMALL_LIMIT, BRIEF_WRITTEN, 0},
    [SMALL_FOREIGN] = {"tension_search, trace 257 to 2048, foreign entry", SMALL_LIMIT, BRIEF_WRITTEN, 0},
    [SMALL_REFUSED] = {"tension_search, trace up to 2048, refused before the tables' check", SMALL_LIMIT, 0, 0},
    [LONG] = {"tension_search, longer trace", LARGE_LIMIT, SMALL_LIMIT, 0},
    [LONG_FOREIGN] = {"tension_search, longer trace, foreign entry", LARGE_LIMIT, SMALL_LIMIT, 0},
    [LONG_REFUSED] = {"tension_search, longer trace, refused before the tables' check", LARGE_LIMIT, 0, 0},
    [LARGE] = {"tension_search_large", LARGE_LIMIT, SMALL_LIMIT, 0},
    [LARGE_REFUSED] = {"tension_search_large, refused before the tables' check", LARGE_LIMIT, 0, 0},
    [READ] = {"tension_read", RECORDING_LIMIT, 0, 0},
    [READ_REFUSED] = {"tension_read, refused", RECORDING_LIMIT, 0, 0},
    [WRITTEN] = {"tension_write", RECORDING_LIMIT, 0, 0},
    [WRITE_REFUSED] = {"tension_write, refused", RECORDING_LIMIT, 0, 0},
    [FRAME] = {"tension_frame", FRAME_LIMIT, 0, 0},
    [FRAME_REFUSED] = {"tension_frame, refused", FRAME_LIMIT, 0, 0},
};

/* A number of bytes, and the call that it was seen at. */
struct seen {
    size_t bytes;
    char at[128];
};

/* Of each group: the most bytes of stack that a call took, and the most and the fewest that one wrote. */
static struct seen most[GROUPS], fullest[GROUPS], emptiest[GROUPS];

/* The buffers of a call, each with room for the longest recording and one sample more, and the bytes of it that are handed over. */
enum { PATTERN, LOW, HIGH, WITNESS_I, WITNESS_J, TRACE, SURVIVORS, POSITIONS, COUNTS, FILE_BYTES, BUFFERS };

static uint8_t buffers[BUFFERS][TENSION_RECORDING_BYTES(TENSION_TRACE_LIMIT + 1)];
static size_t bytes[BUFFERS];
static uint64_t answer;

#define BUFFER(b) buffers[b], bytes[b]
#define TABLES BUFFER(LOW), BUFFER(HIGH), BUFFER(WITNESS_I), BUFFER(WITNESS_J)
#define LISTS BUFFER(SURVIVORS), BUFFER(POSITIONS), BUFFER(COUNTS)

static void prepare(void)
{
    answer = tension_prepare(BUFFER(PATTERN), TABLES);
}

static void search(void)
{
    answer = tension_search(BUFFER(PATTERN), TABLES, BUFFER(TRACE), LISTS);
}

static void search_large(void)
{
    answer = tension_search_large(BUFFER(PATTERN), TABLES, BUFFER(TRACE), LISTS);
}

/* What reading and writing take beside the bytes of a file. */
static int32_t samples[TENSION_RECORDING_LIMIT + 1];
static size_t sample_count, in_use, stored[2];

static void read_file(void)
{
    answer = tension_read(BUFFER(FILE_BYTES), samples, sample_count, &stored[0], &stored[1]);
}

static void write_file(void)
{
    answer = tension_write(BUFFER(FILE_BYTES), in_use, samples, sample_count, &stored[0]);
}

/* What a search of a frame takes: buffers with room for the largest frame and its margins, and the numbers handed over. */
enum { MARGIN = 7 };

static uint16_t grey[TENSION_FRAME_LIMIT * (TENSION_FRAME_LIMIT + MARGIN)], patch[TENSION_PATCH_LIMIT];
static uint32_t places[TENSION_FRAME_LIMIT * TENSION_FRAME_LIMIT];

static struct scene {
    size_t samples, height, width, pitch, patch, h, k, places;
} scene;

static void search_frame(void)
{
    answer = tension_frame(grey, scene.samples, scene.height, scene.width, scene.pitch, patch, scene.patch, scene.h, scene.k,
                           places, scene.places, &stored[0], &stored[1]);
}

/* The painted stack, in words that no call is likely to leave there. Below `lowest` nothing has been touched since it was painted. */
enum { WORDS = (2 << 20) / 8 };

static uint64_t stack[WORDS], *lowest = stack;
static const uint64_t paint = 0x5C3A96E1D2780F4B;
static ucontext_t outside, inside;
static void (*call)(void);
static uint8_t *frame;

static void start(void)
{
    frame = __builtin_frame_address(0);
    call();
}

/* Makes a call: the bytes of stack that it takes below the frame that makes it, its arguments among them, and how many it writes. */
static size_t used(void (*what)(void), size_t *written)
{
    uint64_t *word;

    for (word = lowest; word < stack + WORDS; word++)
        *word = paint;
    call = what;
    getcontext(&inside);
    inside.uc_stack.ss_sp = stack;
    inside.uc_stack.ss_size = sizeof stack;
    inside.uc_link = &outside;
    makecontext(&inside, start, 0);
    swapcontext(&outside, &inside);
    for (lowest = stack; *lowest == paint; lowest++)
        ;
    if (lowest == stack) {
        fprintf(stderr, "a call took all of the painted stack\n");
        exit(1);
    }
    *written = 0;
    for (word = lowest; (uint8_t *)word < frame; word++)
        *written += *word == paint ? 0 : sizeof *word;
    return (size_t)(frame - (uint8_t *)lowest);
}

static void note(struct seen *seen, size_t count, const char *name)
{
    seen->bytes = count;
    snprintf(seen->at, sizeof seen->at, "%s", name);
}

/* Makes a call, holds its answer to the one that it must give, and notes its bytes in a group. The format names the call. */
__attribute__((format(printf, 4, 5))) static void measure(int group, void (*what)(void), uint64_t must, const char *format, ...)
{
    char name[128];
    size_t taken, written;
    va_list parts;

    va_start(parts, format);
    vsnprintf(name, sizeof name, format, parts);
    va_end(parts);
    answer = ~must;
    taken = used(what, &written);
    if (answer != must) {
        fprintf(stderr, "%s (%s): answers %u, place %u, and must answer %u, place %u\n", groups[group].what, name,
                TENSION_NUMBER(answer), TENSION_PLACE(answer), TENSION_NUMBER(must), TENSION_PLACE(must));
        exit(1);
    }
    if (emptiest[group].bytes == 0 || written < emptiest[group].bytes)
        note(&emptiest[group], written, name);
    if (written > fullest[group].bytes)
        note(&fullest[group], written, name);
    if (taken > most[group].bytes)
        note(&most[group], taken, name);
}

static uint64_t refusal(uint32_t number, size_t place)
{
    return (uint64_t)number << 32 | place;
}

/* Kinds of patterns. The first three agree with themselves one sample on, so that windows beside each other have no duels. */
enum { LEVEL, RISING, FALLING, ALTERNATING, SAWTOOTH, TIED, RANDOM, KINDS };

static const char *const kinds[KINDS] = {"level", "rising", "falling", "alternating", "sawtooth", "tied", "random"};

static int32_t scrambled(size_t k)
{
    uint64_t x = (k + 1) * 0x9E3779B97F4A7C15;
    x = (x ^ x >> 29) * 0xBF58476D1CE4E5B9;
    return (int32_t)(uint32_t)(x >> 32);
}

static int32_t sample(int kind, size_t k)
{
    switch (kind) {
    case LEVEL: return 5;
    case RISING: return (int32_t)k;
    case FALLING: return -(int32_t)k;
    case ALTERNATING: return (int32_t)(k % 2);
    case SAWTOOTH: return (int32_t)(k % 37);
    case TIED: return scrambled(k) & 3;
    default: return scrambled(k);
    }
}

/*
 * Kinds of traces: the pattern's kind throughout, the pattern time after time, the pattern's kind with some samples moved, with some
 * lost, noise. Lost stitches are so close that they strike some windows of a pattern of 100 and all of one of 1,024.
 */
enum { THROUGHOUT, REPEATED, BROKEN, LOSING, NOISE, TRACES };

static const char *const traces[TRACES] = {"on and on", "repeated", "broken", "lost stitches", "noise"};

static int32_t trace_sample(int trace, int kind, size_t m, size_t k)
{
    switch (trace) {
    case THROUGHOUT: return sample(kind, k);
    case REPEATED: return sample(kind, k % m);
    case BROKEN: return k % 149 == 148 ? scrambled(k) : sample(kind, k);
    case LOSING: return k % 149 == 148 ? TENSION_LOST : sample(kind, k);
    default: return scrambled(k + TENSION_TRACE_LIMIT);
    }
}

static void put_sample(int buffer, size_t k, int32_t value)
{
    uint32_t bits = (uint32_t)value;
    int b;
    for (b = 0; b < 4; b++)
        buffers[buffer][4 * k + b] = (uint8_t)(bits >> 8 * b);
}

static void put_entry(int table, size_t k, unsigned value)
{
    buffers[table][2 * k] = (uint8_t)value;
    buffers[table][2 * k + 1] = (uint8_t)(value >> 8);
}

static unsigned entry(int table, size_t k)
{
    return buffers[table][2 * k] | (unsigned)buffers[table][2 * k + 1] << 8;
}

/* Lengths that fit: a pattern of m samples and a trace of n, with every list as long as it can be. */
static void fit(size_t m, size_t n)
{
    int b;
    bytes[PATTERN] = 4 * m;
    for (b = LOW; b <= WITNESS_J; b++)
        bytes[b] = 2 * TENSION_PATTERN_LIMIT;
    bytes[TRACE] = 4 * n;
    bytes[SURVIVORS] = bytes[POSITIONS] = 4 * TENSION_TRACE_LIMIT;
    bytes[COUNTS] = 4 * TENSION_COUNTS;
}

/* Whether the search in large arrays is tried on a trace of n samples too: on some, since it takes the same arrays for all. */
static int also_large(size_t n)
{
    return n % 256 == 0;
}

/* Searches with the pattern's own tables. */
static void own_searches(int kind, size_t m, int trace, size_t n)
{
    static const char *const format = "%s pattern of %zu, trace of %zu, %s";
    int group = n <= 256 ? BRIEF : n <= 2048 ? SMALL : LONG;

    fit(m, n);
    measure(group, search, TENSION_ACCEPTED, format, kinds[kind], m, n, traces[trace]);
    if (also_large(n))
        measure(LARGE, search_large, TENSION_ACCEPTED, format, kinds[kind], m, n, traces[trace]);
}

/*
 * Searches with a foreign entry in each table, at its start or its end: none where a place was named and one where none was, or
 * another place. Foreign neighbours have the pattern's own written inside, foreign witnesses its witnesses.
 */
static void foreign_searches(int kind, size_t m, size_t n)
{
    static const char *const tables[BUFFERS] = {[LOW] = "low", [HIGH] = "high", [WITNESS_I] = "witness i", [WITNESS_J] = "witness j"};
    static const char *const format = "%s pattern of %zu, trace of %zu, %s %zu is %u";
    int group = n <= 256 ? BRIEF_FOREIGN : n <= 2048 ? SMALL_FOREIGN : LONG_FOREIGN, table, way;

    fit(m, n);
    for (table = LOW; table <= WITNESS_J; table++)
        for (way = 0; way < 4; way++) {
            size_t at = way & 1 ? m - 1 : 0;
            unsigned own = entry(table, at), other = way & 2 ? own ^ 1 : own == TENSION_NONE ? 0 : TENSION_NONE;
            uint64_t must = refusal(TENSION_FOREIGN_LOW + (table - LOW), at);

            put_entry(table, at, other);
            measure(group, search, must, format, kinds[kind], m, n, tables[table], at, other);
            if (also_large(n))
                measure(LARGE, search_large, must, format, kinds[kind], m, n, tables[table], at, other);
            put_entry(table, at, own);
        }
}

/* A call that fits but for the length of one buffer, and so is refused. */
static void refuse(void (*what)(void), size_t m, size_t n, int buffer, size_t length, uint32_t number, size_t place)
{
    int group = PREPARE_REFUSED;

    fit(m, n);
    bytes[buffer] = length;
    if (what == search)
        group = bytes[TRACE] / 4 <= 2048 ? SMALL_REFUSED : LONG_REFUSED;
    if (what == search_large)
        group = LARGE_REFUSED;
    measure(group, what, refusal(number, place), "pattern of %zu, trace of %zu, refusal %u", bytes[PATTERN] / 4, bytes[TRACE] / 4,
            number);
}

/* A call that fits but for one sample of the pattern, which is a lost stitch. */
static void refuse_lost(void (*what)(void), size_t m, size_t n, size_t at)
{
    uint8_t own[4];

    memcpy(own, buffers[PATTERN] + 4 * at, sizeof own);
    put_sample(PATTERN, at, TENSION_LOST);
    refuse(what, m, n, PATTERN, 4 * m, TENSION_LOST_STITCH, at);
    memcpy(buffers[PATTERN] + 4 * at, own, sizeof own);
}

static void refusals(void (*what)(void), size_t m, size_t n)
{
    size_t windows = n < m ? 0 : n - m + 1;
    int table;

    refuse(what, m, n, PATTERN, 3, TENSION_EMPTY_PATTERN, 0);
    refuse(what, m, n, PATTERN, 4 * (TENSION_PATTERN_LIMIT + 1), TENSION_LONG_PATTERN, TENSION_PATTERN_LIMIT + 1);
    refuse_lost(what, m, n, 0);
    refuse_lost(what, m, n, m - 1);
    for (table = LOW; table <= WITNESS_J; table++)
        refuse(what, m, n, table, 2 * m - 1, TENSION_SHORT_TABLE, (size_t)(table - LOW + 1));
    if (what == prepare)
        return;
    refuse(what, m, n, TRACE, 4 * (TENSION_TRACE_LIMIT + 1), TENSION_LONG_TRACE, TENSION_TRACE_LIMIT + 1);
    if (windows == 0)
        return;
    refuse(what, m, n, SURVIVORS, 4 * windows - 1, TENSION_SHORT_SURVIVORS, windows);
    refuse(what, m, n, POSITIONS, 4 * windows - 1, TENSION_SHORT_POSITIONS, windows);
}

/* Writes a recording behind so many bytes and reads it again; then both calls, refused by each of their numbers. */
static void recordings(size_t count, size_t lead)
{
    static const char *const format = "%zu samples behind %zu bytes, refusal %u";
    size_t end = lead + TENSION_RECORDING_BYTES(count);
    uint8_t *trailer = buffers[FILE_BYTES] + end - 12;

    sample_count = count;
    bytes[FILE_BYTES] = end;
    in_use = lead;
    measure(WRITTEN, write_file, TENSION_ACCEPTED, format, count, lead, 0u);
    measure(READ, read_file, TENSION_ACCEPTED, format, count, lead, 0u);
    if (count > 0) {
        sample_count = count - 1;
        measure(READ_REFUSED, read_file, refusal(TENSION_SHORT_SAMPLES, count), format, count, lead, (unsigned)TENSION_SHORT_SAMPLES);
    }
    sample_count = count;
    trailer[7] ^= 64; /* the count's highest byte: four times such a count needs more than 32 bits */
    measure(READ_REFUSED, read_file, refusal(TENSION_WRONG_DISTANCE, end - 12), format, count, lead, (unsigned)TENSION_WRONG_DISTANCE);
    trailer[7] ^= 64;
    if (count > 0 && lead == 0) {
        memmove(buffers[FILE_BYTES], trailer, 12);
        bytes[FILE_BYTES] = 12;
        measure(READ_REFUSED, read_file, refusal(TENSION_LONG_DISTANCE, 0), format, count, lead, (unsigned)TENSION_LONG_DISTANCE);
        bytes[FILE_BYTES] = end;
    }
    trailer[8] ^= 1;
    measure(READ_REFUSED, read_file, refusal(TENSION_WRONG_MARK, end - 4), format, count, lead, (unsigned)TENSION_WRONG_MARK);
    bytes[FILE_BYTES] = 11;
    measure(READ_REFUSED, read_file, refusal(TENSION_SHORT_RECORDING, 11), format, count, lead, (unsigned)TENSION_SHORT_RECORDING);
    bytes[FILE_BYTES] = end - 1;
    measure(WRITE_REFUSED, write_file, refusal(TENSION_SHORT_BUFFER, 0), format, count, lead, (unsigned)TENSION_SHORT_BUFFER);
    sample_count = TENSION_RECORDING_LIMIT + 1;
    measure(WRITE_REFUSED, write_file, refusal(TENSION_MANY_SAMPLES, 0), format, count, lead, (unsigned)TENSION_MANY_SAMPLES);
    in_use = end;
    measure(WRITE_REFUSED, write_file, refusal(TENSION_LONG_LEAD, 0), format, count, lead, (unsigned)TENSION_LONG_LEAD);
}

/* A frame of a kind, rows MARGIN further apart than they are wide, and a patch that is its middle or, where it doesn't fit, of its kind. */
static void fill_scene(int kind, size_t height, size_t width, size_t h, size_t k)
{
    int fits = h <= height && k <= width;
    size_t j, pitch = width + MARGIN, middle = fits ? (height - h) / 2 * pitch + (width - k) / 2 : 0;

    for (j = 0; j < height * pitch; j++)
        grey[j] = (uint16_t)sample(kind, j / pitch * width + j % pitch);
    for (j = 0; j < h * k; j++)
        patch[j] = fits ? grey[middle + j / k * pitch + j % k] : (uint16_t)sample(kind, j);
    scene = (struct scene){TENSION_FRAME_SAMPLES(height, width, pitch), height, width, pitch, h * k, h, k,
                           TENSION_FRAME_PLACES(height, width, h, k)};
}

/* A search that is accepted as it is and, with one of its numbers changed, refused. */
static void refuse_scene(size_t *number, size_t value, uint32_t refused)
{
    size_t own = *number;

    *number = value;
    measure(FRAME_REFUSED, search_frame, refusal(refused, 0), "frame of %zu x %zu, patch of %zu x %zu, refusal %u", scene.height,
            scene.width, scene.h, scene.k, (unsigned)refused);
    *number = own;
}

static void refuse_scenes(void)
{
    size_t *const sizes[] = {&scene.height, &scene.width, &scene.h, &scene.k};
    int k;

    for (k = 0; k < 4; k++) {
        refuse_scene(sizes[k], 0, TENSION_ZERO_SIZE);
        refuse_scene(sizes[k], TENSION_FRAME_LIMIT + 1, TENSION_LARGE_SIZE);
        refuse_scene(sizes[k], (size_t)-1, TENSION_LARGE_SIZE);
    }
    refuse_scene(&scene.pitch, scene.width - 1, TENSION_NARROW_PITCH);
    refuse_scene(&scene.samples, scene.samples - 1, TENSION_SHORT_FRAME);
    refuse_scene(&scene.patch, scene.patch - 1, TENSION_SHORT_FRAME);
    if (scene.height > 1)
        refuse_scene(&scene.pitch, (size_t)-1, TENSION_SHORT_FRAME);
    if (scene.places > 0)
        refuse_scene(&scene.places, scene.places - 1, TENSION_SHORT_PLACES);
}

/*
 * Frames in which one column is tried, some, and all that a frame can have; patches of one sample, as large as they can be in one row and
 * in 32, and of sizes between; and some that are taller or wider than the frame.
 */
static void frames(int kind)
{
    static const size_t sizes[][2] = {{1, 1}, {3, 63}, {40, 65}, {34, 96}, {33, 200}, {2, TENSION_FRAME_LIMIT}};
    static const size_t patches[][2] = {{1, 1}, {2, 2}, {3, 5}, {8, 8}, {32, 32}, {31, 33}, {1, TENSION_PATCH_LIMIT}};
    enum { SIZES = sizeof sizes / sizeof *sizes, PATCHES = sizeof patches / sizeof *patches };
    int s, p;

    for (s = 0; s < SIZES; s++)
        for (p = 0; p < PATCHES; p++) {
            fill_scene(kind, sizes[s][0], sizes[s][1], patches[p][0], patches[p][1]);
            measure(FRAME, search_frame, TENSION_ACCEPTED, "%s frame of %zu x %zu, patch of %zu x %zu", kinds[kind], scene.height,
                    scene.width, scene.h, scene.k);
            refuse_scenes();
        }
}

/* Says of a group what is wrong with it. */
static int wrong(int group, const char *what, const struct seen *seen, size_t limit)
{
    printf("%s: %s: %zu, limit %zu (%s)\n", groups[group].what, what, seen->bytes, limit, seen->at);
    return 0;
}

/* Prints the line of a group, and whether it keeps to its limits. */
static int within(int g)
{
    const struct group *group = &groups[g];
    int good = 1;

    printf("%s: %zu bytes of stack (%s), limit %zu; written %zu to %zu", group->what, most[g].bytes, most[g].at, group->limit,
           emptiest[g].bytes, fullest[g].bytes);
    if (group->written != 0)
        printf(", limit %zu", group->written);
    printf("\n");
    if (most[g].bytes > group->limit)
        good = wrong(g, "TOO MANY BYTES OF STACK", &most[g], group->limit);
    if (group->written != 0 && fullest[g].bytes > group->written)
        good = wrong(g, "TOO MANY BYTES WRITTEN", &fullest[g], group->written);
    if (emptiest[g].bytes <= group->above)
        good = wrong(g, "NO MORE BYTES WRITTEN THAN IN SMALLER ARRAYS", &emptiest[g], group->above);
    return good;
}

int main(void)
{
    static const size_t patterns[] = {1, 4, 100, TENSION_PATTERN_LIMIT};
    static const size_t lengths[] = {0, 1, 255, 256, 257, 2047, 2048, 2049, 65535, TENSION_TRACE_LIMIT};
    enum { PATTERNS = sizeof patterns / sizeof *patterns, LENGTHS = sizeof lengths / sizeof *lengths };
    int kind, p, l, trace, g, good = 1;
    size_t k, m;

    for (kind = 0; kind < KINDS; kind++)
        for (p = 0; p < PATTERNS; p++) {
            m = patterns[p];
            for (k = 0; k < m; k++)
                put_sample(PATTERN, k, sample(kind, k));
            fit(m, 0);
            measure(PREPARED, prepare, TENSION_ACCEPTED, "%s pattern of %zu", kinds[kind], m);
            for (trace = 0; trace < TRACES; trace++) {
                for (k = 0; k < TENSION_TRACE_LIMIT; k++)
                    put_sample(TRACE, k, trace_sample(trace, kind, m, k));
                for (l = 0; l < LENGTHS; l++)
                    own_searches(kind, m, trace, lengths[l]);
            }
            for (l = 0; l < LENGTHS; l++)
                foreign_searches(kind, m, lengths[l]);
        }
    for (p = 0; p < PATTERNS; p++)
        for (l = 0; l < LENGTHS; l++) {
            refusals(prepare, patterns[p], lengths[l]);
            refusals(search, patterns[p], lengths[l]);
            refusals(search_large, patterns[p], lengths[l]);
        }
    for (k = 0; k < 2; k++) {
        recordings(0, k);
        recordings(1, k);
        recordings(1000, k);
        recordings(TENSION_RECORDING_LIMIT, k);
    }
    for (kind = 0; kind < KINDS; kind++)
        frames(kind);
    fill_scene(RANDOM, TENSION_FRAME_LIMIT, TENSION_FRAME_LIMIT, 4, 4);
    measure(FRAME, search_frame, TENSION_ACCEPTED, "the largest frame");
    for (g = 0; g < GROUPS; g++)
        good &= within(g);
    return good ? 0 : 1;
}
