/*
 * replay.c - the host's tests: reads a stream of cases from standard input (reference/README.md has the format), makes each call
 * of the C entry points, and writes the answers and buffers to standard output in the reference's words, to be compared.
 *
 *     replay [--front]
 *
 * Beside that it looks at every byte itself: each buffer ends right at memory that can't be touched, or begins right after it with
 * --front, and guard bytes stand at its other end; each buffer has some bytes left over at its end, what is only read must stay,
 * and the counts buffer is tried at every length. A frame is searched a second time with other samples wherever none counts. With
 * --front an empty buffer is given as a null pointer. A fault ends the run with status 1.
 */
#define _DEFAULT_SOURCE /* MAP_ANONYMOUS */
#include <signal.h>
#include <stdio.h>
#include <stdlib.h>
#include <string.h>
#include <sys/mman.h>

#include "tension.h"

enum { TABLE = 1100, GUARD = 16, FILL = 0xAA };

/*
 * The buffers of one case lie in rooms, one in each, with an edge on either side that can't be touched. A room takes 65,600
 * samples, the longest trace of a case; behind these rooms are a few large ones for what they don't take, the largest frame and its
 * list. All sizes are multiples of 64 KB, since memory is protected by pages and some machines have such large ones.
 */
enum { ROOMS = 14, LARGE_ROOMS = 2, EDGE = 1 << 16, ROOM = 5 << 16, LARGE = 5 << 20 };
enum { WHOLE = EDGE + ROOMS * (ROOM + EDGE) + LARGE_ROOMS * (LARGE + EDGE) };

static uint8_t *rooms, before[WHOLE], given[ROOM];
static int taken, large_taken, front;
static unsigned long cases;

static void fail(const char *what)
{
    fprintf(stderr, "case %lu: %s\n", cases, what);
    exit(1);
}

/* Emulators of x86-64 may hand over a stack that is not aligned. */
#ifdef __x86_64__
#define ALIGNED __attribute__((force_align_arg_pointer))
#else
#define ALIGNED
#endif

/* A touched edge: tells the case. */
ALIGNED static void touched(int number)
{
    (void)number;
    fail("a byte outside a buffer was read or written");
}

static size_t size(int k)
{
    return k < ROOMS ? ROOM : LARGE;
}

static uint8_t *room(int k)
{
    size_t at = EDGE;
    while (k-- > 0)
        at += size(k) + EDGE;
    return rooms + at;
}

static void build(void)
{
    int k;
    rooms = mmap(NULL, WHOLE, PROT_NONE, MAP_PRIVATE | MAP_ANONYMOUS, -1, 0);
    if (rooms == MAP_FAILED)
        fail("no memory");
    for (k = 0; k < ROOMS + LARGE_ROOMS; k++)
        if (mprotect(room(k), size(k), PROT_READ | PROT_WRITE) != 0)
            fail("no memory");
    signal(SIGSEGV, touched);
}

/* A buffer at one end of a room, with guard bytes on its other side, a copy of what it held, and bytes left over at its end. */
struct buffer {
    uint8_t *bytes, *guard, *before;
    size_t length, entries, width;
};

static void make(struct buffer *b, size_t entries, size_t width, size_t over)
{
    int k;
    b->entries = entries;
    b->width = width;
    b->length = entries * width + over % width;
    k = b->length + GUARD <= ROOM ? taken++ : ROOMS + large_taken++;
    if (taken > ROOMS || large_taken > LARGE_ROOMS || b->length + GUARD > LARGE)
        fail("no room for a buffer");
    b->bytes = front ? room(k) : room(k) + size(k) - b->length;
    b->guard = front ? b->bytes + b->length : b->bytes - GUARD;
    b->before = before + (b->bytes - rooms);
    memset(b->bytes, FILL, b->length);
    memset(b->guard, FILL, GUARD);
}

static void remember(struct buffer *b)
{
    memcpy(b->before, b->bytes, b->length);
}

static int same(const struct buffer *b)
{
    return memcmp(b->bytes, b->before, b->length) == 0;
}

/* Nothing outside the first `written` entries has changed. */
static void look(const struct buffer *b, size_t written)
{
    size_t k, from = written * b->width;
    for (k = 0; k < GUARD; k++)
        if (b->guard[k] != FILL)
            fail("a byte outside a buffer was written");
    if (from > b->length)
        from = b->length;
    if (memcmp(b->bytes + from, b->before + from, b->length - from) != 0)
        fail("a byte that should have stayed was written");
}

static uint32_t get(const struct buffer *b, size_t entry)
{
    const uint8_t *p = b->bytes + entry * b->width;
    uint32_t v = (uint32_t)p[0] | (uint32_t)p[1] << 8;
    return b->width == 2 ? v : v | (uint32_t)p[2] << 16 | (uint32_t)p[3] << 24;
}

static void put(struct buffer *b, size_t entry, uint32_t v)
{
    size_t k;
    for (k = 0; k < b->width; k++)
        b->bytes[entry * b->width + k] = (uint8_t)(v >> (8 * k));
}

static uint32_t number(int width)
{
    uint32_t v = 0;
    int k, c;
    for (k = 0; k < width; k++) {
        if ((c = getchar()) == EOF)
            fail("the stream ends early");
        v |= (uint32_t)c << (8 * k);
    }
    return v;
}

static uint64_t long_number(void)
{
    uint64_t v = number(4);
    return v | (uint64_t)number(4) << 32;
}

static void samples(struct buffer *b, size_t over)
{
    uint32_t count = number(4), width = number(1), k, v = 0;
    if (width == 0)
        v = number(4);
    make(b, count, 4, over);
    for (k = 0; k < count; k++) {
        if (width == 1)
            v = (uint32_t)(int32_t)(int8_t)number(1);
        else if (width == 4)
            v = number(4);
        put(b, k, v);
    }
    remember(b);
}

static void show(const char *name, const struct buffer *b)
{
    size_t k = 0, run;
    uint32_t guard = b->width == 2 ? 0xAAAAu : 0xAAAAAAAAu;
    printf("%s", name);
    while (k < b->entries) {
        uint32_t v = get(b, k);
        int mark = v == guard ? 'g' : b->width == 4 && v == TENSION_UNUSED ? 'u' : 0;
        if (!mark) {
            printf(" %lu", (unsigned long)v);
            k++;
            continue;
        }
        for (run = 0; k < b->entries && get(b, k) == v; run++)
            k++;
        printf(" %c%lu", mark, (unsigned long)run);
    }
    printf("\n");
}

/* What a call is given for a buffer: with --front a null pointer for an empty one. */
static uint8_t *lent(const struct buffer *b)
{
    return front && b->length == 0 ? NULL : b->bytes;
}

static uint64_t prepare(const struct buffer *pattern, const struct buffer *t)
{
    return tension_prepare(lent(pattern), pattern->length, lent(&t[0]), t[0].length, lent(&t[1]), t[1].length,
                           lent(&t[2]), t[2].length, lent(&t[3]), t[3].length);
}

static void prepare_case(void)
{
    static const char *names[4] = {"low", "high", "wi", "wj"};
    struct buffer pattern, t[4];
    uint64_t answer;
    int k;

    samples(&pattern, cases);
    for (k = 0; k < 4; k++) {
        make(&t[k], number(2), 2, cases / 2 + (unsigned)k);
        remember(&t[k]);
    }
    answer = prepare(&pattern, t);
    printf("prepare %lu %lu\n", (unsigned long)TENSION_NUMBER(answer), (unsigned long)TENSION_PLACE(answer));
    look(&pattern, 0);
    for (k = 0; k < 4; k++) {
        look(&t[k], answer ? 0 : pattern.entries);
        show(names[k], &t[k]);
    }
}

/* The buffers of a search; `few` is another for the counts, of any length. */
struct search {
    struct buffer pattern, t[4], trace, survivors, positions, counts, few;
};

/* The tables of a case: the pattern's own, with some entries damaged, in buffers of the lengths that the case has. */
static void make_tables(struct search *s)
{
    struct buffer full[4];
    uint32_t damages;
    int n;

    for (n = 0; n < 4; n++) {
        make(&full[n], TABLE, 2, 0);
        memset(full[n].bytes, 0, full[n].length);
    }
    prepare(&s->pattern, full);
    for (n = 0; n < 4; n++)
        make(&s->t[n], number(2), 2, cases + (unsigned)n);
    for (damages = number(1); damages > 0; damages--) {
        uint32_t table = number(1), entry = number(2), value = number(2);
        put(&full[table - 1], entry, value);
    }
    for (n = 0; n < 4; n++) {
        memcpy(s->t[n].bytes, full[n].bytes, 2 * s->t[n].entries);
        remember(&s->t[n]);
    }
}

static void read_search(struct search *s)
{
    samples(&s->pattern, cases / 3);
    number(1);
    make_tables(s);
    samples(&s->trace, cases / 5);
    make(&s->survivors, number(4), 4, cases / 2);
    make(&s->positions, number(4), 4, cases / 7);
    make(&s->counts, TENSION_COUNTS, 4, cases);
    make(&s->few, cases % (TENSION_COUNTS + 3), 4, cases / 11);
    remember(&s->survivors);
    remember(&s->positions);
    remember(&s->counts);
    remember(&s->few);
}

/* One call of the search, with a counts buffer of some length. */
static uint64_t call(const struct search *s, const struct buffer *counts)
{
    return tension_search(lent(&s->pattern), s->pattern.length, lent(&s->t[0]), s->t[0].length, lent(&s->t[1]),
                          s->t[1].length, lent(&s->t[2]), s->t[2].length, lent(&s->t[3]), s->t[3].length,
                          lent(&s->trace), s->trace.length, lent(&s->survivors), s->survivors.length,
                          lent(&s->positions), s->positions.length, lent(counts), counts->length);
}

/* Only what an accepted search writes has changed. */
static void look_at_search(const struct search *s, int accepted)
{
    size_t m = s->pattern.entries, n = s->trace.entries, windows = n < m ? 0 : n - m + 1;
    int k;
    look(&s->pattern, 0);
    look(&s->trace, 0);
    for (k = 0; k < 4; k++)
        look(&s->t[k], 0);
    look(&s->survivors, accepted ? windows : 0);
    look(&s->positions, accepted ? windows : 0);
    look(&s->counts, accepted ? TENSION_COUNTS : 0);
}

static void search_case(void)
{
    struct search s;
    uint64_t answer;
    uint32_t k;

    read_search(&s);
    answer = call(&s, &s.counts);
    printf("search %lu %lu", (unsigned long)TENSION_NUMBER(answer), (unsigned long)TENSION_PLACE(answer));
    for (k = 0; !answer && k < TENSION_COUNTS; k++)
        printf(" %lu", (unsigned long)get(&s.counts, k));
    printf("\n");
    look_at_search(&s, !answer);
    show("survivors", &s.survivors);
    show("positions", &s.positions);

    /* Again, with room for fewer counts, or for more. */
    if (call(&s, &s.few) != answer)
        fail("the same call answers otherwise");
    look(&s.few, answer ? 0 : TENSION_COUNTS);
    for (k = 0; !answer && k < s.few.entries && k < TENSION_COUNTS; k++)
        if (get(&s.few, k) != get(&s.counts, k))
            fail("a count depends on the buffer's length");
}

/* The bytes of a case, behind which the buffer holds guards. */
static size_t bytes_given(void)
{
    size_t length = number(4);
    if (length > ROOM || fread(given, 1, length, stdin) != length)
        fail("the bytes of a case don't fit, or end early");
    return length;
}

static void make_bytes(struct buffer *b, size_t length, size_t spare)
{
    make(b, length + spare, 1, 0);
    memcpy(b->bytes, given, length);
    remember(b);
}

static void show_samples(const struct buffer *b)
{
    size_t k = 0, run;
    printf("samples");
    while (k < b->entries) {
        uint32_t v = get(b, k);
        if (v != 0xAAAAAAAAu) {
            printf(" %ld", (long)(int32_t)v);
            k++;
            continue;
        }
        for (run = 0; k < b->entries && get(b, k) == v; run++)
            k++;
        printf(" g%lu", (unsigned long)run);
    }
    printf("\n");
}

/* Numbers that a call stores. */
static size_t *make_numbers(struct buffer *b, size_t count)
{
    make(b, count, sizeof(size_t), 0);
    remember(b);
    return (size_t *)(void *)b->bytes;
}

/* Reads the recording that ends with these bytes and shows it. Answers whether it was accepted, and where its first sample is. */
static int reading(const uint8_t *bytes, size_t length, size_t room_for, size_t *at)
{
    struct buffer samples, told;
    size_t *numbers;
    uint64_t answer;
    int free_room = taken;

    make(&samples, room_for, 4, 0);
    remember(&samples);
    numbers = make_numbers(&told, 2);
    answer = tension_read(bytes, length, (int32_t *)(void *)lent(&samples), room_for, &numbers[0], &numbers[1]);
    printf("read %lu %lu", (unsigned long)TENSION_NUMBER(answer), (unsigned long)TENSION_PLACE(answer));
    if (!answer)
        printf(" %lu %lu", (unsigned long)numbers[0], (unsigned long)numbers[1]);
    printf("\n");
    look(&samples, answer ? 0 : numbers[0]);
    look(&told, answer ? 0 : 2);
    show_samples(&samples);
    *at = numbers[1];
    taken = free_room;
    return !answer;
}

static void read_case(void)
{
    struct buffer bytes;
    size_t length = bytes_given(), at;
    make_bytes(&bytes, length, 0);
    reading(lent(&bytes), bytes.length, number(4), &at);
    look(&bytes, 0);
}

/* Writes, shows the whole buffer, and reads from its new length back what recordings there are, one before the other. */
static void write_case(void)
{
    struct buffer buffer, list, told;
    size_t length = bytes_given(), k, end, *stored;
    uint64_t in_use, answer;

    make_bytes(&buffer, length, number(4));
    in_use = long_number();
    samples(&list, 0);
    stored = make_numbers(&told, 1);
    answer = tension_write(lent(&buffer), buffer.length, in_use, (const int32_t *)(const void *)lent(&list), list.entries, stored);
    printf("write %lu %lu", (unsigned long)TENSION_NUMBER(answer), (unsigned long)TENSION_PLACE(answer));
    if (!answer)
        printf(" %lu", (unsigned long)*stored);
    printf("\nbytes ");
    for (k = 0; k < buffer.length; k++)
        printf("%02x", buffer.bytes[k]);
    printf("\n");
    look(&list, 0);
    look(&told, answer ? 0 : 1);
    look(&buffer, answer ? 0 : *stored);
    if (answer)
        return;
    if (memcmp(buffer.bytes, buffer.before, in_use) != 0)
        fail("a byte in use was written");
    for (end = *stored; reading(buffer.bytes, end, end / 4, &end);)
        ;
}

/* The arguments of a search in a frame; at `told` the call stores the places tried and the number found. */
struct frame {
    size_t height, width, pitch, h, k, *told;
    struct buffer samples, patch, positions, numbers;
};

/* Grey levels: those that are given, over and over. */
static void greys(struct buffer *b)
{
    uint32_t count = number(4), levels = number(4), width = number(1), k;
    make(b, count, 2, 0);
    if (levels > count || (levels == 0 && count > 0))
        fail("more or fewer grey levels than a buffer can start with");
    for (k = 0; k < count; k++)
        put(b, k, k < levels ? number((int)width) : get(b, k - levels));
    remember(b);
}

static void read_frame(struct frame *f)
{
    f->height = long_number();
    f->width = long_number();
    f->pitch = long_number();
    f->h = long_number();
    f->k = long_number();
    greys(&f->samples);
    greys(&f->patch);
    make(&f->positions, number(4), 4, 0);
    remember(&f->positions);
    f->told = make_numbers(&f->numbers, 2);
}

static uint64_t call_frame(const struct frame *f)
{
    return tension_frame((const uint16_t *)(const void *)lent(&f->samples), f->samples.entries, f->height, f->width, f->pitch,
                         (const uint16_t *)(const void *)lent(&f->patch), f->patch.entries, f->h, f->k,
                         (uint32_t *)(void *)lent(&f->positions), f->positions.entries, &f->told[0], &f->told[1]);
}

/* Only the list's first `places` entries have changed, and the two numbers if they were stored. */
static void look_at_frame(const struct frame *f, size_t places, int stored)
{
    look(&f->samples, 0);
    look(&f->patch, 0);
    look(&f->positions, places);
    look(&f->numbers, stored ? 2 : 0);
}

/*
 * Changes each sample that has no say: all of a refused call, since a refusal is told by numbers alone, and otherwise those between
 * the frame's rows, behind its last one and behind the patch.
 */
static void change(struct frame *f, int refused)
{
    size_t j;
    for (j = 0; j < f->samples.entries; j++)
        if (refused || j / f->pitch >= f->height || j % f->pitch >= f->width)
            put(&f->samples, j, ~get(&f->samples, j));
    for (j = 0; j < f->patch.entries; j++)
        if (refused || j >= f->h * f->k)
            put(&f->patch, j, ~get(&f->patch, j));
    remember(&f->samples);
    remember(&f->patch);
}

static void frame_case(void)
{
    struct frame f;
    uint64_t answer;
    size_t places = 0;

    read_frame(&f);
    answer = call_frame(&f);
    printf("frame %lu %lu", (unsigned long)TENSION_NUMBER(answer), (unsigned long)TENSION_PLACE(answer));
    if (!answer) {
        places = f.told[0];
        printf(" %lu %lu", (unsigned long)f.told[0], (unsigned long)f.told[1]);
    }
    printf("\n");
    show("positions", &f.positions);
    look_at_frame(&f, places, !answer);
    if (places > f.positions.entries)
        fail("more places than the list has room for");

    /* Again: what was stored has to be stored anew, and to be the same. */
    change(&f, answer != 0);
    remember(&f.positions);
    remember(&f.numbers);
    memset(f.positions.bytes, FILL, 4 * places);
    if (!answer)
        memset(f.numbers.bytes, FILL, f.numbers.length);
    if (call_frame(&f) != answer || !same(&f.positions) || !same(&f.numbers))
        fail("samples that have no say change the answer");
    look_at_frame(&f, 0, 0);
}

int main(int argc, char **argv)
{
    uint32_t kind;
    front = argc == 2 && strcmp(argv[1], "--front") == 0;
    if (argc > 1 && !front) {
        fprintf(stderr, "usage: %s [--front] < CASES\n", argv[0]);
        return 2;
    }
    build();
    while ((kind = number(1)) != 0) {
        cases++;
        taken = large_taken = 0; /* the rooms of the case before are free again */
        if (kind == 1)
            prepare_case();
        else if (kind == 2)
            search_case();
        else if (kind == 4)
            read_case();
        else if (kind == 6)
            write_case();
        else if (kind == 7)
            frame_case();
        else
            fail("a kind of case that a host does not have");
    }
    if (cases == 0)
        fail("no case");
    fprintf(stderr, "%lu calls replayed, each buffer %s\n", cases, front ? "right after an edge" : "right before an edge");
    return 0;
}
