/*
 * compare.c - times tension_search, the whole call, beside the matchers of matchers.h: same buffers, same machine, one run, answers
 * checked. Prints a table of ratios (ours / theirs; below 1 we are ahead), the worst and the geometric mean of each column, the
 * preparation, and the share of the tables' check; then the table of frames (frames.h). With --svg FILE it draws the traces' ratios too.
 *
 *     compare [--svg FILE] [--short] [--note TEXT]   all rows, or a short one of each trace and frame; the note stands above them
 *     compare --count WHO KIND M N CALLS             only makes CALLS calls of WHO (ours, same, kmp, naive): to count instructions
 *
 * Each time is the best of 9 samples; a sample is as many calls as take a millisecond.
 */
#include <math.h>
#include <stdio.h>
#include <stdlib.h>
#include <string.h>

#include "../tension.h"
#include "frames.h"
#include "rows.h"

enum { SAMPLES = 9, COLUMNS = 3 };

_Static_assert(LOST == TENSION_LOST, "one value is a lost stitch to all");
_Static_assert(sizeof(struct counts) == 4 * TENSION_COUNTS, "every count is compared");

static const char *columns[COLUMNS] = {"same C", "KMP", "naive"};

static struct tables tables, other_tables;
static uint16_t failure[LONGEST + 1];
static uint32_t survivors[TRACE], positions[TRACE], kept[TRACE], listed[TRACE], others[TRACE];
static uint32_t counts[COUNTS];
static struct counts same_counts;
static size_t found_kmp, found_naive;

static void call_prepare(void) { prepare_by(tension_prepare, &tables); }
static void call_same_prepare(void)
{
    if (!same_prepare(pattern, m, &other_tables))
        exit(1);
}
static void call_ours(void) { search_by(tension_search, &tables, n, survivors, positions, counts); }
static void call_check(void) { search_by(tension_search, &tables, 0, survivors, positions, counts); }
static void call_same(void)
{
    if (!same_search(pattern, m, &tables, trace, n, kept, listed, &same_counts))
        exit(1);
}
static void call_kmp(void) { found_kmp = kmp_search(m, &tables, failure, trace, n, others); }
static void call_naive(void) { found_naive = naive_search(m, &tables, trace, n, others); }

/* Seconds a call, best of the samples. */
static double timed(void (*call)(void))
{
    double best = 1e9;
    size_t calls = calls_for(call, 1e-3);
    for (int s = 0; s < SAMPLES; s++) {
        double took = a_call(call, calls);
        if (took < best)
            best = took;
    }
    return best;
}

static void differ(const char *what)
{
    fprintf(stderr, "answers differ: %s\n", what);
    exit(1);
}

/* A row: its trace and pattern, and that all answers are the same. */
static void set_up(const char *kind, size_t length, size_t samples)
{
    make_row(kind, length, samples);
    call_prepare();
    call_same_prepare();
    if (memcmp(tables.low, other_tables.low, 2 * m) || memcmp(tables.high, other_tables.high, 2 * m) ||
        memcmp(tables.witness_i, other_tables.witness_i, 2 * m) || memcmp(tables.witness_j, other_tables.witness_j, 2 * m))
        differ("tables");
    kmp_prepare(pattern, m, &tables, failure);
    call_ours();
    call_same();
    if (memcmp(counts, &same_counts, sizeof same_counts))
        differ("counts");
    size_t windows = counts[TENSION_COUNT_WINDOWS], found = counts[TENSION_COUNT_FOUND];
    if (memcmp(survivors, kept, 4 * windows) || memcmp(positions, listed, 4 * windows))
        differ("lists");
    call_kmp();
    if (found_kmp != found || memcmp(positions, others, 4 * found))
        differ("KMP");
    call_naive();
    if (found_naive != found || memcmp(positions, others, 4 * found))
        differ("naive");
}

static void count(char **argv)
{
    void (*call)(void) = !strcmp(argv[2], "ours") ? call_ours : !strcmp(argv[2], "same") ? call_same
                         : !strcmp(argv[2], "kmp") ? call_kmp : call_naive;
    set_up(argv[3], (size_t)atoi(argv[4]), (size_t)atoi(argv[5]));
    for (int k = atoi(argv[6]); k > 0; k--)
        call();
}

/* A row of the table: the time of ours, the share of it that the tables' check takes, and ours by each of theirs. */
struct row {
    const char *kind;
    size_t m, n;
    double ours, check, ratios[COLUMNS];
};

static struct row rows[KINDS * MS * NS];
static int number;
static const char *note = "";

static void measure(const char *kind, size_t length, size_t samples)
{
    static void (*const theirs[COLUMNS])(void) = {call_same, call_kmp, call_naive};
    struct row *r = &rows[number++];
    set_up(kind, length, samples);
    r->kind = kind;
    r->m = m;
    r->n = n;
    r->ours = timed(call_ours);
    r->check = timed(call_check) / r->ours;
    printf("%-18s %5zu %6zu %11.2f", kind, m, n, 1e6 * r->ours);
    for (int c = 0; c < COLUMNS; c++) {
        r->ratios[c] = r->ours / timed(theirs[c]);
        printf(" %10.3f", r->ratios[c]);
    }
    printf("  %3.0f %%\n", 100 * r->check);
    fflush(stdout);
}

static double worst(int c)
{
    double ratio = 0;
    for (int r = 0; r < number; r++)
        ratio = fmax(ratio, rows[r].ratios[c]);
    return ratio;
}

static double geometric_mean(int c)
{
    double logs = 0;
    for (int r = 0; r < number; r++)
        logs += log(rows[r].ratios[c]);
    return exp(logs / number);
}

static void sum_up(void)
{
    printf("%-43s %10.3f %10.3f %10.3f\n", "worst", worst(0), worst(1), worst(2));
    printf("%-43s %10.3f %10.3f %10.3f\n", "geometric mean", geometric_mean(0), geometric_mean(1), geometric_mean(2));
    printf("%d rows, best of %d samples each\n", number, SAMPLES);
}

static void preparation(void)
{
    printf("\npreparation (random)  ours (us)   same C\n");
    for (int k = 0; k < MS; k++) {
        set_up("random", ms[k], 2048);
        double ours = timed(call_prepare), theirs = timed(call_same_prepare);
        printf("m = %-5zu %21.2f %8.3f\n", m, 1e6 * ours, ours / theirs);
    }
}

/*
 * The picture is the table with a dot for each ratio, on a scale of powers of two that reaches from the least ratio to the largest.
 * Distances are in pixels: LINE from row to row, m and n up to M_END and N_END, columns of figures up to FIGURES and every COLUMN after,
 * the scale from LEFT on.
 */
enum { LINE = 14, TOP = 70, M_END = 150, N_END = 195, FIGURES = 260, COLUMN = 70, LEFT = 440, WIDE = 560 };

static const char *colours[COLUMNS] = {"#1b6ca8", "#c0562a", "#5a8f3d"};
static int least, largest; /* powers of two, both multiples of 4 */

static void find_scale(void)
{
    least = largest = 0;
    for (int r = 0; r < number; r++)
        for (int c = 0; c < COLUMNS; c++) {
            while (log2(rows[r].ratios[c]) < least)
                least -= 4;
            while (log2(rows[r].ratios[c]) > largest)
                largest += 4;
        }
    if (least == largest)
        largest += 4;
}

static double across(double power)
{
    return LEFT + WIDE * (power - least) / (largest - least);
}

static void draw_scale(FILE *f, int bottom)
{
    for (int p = least; p <= largest; p += 4) {
        fprintf(f, "<line x1=\"%.1f\" x2=\"%.1f\" y1=\"%d\" y2=\"%d\" stroke=\"%s\"/>\n", across(p), across(p), TOP - LINE, bottom,
                p ? "#ddd" : "#444");
        fprintf(f, "<text x=\"%.1f\" y=\"%d\" text-anchor=\"middle\">%s%ld</text>\n", across(p), TOP - LINE - 4, p < 0 ? "1/" : "",
                1L << abs(p));
    }
}

/* A figure or a word that ends at x. */
static void draw_text(FILE *f, int x, int y, const char *colour, const char *text)
{
    fprintf(f, "<text x=\"%d\" y=\"%d\" fill=\"%s\" text-anchor=\"end\">%s</text>\n", x, y, colour, text);
}

static void draw_ratio(FILE *f, int c, int y, double ratio)
{
    char text[32];
    snprintf(text, sizeof text, "%.*f", ratio < 10 ? 3 : ratio < 1000 ? 1 : 0, ratio);
    draw_text(f, FIGURES + COLUMN * c, y + 4, colours[c], text);
    fprintf(f, "<circle cx=\"%.1f\" cy=\"%d\" r=\"3.5\" fill=\"%s\"/>\n", across(log2(ratio)), y, colours[c]);
}

static void draw_head(FILE *f, int height)
{
    fprintf(f, "<svg xmlns=\"http://www.w3.org/2000/svg\" width=\"%d\" height=\"%d\" font-family=\"sans-serif\" font-size=\"11\">\n",
            LEFT + WIDE + 40, height);
    fprintf(f, "<rect width=\"100%%\" height=\"100%%\" fill=\"white\"/>\n");
    fprintf(f, "<text x=\"10\" y=\"20\" font-size=\"13\">Time of tension_search by the time of three matchers in C; left of 1 "
               "we are ahead</text>\n<text x=\"10\" y=\"36\">%s</text>\n", note);
    fprintf(f, "<text x=\"10\" y=\"%d\">trace</text>\n", TOP - LINE - 4);
    draw_text(f, M_END, TOP - LINE - 4, "black", "m");
    draw_text(f, N_END, TOP - LINE - 4, "black", "n");
    for (int c = 0; c < COLUMNS; c++)
        draw_text(f, FIGURES + COLUMN * c, TOP - LINE - 4, colours[c], columns[c]);
}

/* A band behind every second kind of trace. */
static void draw_bands(FILE *f)
{
    for (int r = 0, odd = 0; r < number; r++) {
        odd ^= r > 0 && rows[r].kind != rows[r - 1].kind;
        if (odd)
            fprintf(f, "<rect x=\"0\" y=\"%d\" width=\"100%%\" height=\"%d\" fill=\"#f4f4f0\"/>\n", TOP + LINE * r - LINE / 2, LINE);
    }
}

static void draw_row(FILE *f, const struct row *r, int y)
{
    char text[32];
    fprintf(f, "<text x=\"10\" y=\"%d\">%s</text>\n", y + 4, r->kind);
    snprintf(text, sizeof text, "%zu", r->m);
    draw_text(f, M_END, y + 4, "black", text);
    snprintf(text, sizeof text, "%zu", r->n);
    draw_text(f, N_END, y + 4, "black", text);
    for (int c = 0; c < COLUMNS; c++)
        draw_ratio(f, c, y, r->ratios[c]);
}

static void draw(const char *file)
{
    FILE *f = fopen(file, "w");
    int bottom = TOP + LINE * (number + 2);
    if (!f) {
        perror(file);
        exit(1);
    }
    find_scale();
    draw_head(f, bottom + 10);
    draw_bands(f);
    draw_scale(f, bottom);
    for (int r = 0; r < number; r++)
        draw_row(f, &rows[r], TOP + LINE * r);
    fprintf(f, "<text x=\"10\" y=\"%d\">geometric mean</text>\n", bottom - LINE + 4);
    for (int c = 0; c < COLUMNS; c++)
        draw_ratio(f, c, bottom - LINE, geometric_mean(c));
    fprintf(f, "</svg>\n");
    fclose(f);
}

int main(int argc, char **argv)
{
    const char *svg = NULL;
    int shorter = 0;

    if (argc == 7 && !strcmp(argv[1], "--count")) {
        count(argv);
        return 0;
    }
    for (int k = 1; k < argc; k++) {
        if (!strcmp(argv[k], "--short"))
            shorter = 1;
        else if (!strcmp(argv[k], "--note") && k + 1 < argc)
            note = argv[++k];
        else if (!strcmp(argv[k], "--svg") && k + 1 < argc)
            svg = argv[++k];
        else {
            fprintf(stderr, "usage: %s [--svg FILE] [--short] [--note TEXT] | --count WHO KIND M N CALLS\n", argv[0]);
            return 2;
        }
    }
    if (*note)
        printf("%s\n", note);
    printf("%-18s %5s %6s %11s %10s %10s %10s  check\n", "trace", "m", "n", "ours (us)", columns[0], columns[1], columns[2]);
    for (int k = 0; k < KINDS; k++)
        for (int mi = 0; mi < MS; mi++)
            for (int ni = 0; ni < NS; ni++)
                if (!shorter || (ms[mi] == 32 && ns[ni] == 2048))
                    measure(kinds[k], ms[mi], ns[ni]);
    sum_up();
    preparation();
    compare_frames(shorter);
    if (svg)
        draw(svg);
    return 0;
}
