/*
 * turns.c - an earlier archive and this one in one program and in turns: the time of a call now by its time then, above 1 where it has
 * become slower. Each works with the tables that it prepared itself, and both must list the same positions.
 *
 *     turns [--short]   all rows and the preparation, or one short row of each trace
 *
 * Rows with lost stitches are left out where the earlier archive takes these for tensions: it lists other windows there.
 *
 * Where the linker happens to put the code moves a row by a tenth and more, with no instruction of it changed. So each archive is here at
 * four places, 16 bytes apart in a line of 64. In a round every one of the eight has its turn; a place's ratio is the median of its
 * rounds, and a row's the geometric mean of its places. No round is left out.
 */
#include <math.h>
#include <stdio.h>
#include <stdlib.h>
#include <string.h>

#include "rows.h"

enum { PLACES = 4, ROUNDS = 101, OLD = 0, NEW = 1, BOTH = 2 };

/* turns.sh names the calls so. */
prepare_call old_prepare_0, old_prepare_16, old_prepare_32, old_prepare_48;
prepare_call new_prepare_0, new_prepare_16, new_prepare_32, new_prepare_48;
search_call old_search_0, old_search_16, old_search_32, old_search_48;
search_call new_search_0, new_search_16, new_search_32, new_search_48;

static prepare_call *const prepares[BOTH][PLACES] = {{old_prepare_0, old_prepare_16, old_prepare_32, old_prepare_48},
                                                     {new_prepare_0, new_prepare_16, new_prepare_32, new_prepare_48}};
static search_call *const searches[BOTH][PLACES] = {{old_search_0, old_search_16, old_search_32, old_search_48},
                                                    {new_search_0, new_search_16, new_search_32, new_search_48}};

static struct tables tables[BOTH];
static uint32_t survivors[TRACE], positions[BOTH][TRACE], counts[COUNTS];

/* Whose turn it is, and at which place. */
static int who, place;

static void call_prepare(void) { prepare_by(prepares[who][place], &tables[who]); }
static void call_search(void) { search_by(searches[who][place], &tables[who], n, survivors, positions[who], counts); }

static int rising(const void *a, const void *b)
{
    double x = *(const double *)a, y = *(const double *)b;
    return (x > y) - (x < y);
}

static double median(double *v, size_t length)
{
    qsort(v, length, sizeof *v, rising);
    return v[length / 2];
}

/* A round at each place: the two take turns at being first. */
static void a_round(void (*call)(void), size_t calls, int round, double took[BOTH][PLACES])
{
    for (place = 0; place < PLACES; place++)
        for (int turn = 0; turn < BOTH; turn++) {
            who = (turn + round + place) % BOTH;
            took[who][place] = a_call(call, calls);
        }
}

/* Prints the rest of a row, medians in microseconds and then ratios, and answers its ratio. */
static double take_turns(void (*call)(void))
{
    static double took[BOTH][PLACES], times[BOTH][PLACES * ROUNDS], ratios[PLACES][ROUNDS];
    double logs = 0, each[PLACES];
    size_t calls = calls_for(call, 3e-4);
    for (int r = 0; r < ROUNDS; r++) {
        a_round(call, calls, r, took);
        for (int p = 0; p < PLACES; p++) {
            times[OLD][PLACES * r + p] = took[OLD][p];
            times[NEW][PLACES * r + p] = took[NEW][p];
            ratios[p][r] = took[NEW][p] / took[OLD][p];
        }
    }
    for (int p = 0; p < PLACES; p++)
        logs += log(each[p] = median(ratios[p], ROUNDS));
    printf(" %11.2f %11.2f %8.3f  ", 1e6 * median(times[OLD], PLACES * ROUNDS), 1e6 * median(times[NEW], PLACES * ROUNDS),
           exp(logs / PLACES));
    for (int p = 0; p < PLACES; p++)
        printf(" %6.3f", each[p]);
    printf("\n");
    fflush(stdout);
    return exp(logs / PLACES);
}

/* Both prepare and search once at every place. */
static void set_up(const char *kind, size_t length, size_t samples)
{
    make_row(kind, length, samples);
    for (place = 0; place < PLACES; place++) {
        for (who = 0; who < BOTH; who++) {
            call_prepare();
            call_search();
        }
        if (memcmp(positions[OLD], positions[NEW], n < m ? 0 : 4 * (n - m + 1))) {
            fprintf(stderr, "positions differ: %s, m = %zu, n = %zu\n", kind, m, n);
            exit(1);
        }
    }
    who = place = 0;
}

static double worst;
static int number, slower;

static void measure(const char *kind, size_t length, size_t samples)
{
    set_up(kind, length, samples);
    printf("%-18s %5zu %6zu", kind, m, n);
    double ratio = take_turns(call_search);
    number++;
    if (n < 2048)
        return;
    worst = fmax(worst, ratio);
    slower += ratio > 1.05;
}

static void preparation(void)
{
    printf("\npreparation (random)\n");
    for (int k = 0; k < MS; k++) {
        set_up("random", ms[k], 2048);
        printf("m = %-5zu                      ", m);
        take_turns(call_prepare);
    }
}

int main(int argc, char **argv)
{
    int shorter = argc == 2 && !strcmp(argv[1], "--short");
    if (argc > 1 && !shorter) {
        fprintf(stderr, "usage: %s [--short]\n", argv[0]);
        return 2;
    }
    int last = knows_lost(old_prepare_0) ? KINDS : CLEAN;
    if (last == CLEAN)
        printf("rows with lost stitches are left out, since the earlier archive takes these for tensions\n");
    printf("%-18s %5s %6s %11s %11s %8s   %s\n", "trace", "m", "n", "then (us)", "now (us)", "ratio", "at each of four places");
    for (int k = 0; k < last; k++)
        for (int mi = 0; mi < MS; mi++)
            for (int ni = 0; ni < NS; ni++)
                if (!shorter || (ms[mi] == 32 && ns[ni] == 2048))
                    measure(kinds[k], ms[mi], ns[ni]);
    if (!shorter)
        preparation();
    printf("\n%d rows, %d rounds each; of n = 2048 and more the worst is %.3f, and %d are above 1.05\n", number, ROUNDS, worst, slower);
    return 0;
}
