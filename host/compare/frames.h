/*
 * The rows of the comparison that are frames: tension_frame, the whole call, beside the plain matcher in C (plain_frame, matchers.h).
 *
 * A frame has 1,024 rows of 1,024 columns, 1,280 samples apart. Six kinds:
 *
 *     random     all grey levels, each as likely as the others
 *     level      one grey level
 *     gradient   16 more a row and 32 more a column
 *     striped    stripes of 8 columns, each with one of four levels, drawn
 *     noisy      the gradient, and 0 to 63 more at each sample, drawn
 *     sawtooth   row + column, modulo 9
 *
 * The patch is the middle of the frame, so that it occurs at least once: 1 x 1, 2 x 2, 4 x 4, 8 x 8, 32 x 32 and 1 x 1,024.
 */
#ifndef FRAMES_H
#define FRAMES_H

/* Prints a table of the ratios, and the worst of them beside what is aimed at; or a short row of each kind, and that they agree. Exits
 * where the two list other places. */
void compare_frames(int shorter);

#endif
