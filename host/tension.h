/*
 * tension.h - same-order search on tension traces and camera frames, for C and C++ hosts.
 *
 * Five calls: tension_prepare makes a pattern's four tables, tension_search finds every window of a trace whose samples stand in
 * the same order as the pattern's (equal samples count as equal); tension_read takes a recording apart, tension_write makes one;
 * tension_frame finds every place of a camera's frame whose grey levels stand in the same order as a patch's. All are proved to meet
 * docs/RULES.md; docs/HOST.md tells how to link and what is asked of the caller.
 *
 * The sample TENSION_LOST is a lost stitch: the sensor board sends it while the arm is lifted, so it tells no tension. A search leaves
 * out every window that holds one, and a pattern with one is refused. Recordings hold it like any other sample. Frames know no such value:
 * every grey level is an ordinary one.
 *
 * A buffer named in bytes is a pointer and then a length in BYTES. For tension_prepare and tension_search it holds as many entries as fit
 * into that length without being cut; what is too short for one more stays untouched and unread. All numbers in it are little-endian:
 * samples are signed 32 bit in two's complement, table entries are unsigned 16 bit, survivors, positions and counts are unsigned 32 bit.
 * No alignment is asked of such a buffer. tension_read and tension_write have samples as an array of int32_t, a pointer and then a number
 * of SAMPLES; on x86-64 its bytes are just what tension_prepare and tension_search take. tension_frame has arrays of uint16_t and uint32_t,
 * a pointer and then a number of ENTRIES; it works on them where they lie and copies no frame.
 *
 * What the caller must see to: each pointer is valid for its length, and nothing else writes there while the call lasts; those to
 * uint16_t, int32_t, uint32_t and size_t are aligned for it; no two buffers of one call overlap, nor does one overlap a number that the
 * call stores. A length of 0 may go with any pointer to a buffer. The calls keep no state and call nothing but memcpy and memset.
 */
#ifndef TENSION_H
#define TENSION_H

#include <stddef.h>
#include <stdint.h>

#ifdef __cplusplus
extern "C" {
#endif

/* The version of calls and answers; CHANGELOG.md says what moved with each. */
#define TENSION_VERSION_MAJOR 1
#define TENSION_VERSION_MINOR 4

/* Limits, in samples. */
#define TENSION_PATTERN_LIMIT 1024
#define TENSION_TRACE_LIMIT 65536
#define TENSION_RECORDING_LIMIT 65536 /* in one recording that is written */
#define TENSION_FRAME_LIMIT 1024      /* in a row of a frame, and in a column */
#define TENSION_PATCH_LIMIT 1024      /* in a patch, rows times columns */

/* Bytes of a recording of so many samples: four each, and the trailer. For a number of samples up to TENSION_RECORDING_LIMIT. */
#define TENSION_RECORDING_BYTES(samples) (4 * (size_t)(samples) + 12)

/* Samples that a frame's buffer needs: the last row ends at its last column. For a height of 1 or more, and a frame that fits into memory. */
#define TENSION_FRAME_SAMPLES(height, width, pitch) (((size_t)(height) - 1) * (size_t)(pitch) + (size_t)(width))

/* Places of a patch of h rows and k columns in a frame, which are the entries that its list needs. For sizes that no call refuses. */
#define TENSION_FRAME_PLACES(height, width, h, k) \
    ((size_t)(h) > (size_t)(height) || (size_t)(k) > (size_t)(width) \
         ? (size_t)0 \
         : ((size_t)(height) - (size_t)(h) + 1) * ((size_t)(width) - (size_t)(k) + 1))

/* A sample that is a lost stitch: -2147483648, put so that no part of it is too large for a signed number of 32 bits. */
#define TENSION_LOST (-2147483647 - 1)

/* A table entry that names no place, and an entry of survivors or positions that holds no window and no place of a frame. */
#define TENSION_NONE 65535u
#define TENSION_UNUSED 4294967295u

/* Counts of an accepted search, in the order in which they are written. */
#define TENSION_COUNT_WINDOWS 0   /* N: windows of the trace */
#define TENSION_COUNT_DUELS 1     /* D: duels fought */
#define TENSION_COUNT_SURVIVORS 2 /* S: windows that survived them */
#define TENSION_COUNT_SWEEP 3     /* W: comparisons of the sweep, as the rules count them */
#define TENSION_COUNT_FOUND 4     /* R: positions listed */
#define TENSION_COUNT_STRUCK 5    /* windows struck before the duels, since they hold a lost stitch */
#define TENSION_COUNTS 6

/* Refusal numbers. 21 is tried after 2 and before 3. The place that goes with each: */
#define TENSION_ACCEPTED 0
#define TENSION_EMPTY_PATTERN 1      /* 0 */
#define TENSION_LONG_PATTERN 2       /* the pattern's length */
#define TENSION_SHORT_TABLE 3        /* the table: 1 low, 2 high, 3 witness i, 4 witness j */
#define TENSION_LONG_TRACE 4         /* the trace's length */
#define TENSION_SHORT_SURVIVORS 5    /* the entries needed, N */
#define TENSION_SHORT_POSITIONS 6    /* the entries needed, N */
#define TENSION_SHORT_RECORDING 8    /* the number of bytes, below 12 */
#define TENSION_WRONG_MARK 9         /* where the mark should begin, 4 before the end */
#define TENSION_WRONG_DISTANCE 10    /* where the trailer begins, 12 before the end */
#define TENSION_LONG_DISTANCE 11     /* where the trailer begins */
#define TENSION_SHORT_SAMPLES 12     /* the number of samples */
#define TENSION_FOREIGN_LOW 14       /* the lowest entry of low that is not the pattern's own */
#define TENSION_FOREIGN_HIGH 15      /* the lowest of high, where low is the pattern's own */
#define TENSION_FOREIGN_WITNESS_I 16 /* the lowest of witness i, where low and high are */
#define TENSION_FOREIGN_WITNESS_J 17 /* the lowest of witness j, where the other three are */
#define TENSION_LONG_LEAD 18         /* 0 */
#define TENSION_MANY_SAMPLES 19      /* 0 */
#define TENSION_SHORT_BUFFER 20      /* 0 */
#define TENSION_LOST_STITCH 21       /* the first place of the pattern that holds a lost stitch */
#define TENSION_ZERO_SIZE 22         /* 0 */
#define TENSION_LARGE_SIZE 23        /* 0 */
#define TENSION_NARROW_PITCH 24      /* 0 */
#define TENSION_SHORT_FRAME 25       /* 0 */
#define TENSION_SHORT_PLACES 26      /* 0 */

/* What a call answers, taken apart. A place above 4294967295 is given as 4294967295. */
#define TENSION_NUMBER(answer) ((uint32_t)((answer) >> 32))
#define TENSION_PLACE(answer) ((uint32_t)((answer) & 0xFFFFFFFFu))

/*
 * Prepares a pattern of m samples (1 to 1,024), none of them a lost stitch: writes entries 0 to m - 1 of each of the four tables, and
 * keeps the rest of them. Each table needs room for m entries. Answers 0, or a refusal (1, 2, 21, 3), and then no byte of a table has
 * changed.
 */
uint64_t tension_prepare(const uint8_t *pattern, size_t pattern_bytes,
                         uint8_t *low, size_t low_bytes,
                         uint8_t *high, size_t high_bytes,
                         uint8_t *witness_i, size_t witness_i_bytes,
                         uint8_t *witness_j, size_t witness_j_bytes);

/*
 * Searches a trace of n samples (0 to 65,536) for the pattern, with the tables that tension_prepare made of it. With N = n - m + 1
 * windows (0 where n < m), survivors and positions need room for N entries each; entries 0 to N - 1 are written: the list, then
 * TENSION_UNUSED. positions lists all windows in the pattern's order that hold no lost stitch, ascending; N and the room that is needed
 * go by all windows. counts takes as many of the six counts as it has whole entries for. Answers 0, or a refusal (1, 2, 21, 3 to 6, 14
 * to 17), and then no byte of a buffer has changed.
 */
uint64_t tension_search(const uint8_t *pattern, size_t pattern_bytes,
                        const uint8_t *low, size_t low_bytes,
                        const uint8_t *high, size_t high_bytes,
                        const uint8_t *witness_i, size_t witness_i_bytes,
                        const uint8_t *witness_j, size_t witness_j_bytes,
                        const uint8_t *trace, size_t trace_bytes,
                        uint8_t *survivors, size_t survivors_bytes,
                        uint8_t *positions, size_t positions_bytes,
                        uint8_t *counts, size_t counts_bytes);

/*
 * Reads the recording that ends with these bytes: stores its samples from entry 0 on, their number in *count and the byte at which the
 * first begins in *first. Whatever stands before that byte is not looked at, and may be a recording again: hand over the first *first
 * bytes to read it. samples needs room for all of them; a quarter as many entries as there are bytes is always enough. Answers 0, or a
 * refusal (8 to 12), and then nothing has been stored.
 */
uint64_t tension_read(const uint8_t *bytes, size_t bytes_length,
                      int32_t *samples, size_t samples_room,
                      size_t *count, size_t *first);

/*
 * Writes a recording of up to 65,536 samples behind the first in_use bytes of a buffer, which takes TENSION_RECORDING_BYTES(samples_count)
 * bytes, and stores in *length how many bytes are in use then. The bytes in use stay, and so do those past *length, so that another
 * recording can follow. Answers 0, or a refusal (18 more in use than the buffer has, 19 too many samples, 20 no room for samples and
 * trailer), and then nothing has been stored.
 */
uint64_t tension_write(uint8_t *buffer, size_t buffer_bytes, size_t in_use,
                       const int32_t *samples, size_t samples_count,
                       size_t *length);

/*
 * Searches a frame of height rows and width columns (1 to 1,024 each) for a patch of h rows and k columns (h times k 1 to 1,024). Sample
 * (row, column) of the frame stands at row * pitch + column, and whatever lies between width and pitch counts for nothing; the patch is
 * the first h * k samples of its buffer, row by row. The patch matches at (row, column) if the h times k samples that begin there stand
 * in its order. *places gets the number of places tried, (height - h + 1) * (width - k + 1), or 0 where the patch is taller or wider
 * than the frame; *found how many of them match. positions needs room for *places entries, and just these are written: row * width +
 * column of each that matches, by rows and then by columns, then TENSION_UNUSED. Answers 0, or a refusal (22 a size is 0, 23 height or
 * width above 1,024 or h times k, 24 pitch below width, 25 the frame needs more samples than it has or the patch does, 26 positions is
 * too short), and then nothing has been stored.
 */
uint64_t tension_frame(const uint16_t *samples, size_t samples_length,
                       size_t height, size_t width, size_t pitch,
                       const uint16_t *patch, size_t patch_length,
                       size_t h, size_t k,
                       uint32_t *positions, size_t positions_length,
                       size_t *places, size_t *found);

#ifdef __cplusplus
}
#endif

#endif
