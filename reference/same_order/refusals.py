"""Every refusal: number, condition and place stand here and nowhere else.

Each function raises Refused when its condition holds. The order in which a
call tries them is the order of the lines in that call (calls, frames,
recording, report).
"""

from .facts import FRAME_MAX, INPUT_MAX, LOST, PATCH_MAX, PATTERN_MAX, RECORDING_MAX, TRACE_MAX


class Refused(Exception):
    """A call turned down: the refusal's number and its place."""

    MEANING = {
        1: "the pattern is empty",
        2: "the pattern is too long",
        3: "a table is too short",
        4: "the trace is too long",
        5: "the survivors buffer is too short",
        6: "the positions buffer is too short",
        8: "too short to hold a trailer",
        9: "the mark is wrong",
        10: "distance and count do not fit together",
        11: "the distance leads before the first byte",
        12: "the sample buffer is too short",
        13: "the input is too long",
        14: "the low table is not the pattern's",
        15: "the high table is not the pattern's",
        16: "the witness i table is not the pattern's",
        17: "the witness j table is not the pattern's",
        18: "more bytes in use than the buffer has",
        19: "too many samples for a recording",
        20: "no room for samples and trailer",
        21: "the pattern holds a lost stitch",
        22: "a frame or a patch without a row or without a column",
        23: "the frame or the patch is too large",
        24: "the pitch is below the width",
        25: "the frame or the patch has too few samples",
        26: "the positions buffer has too few entries for the places tried",
    }

    def __init__(self, number, place):
        super().__init__(f"refusal {number} place {place}: {self.MEANING[number]}")
        self.number = number
        self.place = place


def pattern_length(m):
    if m == 0:
        raise Refused(1, 0)
    if m > PATTERN_MAX:
        raise Refused(2, m)


def pattern_stitches(pattern):
    if LOST in pattern:
        raise Refused(21, pattern.index(LOST))


def table_lengths(m, tables, first=1):
    """The tables given are numbered from `first` on."""
    for number, table in enumerate(tables, first):
        if len(table) < m:
            raise Refused(3, number)


def trace_length(n):
    if n > TRACE_MAX:
        raise Refused(4, n)


def list_lengths(count, survivors, positions):
    if len(survivors) < count:
        raise Refused(5, count)
    if len(positions) < count:
        raise Refused(6, count)


def recording_length(length, trailer):
    if length < trailer:
        raise Refused(8, length)


def recording_mark(length, right):
    if not right:
        raise Refused(9, length - 4)


def recording_distance(distance, count, start):
    """`start` is the byte place of the trailer. Whole numbers: no wrapping."""
    if distance != 4 * count:
        raise Refused(10, start)
    if distance > start:
        raise Refused(11, start)


def sample_room(room, count):
    if room < count:
        raise Refused(12, count)


def input_length(length):
    if length > INPUT_MAX:
        raise Refused(13, INPUT_MAX)


def table_entries(m, given, fresh):
    """Table by table in their order, and of the first that differs the lowest entry."""
    for number, (table, right) in enumerate(zip(given, fresh), 14):
        for entry in range(m):
            if table[entry] != right[entry]:
                raise Refused(number, entry)


def lead_length(length, used):
    if used > length:
        raise Refused(18, 0)


def samples_to_write(count):
    if count > RECORDING_MAX:
        raise Refused(19, 0)


def recording_room(length, needed):
    """`needed` is where the trailer would end. Whole numbers: no wrapping."""
    if needed > length:
        raise Refused(20, 0)


def frame_empty(height, width, h, k):
    if 0 in (height, width, h, k):
        raise Refused(22, 0)


def frame_large(height, width, h, k):
    """Whole numbers: no wrapping, here and for the samples needed."""
    if height > FRAME_MAX or width > FRAME_MAX or h * k > PATCH_MAX:
        raise Refused(23, 0)


def frame_pitch(width, pitch):
    if pitch < width:
        raise Refused(24, 0)


def frame_samples(samples, needed, patch, patch_needed):
    if samples < needed or patch < patch_needed:
        raise Refused(25, 0)


def frame_room(room, tried):
    if room < tried:
        raise Refused(26, 0)
