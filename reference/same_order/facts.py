"""Sizes, special values and the names of the counts, each written once."""

from typing import NamedTuple

PATTERN_MAX = 1024
TRACE_MAX = 65536
RECORDING_MAX = 65536        # samples that are written at once
INPUT_MAX = 16384            # bytes the program takes
PROGRAM_PATTERN = 1024       # samples its two buffers hold
PROGRAM_TRACE = 2048
FRAME_MAX = 1024             # rows of a frame, and columns
PATCH_MAX = 1024             # samples of a patch

NONE = 65535                 # table entry: no such place
UNUSED = 4294967295          # list entry: nothing here
SAMPLE_MIN, SAMPLE_MAX = -2147483648, 2147483647
LOST = SAMPLE_MIN            # a lost stitch: sent when the arm lifts, no tension
GREY_MAX = 65535             # the brightest grey level; the darkest is 0


class Counts(NamedTuple):
    """The counts of an accepted search, in the order they are given out.

    A field's name is also its word where the program's first line has it.
    """

    windows: int
    duels: int
    survivors: int
    sweep: int
    found: int
    struck: int


FIRST_LINE = ("windows", "duels", "survivors", "sweep", "found")


class Tables(NamedTuple):
    """The four tables, in the order in which refusals number them (from 1)."""

    low: list
    high: list
    witness_i: list
    witness_j: list


def windows(m, n):
    """How many windows of length m a trace of length n has."""
    return n - m + 1 if n >= m else 0
