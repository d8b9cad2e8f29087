"""Patches in the frames of a camera: grey levels in rows, each place judged by the definition.

A frame is a list of samples in which a row starts `pitch` after the row before
it; a patch is a list with its rows packed. Both may be longer than that, and
what lies between a frame's rows or behind the last is never looked at.
"""

from typing import NamedTuple

from . import brute, refusals
from .calls import write_list


class Sizes(NamedTuple):
    """Rows, columns and pitch of a frame, rows and columns of a patch."""

    height: int
    width: int
    pitch: int
    h: int
    k: int

    def samples_needed(self):
        """Of the last row only the columns are asked for."""
        return (self.height - 1) * self.pitch + self.width

    def patch_needed(self):
        return self.h * self.k

    def tried(self):
        """How many places the patch has in the frame."""
        return max(self.height - self.h + 1, 0) * max(self.width - self.k + 1, 0)

    def places(self):
        """Row and column of each place, by row, then by column."""
        return [(r, c) for r in range(self.height - self.h + 1) for c in range(self.width - self.k + 1)]

    def steps(self):
        """How far from the sample at a place each of the patch's samples lies in the frame."""
        return [j // self.k * self.pitch + j % self.k for j in range(self.h * self.k)]


def under(samples, sizes, r, c):
    """The frame's samples under the patch at row r and column c, row by row."""
    start = r * sizes.pitch + c
    return [samples[start + step] for step in sizes.steps()]


def positions_by_pairs(samples, patch, sizes):
    """All matching places, each judged by itself over all pairs."""
    return [r * sizes.width + c for r, c in sizes.places()
            if brute.isomorphic(patch, under(samples, sizes, r, c))]


def positions_by_rank(samples, patch, sizes):
    """The same list by ranks."""
    wanted = brute.ranks(patch)
    return [r * sizes.width + c for r, c in sizes.places()
            if brute.ranks(under(samples, sizes, r, c)) == wanted]


def positions(samples, patch, sizes):
    """The same list for large frames: most places are given up after a look or two.

    The patch's samples are taken from the darkest to the brightest. A place
    matches exactly if there each of them is equal to the next where the two
    are equal in the patch, and darker where it is darker: all other pairs
    follow from these.
    """
    steps = sizes.steps()
    order = sorted(range(len(patch)), key=lambda j: patch[j])
    links = [(steps[i], steps[j], patch[i] == patch[j]) for i, j in zip(order, order[1:])]
    listed = []
    for r in range(sizes.height - sizes.h + 1):
        start = r * sizes.pitch
        standing = range(sizes.width - sizes.k + 1)
        for i, j, equal in links:
            here, there = start + i, start + j
            if equal:
                standing = [c for c in standing if samples[here + c] == samples[there + c]]
            else:
                standing = [c for c in standing if samples[here + c] < samples[there + c]]
            if not standing:
                break
        listed += [r * sizes.width + c for c in standing]
    return listed


def search(samples, patch, sizes, room):
    """Write the list into the lent buffer; return the places tried and the number found."""
    height, width, pitch, h, k = sizes
    refusals.frame_empty(height, width, h, k)
    refusals.frame_large(height, width, h, k)
    refusals.frame_pitch(width, pitch)
    refusals.frame_samples(len(samples), sizes.samples_needed(), len(patch), sizes.patch_needed())
    tried = sizes.tried()
    refusals.frame_room(len(room), tried)
    listed = positions(samples, patch[:sizes.patch_needed()], sizes)
    write_list(room, listed, tried)
    return tried, len(listed)
