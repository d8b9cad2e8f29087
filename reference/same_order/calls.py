"""Preparation, search and agreement as calls on lent buffers.

A lent buffer is a Python list; its length is the length lent. A call either
raises Refused and touches nothing, or writes what it promises and no more.
"""

from . import refusals, rules
from .facts import Counts, UNUSED, windows


def prepare(pattern, tables):
    """Write entries 0 to m - 1 of the four tables."""
    m = len(pattern)
    refusals.pattern_length(m)
    refusals.pattern_stitches(pattern)
    refusals.table_lengths(m, tables)
    for table, fresh in zip(tables, rules.tables(pattern)):
        table[:m] = fresh


def search(pattern, tables, trace, survivors, positions):
    """Write both lists and return the counts."""
    m, n = len(pattern), len(trace)
    count = windows(m, n)
    refusals.pattern_length(m)
    refusals.pattern_stitches(pattern)
    refusals.table_lengths(m, tables)
    refusals.trace_length(n)
    refusals.list_lengths(count, survivors, positions)
    refusals.table_entries(m, tables, rules.tables(pattern))
    arriving = rules.arrivals(m, trace)
    kept, fought = rules.duels(pattern, tables, trace, arriving)
    listed, made = rules.sweep(pattern, tables, trace, kept)
    write_list(survivors, kept, count)
    write_list(positions, listed, count)
    return Counts(windows=count, duels=fought, survivors=len(kept),
                  sweep=made, found=len(listed), struck=count - len(arriving))


def write_list(buffer, entries, count):
    """The list, then "unused" up to entry count - 1; later entries stay."""
    buffer[:count] = entries + [UNUSED] * (count - len(entries))


def agree(m, witness_i, witness_j, x, y):
    """Whether windows x and y agree by the entries as they stand."""
    refusals.pattern_length(m)
    refusals.table_lengths(m, (witness_i, witness_j), first=3)
    return rules.agree(m, witness_i, x, y)
