"""Lost stitches: windows struck before the duels, and patterns refused."""

import random
import unittest
from itertools import groupby, product

from same_order import brute, calls, generate, rules
from same_order.facts import LOST, SAMPLE_MAX, Tables, UNUSED
from tests.test_examples import P, refusal, search
from tests.test_rules import holders, pairs

LEAST = -2147483647
EMPTY = Tables([], [], [], [])


def alike(values):
    """Every way in which so many values can be ordered, ties included, as a list of ranks."""
    every = map(list, product(range(values), repeat=values))
    return [ranks for ranks in every if ranks == brute.ranks(ranks)]


def lossy(count, seed):
    """Random patterns with traces, each of which was given lost stitches."""
    rng = random.Random(seed)
    for pattern, trace in pairs(count, seed):
        yield pattern, generate.lose(rng, pattern, trace)


class Windows(unittest.TestCase):
    def test_by_hand(self):
        for pattern, trace, counts, survivors, positions in (
                ([7], [LOST, LOST], (2, 0, 0, 0, 0, 2), [], []),
                ([7], [LEAST, LOST, LEAST], (3, 0, 2, 0, 2, 1), [0, 2], [0, 2]),
                ([1, 2], [1, 2, LOST, 1, 2], (4, 0, 2, 2, 2, 2), [0, 3], [0, 3]),
                ([1, 2, 3], [1, 2, 2, LOST, 1, 2, 3], (5, 0, 2, 4, 1, 3), [0, 4], [4]),
                ([2, 1, 3], [5, LOST, 9], (1, 0, 0, 0, 0, 1), [], []),      # no deep dip
                ([2, 1, 3], [5, LEAST, 9], (1, 0, 1, 2, 1, 0), [0], [0]),
                (P, [LOST] * 3, (0, 0, 0, 0, 0, 0), [], []),                # windows, not samples
                (P, [LOST] * 6, (3, 0, 0, 0, 0, 3), [], [])):
            self.assertEqual(search(pattern, trace), (counts, survivors, positions))

    def test_every_small_trace(self):
        met = 0
        for pattern in (pattern for m in (1, 2, 3) for pattern in alike(m)):
            for trace in (list(t) for n in range(6) for t in product((LOST, LEAST, 0), repeat=n)):
                counts, survivors, positions = search(pattern, trace)
                struck = holders(len(pattern), trace)
                self.assertEqual(positions, brute.positions(pattern, trace), (pattern, trace))
                self.assertEqual(counts[5], len(struck), (pattern, trace))
                self.assertFalse(struck & {*survivors}, (pattern, trace))
                met += bool(struck and positions)
        self.assertGreater(met, 500)

    def test_stretches_are_searched_by_themselves(self):
        # Windows with a lost stitch between them are more than m apart: they
        # agree, and the sweep starts afresh.
        parted = 0
        for pattern, trace in lossy(2000, "stretches"):
            sums, kept, listed, at = [0] * 4, [], [], 0
            for lost, stretch in ((lost, list(run)) for lost, run in groupby(trace, LOST.__eq__)):
                if not lost:
                    (_, *counts, struck), survivors, positions = search(pattern, stretch)
                    self.assertEqual(struck, 0)
                    sums = [a + b for a, b in zip(sums, counts)]
                    kept += [at + x for x in survivors]
                    listed += [at + x for x in positions]
                    parted += bool(survivors and at)
                at += len(stretch)
            (_, *counts, _), survivors, positions = search(pattern, trace)
            self.assertEqual((counts, survivors, positions), (sums, kept, listed), (pattern, trace))
        self.assertGreater(parted, 500)

    def test_the_least_tension_is_an_ordinary_number(self):
        for pattern, trace in pairs(500, "least"):
            if LOST not in trace:
                self.assertEqual(search(pattern, trace), search(pattern, generate.lowest(trace)))
                self.assertEqual(search(pattern, trace), search(generate.lowest(pattern), trace))

    def test_brute_force_by_pairs_and_by_ranks(self):
        found = 0
        for pattern, trace in lossy(500, "ranks"):
            plain = brute.positions(pattern, trace)
            self.assertEqual(plain, brute.positions_by_rank(pattern, trace))
            self.assertFalse(holders(len(pattern), trace) & {*plain})
            found += bool(plain)
        self.assertGreater(found, 100)

    def test_long(self):
        for pattern in ([7], [1, 2, 3], [3, 2, 1], [5, 5], P, list(range(70))):
            for trace in ([t % 90 for t in range(3000)], [-t for t in range(3000)], [5] * 3000):
                trace = generate.scattered(random.Random("long"), 100, trace)
                counts, survivors, positions = search(pattern, trace)
                self.assertEqual(positions, brute.positions_by_rank(pattern, trace))
                self.assertEqual(counts[5], len(holders(len(pattern), trace)))
                self.assertLessEqual(sum(counts[1:3]) + counts[5], counts[0])


class Lists(unittest.TestCase):
    def test_unused_goes_by_all_windows(self):
        survivors, positions = [1] * 6, [2] * 5
        calls.search([1, 2], rules.tables([1, 2]), [1, 2, LOST, 1, 2], survivors, positions)
        self.assertEqual(survivors, [0, 3, UNUSED, UNUSED, 1, 1])
        self.assertEqual(positions, [0, 3, UNUSED, UNUSED, 2])

    def test_lengths_go_by_all_windows(self):
        for trace in ([1, 2, LOST, 1, 2], [LOST] * 5):
            for survivors, positions, expected in (
                    (3, 4, (5, 4)), (4, 3, (6, 4)), (2, 2, (5, 4)), (0, 0, (5, 4)), (4, 4, None)):
                self.assertEqual(refusal(calls.search, [1, 2], rules.tables([1, 2]), trace,
                                         [0] * survivors, [0] * positions), expected)

    def test_tables_are_checked_where_every_window_is_struck(self):
        for number in range(4):
            tables = rules.tables(P)
            tables[number][2] ^= 1
            self.assertEqual(refusal(calls.search, P, tables, [LOST] * 4, [0], [0]),
                             (14 + number, 2))


class Patterns(unittest.TestCase):
    def both(self, pattern, tables, trace=(), survivors=(), positions=()):
        """The refusal of preparation and of search, which write nothing and are the same."""
        before = [table[:] for table in tables], [*survivors], [*positions]
        given = Tables(*(table[:] for table in tables)), [*survivors], [*positions]
        answer = refusal(calls.search, pattern, given[0], list(trace), *given[1:])
        self.assertEqual(answer, refusal(calls.prepare, pattern, given[0]))
        self.assertEqual(([*given[0]], *given[1:]), before)
        return answer

    def test_the_first_lost_stitch_is_the_place(self):
        room = Tables(*([8] * 4 for _ in range(4)))
        for places in product((False, True), repeat=4):
            if any(places):
                pattern = [LOST if lost else sample for lost, sample in zip(places, P)]
                self.assertEqual(self.both(pattern, room, P, [9], [9]), (21, places.index(True)))

    def test_the_ends_of_the_range(self):
        room = Tables(*([8] * 2 for _ in range(4)))
        trace = [SAMPLE_MAX, LOST, 0]
        self.assertEqual(self.both([LOST, SAMPLE_MAX], room, trace, [9] * 2, [9] * 2), (21, 0))
        self.assertIsNone(refusal(calls.prepare, [LEAST, LEAST], room))

    def test_after_1_and_2(self):
        room = Tables(*([8] * 1025 for _ in range(4)))
        for tables in (EMPTY, room):
            self.assertEqual(self.both([], tables, [LOST]), (1, 0))
            self.assertEqual(self.both([LOST] * 1025, tables), (2, 1025))
            self.assertEqual(self.both([0] * 1024 + [LOST], tables), (2, 1025))
            self.assertEqual(self.both([0] * 1023 + [LOST], tables), (21, 1023))

    def test_before_all_others(self):
        bad, long = [3, LOST, LOST], [1] * 65537
        foreign = rules.tables([3, 1, 2])
        self.assertEqual(self.both(bad, EMPTY), (21, 1))
        self.assertEqual(self.both(bad, EMPTY, long), (21, 1))
        for number in range(4):
            short = Tables(*([8] * (2 if k == number else 3) for k in range(4)))
            self.assertEqual(self.both(bad, short), (21, 1))
        for trace, survivors, positions in ((long, 0, 0), (P, 1, 2), (P, 2, 1), (P, 2, 2),
                                            ([LOST] * 4, 2, 2)):
            self.assertEqual(
                self.both(bad, foreign, trace, [9] * survivors, [9] * positions), (21, 1))
