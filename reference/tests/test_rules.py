"""The rules against brute force and the demands, on thousands of random cases."""

import random
import unittest

from same_order import brute, calls, generate, rules
from same_order.facts import LOST, NONE, Tables, UNUSED, windows
from tests.test_examples import P, refusal, search


def pairs(count, seed):
    """Small random patterns with traces, m at least 1; some traces have lost stitches."""
    rng = random.Random(seed)
    for _ in range(count):
        yield generate.pair(rng, rng.randrange(1, 10), rng.randrange(30))


def first_break(u, v):
    """Length of the longest isomorphic beginnings of u and v."""
    return max(k for k in range(len(u) + 1) if brute.isomorphic(u[:k], v[:k]))


def holders(m, trace):
    """The windows that hold a lost stitch, told from the places of those lost."""
    return {x for place, sample in enumerate(trace) if sample == LOST
            for x in range(place - m + 1, place + 1) if 0 <= x <= len(trace) - m}


class Preparation(unittest.TestCase):
    def test_neighbours_by_a_scan(self):
        for pattern, _ in pairs(1500, "neighbours"):
            tables = rules.tables(pattern)
            for j, value in enumerate(pattern):
                low = high = NONE
                for i in range(j):                  # a later equal takes over
                    if pattern[i] <= value and (low == NONE or pattern[i] >= pattern[low]):
                        low = i
                    if pattern[i] >= value and (high == NONE or pattern[i] <= pattern[high]):
                        high = i
                self.assertEqual((tables.low[j], tables.high[j]), (low, high), pattern)

    def test_witnesses_by_the_definition(self):
        seen = 0
        for pattern, _ in pairs(1500, "witnesses"):
            m, tables = len(pattern), rules.tables(pattern)
            for a in range(m):
                i, j = tables.witness_i[a], tables.witness_j[a]
                good = first_break(pattern[:m - a], pattern[a:])
                self.assertEqual(j, NONE if good == m - a else good, (pattern, a))
                self.assertEqual(i == NONE, j == NONE)
                if j != NONE:
                    seen += 1
                    self.assertIn(i, (tables.low[j], tables.high[j]))
                    self.assertNotEqual(rules.relation(pattern[i], pattern[j]),
                                        rules.relation(pattern[a + i], pattern[a + j]))
        self.assertGreater(seen, 1000)

    def test_refusals_and_what_is_written(self):
        room = Tables([8] * 5, [8] * 4, [8] * 6, [8] * 4)
        calls.prepare(P, room)
        self.assertEqual(room.low, [NONE, 0, 0, 2, 8])
        self.assertEqual(room.witness_i, [NONE, 0, 0, NONE, 8, 8])
        none = Tables([], [], [], [])
        self.assertEqual(refusal(calls.prepare, [], none), (1, 0))
        self.assertEqual(refusal(calls.prepare, [0] * 1025, none), (2, 1025))
        for number in range(4):
            short = Tables(*([8] * (3 if k >= number else 4) for k in range(4)))
            self.assertEqual(refusal(calls.prepare, P, short), (3, number + 1))
            self.assertTrue(all(set(table) == {8} for table in short))


class Searching(unittest.TestCase):
    def test_list_and_demands(self):
        matches = fallen = lost = 0
        for pattern, trace in pairs(4000, "demands"):
            m, n = len(pattern), len(trace)
            counts, survivors, positions = search(pattern, trace)
            count, duels, kept, sweep, found, struck = counts
            true = brute.positions(pattern, trace)
            self.assertEqual(positions, true, (pattern, trace))
            self.assertEqual((count, kept, found), (windows(m, n), len(survivors), len(true)))
            self.assertLessEqual(set(true), set(survivors))
            self.assertEqual(struck, len(holders(m, trace)), (pattern, trace))
            self.assertFalse(holders(m, trace) & {*survivors}, (pattern, trace))
            witness_i = rules.tables(pattern).witness_i
            for k, x in enumerate(survivors):
                for y in survivors[k:]:
                    self.assertTrue(rules.agree(m, witness_i, x, y), (pattern, trace, x, y))
            self.assertLessEqual(duels + kept + struck, count)
            self.assertLessEqual(count - struck - kept, 2 * duels)     # a duel fells one or two
            self.assertLessEqual(sweep, 2 * (n + kept))
            self.assertEqual(sweep, self.recount(pattern, trace, survivors))
            matches += found
            fallen += count - struck - kept
            lost += struck
        self.assertGreater(matches, 5000)
        self.assertGreater(fallen, 5000)
        self.assertGreater(lost, 1000)

    @staticmethod
    def recount(pattern, trace, survivors):
        """Sweep comparisons, each window's failing place found by the definition."""
        tables, end, total = rules.tables(pattern), 0, 0
        for x in survivors:
            window = trace[x:x + len(pattern)]
            stop, end = x + first_break(pattern, window), max(end, x)
            for j in range(end - x, stop - x):
                total += len({tables.low[j], tables.high[j]} - {NONE})
            if stop < x + len(pattern):
                j = stop - x
                low = tables.low[j]
                low_fails = low != NONE and (rules.relation(window[j], window[low])
                                             != rules.relation(pattern[j], pattern[low]))
                total += 1 if low == NONE or low_fails else 2
            end = stop
        return total

    def test_large(self):
        for pattern, trace in (([t % 9 for t in range(300)], [t % 9 for t in range(900)]),
                               ([0] * 400, [0] * 700), (list(range(300)), list(range(700))),
                               ([3, 1, 2] * 50, [3, 1, 2] * 99 + [1] + [3, 1, 2] * 60)):
            counts, survivors, positions = search(pattern, trace)
            self.assertEqual(positions, brute.positions_by_rank(pattern, trace))
            self.assertLessEqual(counts[1] + counts[2], counts[0])
            self.assertLessEqual(counts[3], 2 * (len(trace) + counts[2]))

    def test_ranks_tell_what_all_pairs_tell(self):
        for pattern, trace in pairs(500, "ranks"):
            self.assertEqual(brute.positions(pattern, trace),
                             brute.positions_by_rank(pattern, trace))

    def test_final_content(self):
        trace = [5, 8, 6, 6, 9, 7, 7, 2, 4, 3, 4]
        survivors, positions = [1] * 10, [2] * 9
        calls.search(P, rules.tables(P), trace, survivors, positions)
        self.assertEqual(survivors, [0, 3, 7] + [UNUSED] * 5 + [1, 1])
        self.assertEqual(positions, [0, 3] + [UNUSED] * 6 + [2])

    def test_refusals_in_order(self):
        good, trace, room = rules.tables(P), [1] * 9, [0] * 6
        bad = rules.tables(P)
        for number in range(4):                     # each later table at a lower entry
            bad[number][3 - number] = 7
        cut = Tables(bad.low, bad.high[:3], bad.witness_i, bad.witness_j[:3])
        none, long = Tables([], [], [], []), [1] * 65537

        def answer(pattern, tables, trace, survivors, positions):
            before = survivors[:], positions[:]
            result = refusal(calls.search, pattern, tables, trace, survivors, positions)
            if result:
                self.assertEqual((survivors, positions), before)
            return result

        self.assertEqual(answer([], none, long, [], []), (1, 0))
        self.assertEqual(answer([1] * 1025, none, long, [], []), (2, 1025))
        self.assertEqual(answer(P, cut, long, [], []), (3, 2))
        self.assertEqual(answer(P, bad, long, [], []), (4, 65537))
        self.assertEqual(answer(P, bad, trace, room[:5], room[:5]), (5, 6))
        self.assertEqual(answer(P, bad, trace, room[:], room[:5]), (6, 6))
        for number in range(4):
            self.assertEqual(answer(P, bad, trace, room[:], room[:]), (14 + number, 3 - number))
            bad[number][3 - number] = good[number][3 - number]
        self.assertIsNone(answer(P, good, trace, room[:], room[:]))


class AgreeCall(unittest.TestCase):
    def test_answers(self):
        wi, wj = [0, 0, NONE, 5], [0, 1, 1, NONE]
        for x, y, expected in ((3, 3, True), (3, 4, False), (4, 3, False), (3, 5, True),
                               (6, 3, False), (3, 7, True), (0, UNUSED, True)):
            self.assertIs(calls.agree(4, wi, wj, x, y), expected)

    def test_refusals(self):
        four = [NONE] * 4
        self.assertEqual(refusal(calls.agree, 0, [], [], 1, 1), (1, 0))
        self.assertEqual(refusal(calls.agree, 1025, [], [], 1, 1), (2, 1025))
        self.assertEqual(refusal(calls.agree, 4, four[1:], four[1:], 1, 1), (3, 3))
        self.assertEqual(refusal(calls.agree, 4, four, four[1:], 1, 1), (3, 4))
