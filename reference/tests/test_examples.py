"""Examples a to m of docs/RULES.md, by letter."""

import struct
import unittest

from same_order import calls, recording, rules
from same_order.facts import LOST, NONE, SAMPLE_MAX, Tables, UNUSED, windows
from same_order.refusals import Refused

P = [4, 9, 6, 6]


def search(pattern, trace):
    """Counts, survivors and positions, with tables and buffers of the right length."""
    count = windows(len(pattern), len(trace))
    survivors, positions = [0] * count, [0] * count
    counts = calls.search(pattern, rules.tables(pattern), trace, survivors, positions)
    for buffer, used in ((survivors, counts.survivors), (positions, counts.found)):
        assert buffer[used:] == [UNUSED] * (count - used), buffer
    return tuple(counts), survivors[:counts.survivors], positions[:counts.found]


def refusal(call, *arguments):
    """Number and place of the refusal of a call, or None."""
    try:
        call(*arguments)
    except Refused as refused:
        return refused.number, refused.place
    return None


class Examples(unittest.TestCase):
    def test_a_neighbours(self):
        tables = rules.tables(P)
        self.assertEqual(tables.low, [NONE, 0, 0, 2])
        self.assertEqual(tables.high, [NONE, NONE, 1, 2])

    def test_b_witnesses(self):
        tables = rules.tables(P)
        self.assertEqual(tables.witness_i, [NONE, 0, 0, NONE])
        self.assertEqual(tables.witness_j, [NONE, 1, 1, NONE])

    def check(self, pattern, trace, counts, survivors, positions):
        self.assertEqual(search(pattern, trace), (counts, survivors, positions))

    def test_c(self):
        self.check(P, [5, 8, 6, 6, 9, 7, 7, 2, 4, 3, 3], (8, 5, 3, 12, 3, 0), [0, 3, 7], [0, 3, 7])

    def test_d_both_fall(self):
        self.check(P, [5] * 5, (2, 1, 0, 0, 0, 0), [], [])

    def test_e(self):
        self.check(P, [1, 2, 3, 4, 5], (2, 1, 1, 3, 0, 0), [1], [])

    def test_f_one_sample(self):
        self.check([7], [3, 3], (2, 0, 2, 0, 2, 0), [0, 1], [0, 1])

    def test_g_no_window(self):
        self.check(P, [1, 2, 3], (0, 0, 0, 0, 0, 0), [], [])

    def test_h(self):
        self.check(P, [4, 9, 7, 6], (1, 0, 1, 4, 0, 0), [0], [])

    def test_i_the_sweep_goes_on_where_it_stood(self):
        self.check([1, 2, 3], [1, 2, 3, 4, 5], (3, 0, 3, 4, 3, 0), [0, 1, 2], [0, 1, 2])

    def test_j_ends_of_the_tensions(self):
        least = LOST + 1
        self.check([least, SAMPLE_MAX], [SAMPLE_MAX, least, 0], (2, 0, 2, 2, 1, 0), [0, 1], [1])

    def test_k_sizes(self):
        saw = [t % 3 for t in range(1025)]
        room = Tables(*([0] * 1025 for _ in range(4)))
        self.assertIsNone(refusal(calls.prepare, saw[:1024], room))
        self.assertEqual(refusal(calls.prepare, saw, room), (2, 1025))
        self.assertEqual(search(P, [5] * 65536)[0][0], 65533)
        self.assertEqual(refusal(search, P, [5] * 65537), (4, 65537))

    def test_l_recordings(self):
        self.assertEqual(recording.read(struct.pack("<II", 0, 0) + b"KREC", []), (0, 0))
        self.assertEqual(refusal(recording.read, b"KREC" * 2 + b"REC", []), (8, 11))
        self.assertEqual(
            refusal(recording.read, struct.pack("<II", 0, 1 << 30) + b"KREC", []), (10, 0))

    def test_m_one_entry_altered(self):
        for number in range(4):
            tables = rules.tables(P)
            tables[number][3] ^= 1
            self.assertEqual(refusal(calls.search, P, tables, [1], [], []), (14 + number, 3))


class Slips(unittest.TestCase):
    def test_equal_is_a_relation_of_its_own(self):
        self.assertEqual(search([6, 6], [7, 3, 7, 7])[2], [2])

    def test_witness_is_counted_from_the_later_window(self):
        # Counted from the earlier one, the duel of windows 0 and 1 looks at
        # 1 and 9, strikes window 1 and so loses the match there.
        self.assertEqual(search([9, 1, 5], [1, 9, 1, 5])[2], [1])
