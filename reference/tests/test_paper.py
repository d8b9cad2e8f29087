"""The worked tables of the thesis on duel and sweep, turned to count from zero.

Where the project's rules part from that text:
- Places and windows count from zero here, from one there.
- "No neighbour" and "no witness" are 65535 here. There a neighbour of none is
  0 and no witness is the pair of zeros, which counting from zero would make an
  ordinary place.
- The witness table there has an entry for offset m as well; here offsets stop
  below m, and windows m or more apart agree without a look at the table.
- There any pair of places that breaks the order may stand as witness. Here it
  is the first failing place with the neighbour that failed, low tried before
  high. The examples below were chosen with that same pair.
- The function F there looks only for reversed neighbours and passes a tie
  where the pattern has none; here relations are less, equal or greater.
- A duel there keeps exactly one of the two windows; here both may fall.
"""

import unittest

from same_order import brute, rules
from same_order.facts import NONE
from tests.test_examples import search

P = [18, 22, 12, 50, 10, 17]


def from_one(entries):
    """Entries printed there, counting from one with 0 for none, as entries here."""
    return [entry - 1 if entry else NONE for entry in entries]


class WorkedTables(unittest.TestCase):
    def test_order_isomorphism(self):
        self.assertTrue(brute.isomorphic([12, 35, 5], [25, 30, 21]))
        self.assertFalse(brute.isomorphic([12, 35, 5], [11, 13, 20]))

    def test_table_3_1_witnesses(self):
        printed = [(0, 0), (1, 2), (2, 4), (1, 2), (0, 0), (0, 0), (0, 0)]
        printed = printed[:len(P)]                  # no entry for offset m here
        tables = rules.tables(P)
        self.assertEqual(tables.witness_i, from_one(i for i, _ in printed))
        self.assertEqual(tables.witness_j, from_one(j for _, j in printed))

    def test_table_3_2_neighbours(self):
        tables = rules.tables(P)
        self.assertEqual(tables.low, from_one([0, 1, 0, 2, 0, 3]))
        self.assertEqual(tables.high, from_one([0, 0, 1, 0, 3, 1]))

    def test_table_3_2_lengths_of_agreement(self):
        # Z at place a + 1 there is how many places pass at offset a: the first
        # failing place here, or the whole overlap if none fails.
        passing = [len(P) - a if j == NONE else j
                   for a, j in enumerate(rules.tables(P).witness_j)]
        self.assertEqual(passing, [6, 1, 3, 1, 2, 1])

    def test_figure_3_4_run_of_the_duels(self):
        pattern = [12, 50, 10, 17]
        trace = [8, 13, 5, 21, 14, 18, 20, 25, 15, 22]
        tables = rules.tables(pattern)
        self.assertEqual(list(zip(tables.witness_i, tables.witness_j)),
                         [(NONE, NONE), (0, 1), (NONE, NONE), (NONE, NONE)])
        printed = [[1], [1], [1, 3], [1, 3], [1, 3, 5], [1, 3, 6], [1, 3, 7]]
        fought = [0, 1, 1, 2, 2, 3, 4]              # duels told of up to each line
        for y, stack in enumerate(printed):
            # The stack after window y is what survives if no later one arrives.
            self.assertEqual(rules.duels(pattern, tables, trace, range(y + 1)),
                             ([x - 1 for x in stack], fought[y]))

    def test_ties_the_function_F_would_pass(self):
        # There 5 5 gives F = 0 against 1 2, since nothing is reversed.
        tables = rules.tables([1, 2])
        self.assertEqual(rules.test_place([1, 2], tables.low, tables.high, 1, [5, 5], 0), (1, 0))
        self.assertFalse(brute.isomorphic([1, 2], [5, 5]))
        self.assertEqual(rules.tables([1, 2, 2]).witness_j, [NONE, 1, NONE])

    def test_both_windows_may_fall(self):
        # The witness 12 < 50 against 50 > 10 met by a tie: there window 0
        # would be kept, here neither stays.
        self.assertEqual(search([12, 50, 10, 17], [7] * 5)[:2], ((2, 1, 0, 0, 0, 0), []))
