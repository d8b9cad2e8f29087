"""Patches in frames: the rules' examples, refusals, what has no say, and the spread of the cases."""

import random
import unittest
from collections import Counter
from itertools import combinations, islice

from same_order import brute, frames, scenes
from same_order.facts import UNUSED
from same_order.frames import Sizes
from tests.test_examples import refusal, search as search_trace

MOST = (1 << 64) - 1


def search(samples, patch, *sizes):
    """Places tried and positions listed, in a buffer of the right length."""
    sizes = Sizes(*sizes)
    room = [7] * sizes.tried()
    tried, found = frames.search(samples, patch, sizes, room)
    assert tried == len(room) and room[found:] == [UNUSED] * (tried - found), room
    return tried, room[:found]


def refused(samples, patch, sizes, room):
    """Number and place of the refusal, which leaves the buffer alone, or None."""
    before = room[:]
    answer = refusal(frames.search, samples, patch, sizes, room)
    assert answer is None or room == before
    return answer


def holding(case):
    """The refusals whose condition holds, whatever comes before them."""
    height, width, pitch, h, k = case.sizes
    places = max(height - h + 1, 0) * max(width - k + 1, 0)
    return [number for number, holds in (
        (22, height == 0 or width == 0 or h == 0 or k == 0),
        (23, max(height, width) > 1024 or h * k > 1024),
        (24, pitch < width),
        (25, case.samples.count < (height - 1) * pitch + width or case.patch.count < h * k),
        (26, case.positions < places)) if holds]


def answer(case):
    """Refusal number and, if it is 0, places tried and number found."""
    words = case.expected().split("\n")[0].split()
    return int(words[1]), *map(int, words[3:])


def drawn(count, seed):
    rng = random.Random(seed)
    return [scenes.draw(rng) for _ in range(count)]


def good(count, seed):
    """Cases of which none is refused, with their samples and the patch."""
    for case in drawn(count, seed):
        if not holding(case):
            yield case.sizes, case.samples.whole(), case.patch.whole()


class Examples(unittest.TestCase):
    def test_q(self):
        rows = [1, 2, 1, 9, 9, 5, 6, 7]
        self.assertEqual(search(rows, [1, 2], 2, 3, 5, 1, 2), (4, [0, 3, 4]))
        self.assertEqual(search(rows, [1, 2, 3], 2, 3, 5, 3, 1), (0, []))
        self.assertEqual(search([9], [4], 1, 1, MOST, 1, 1), (1, [0]))
        self.assertEqual(search([32767, 32768], [0, 65535], 1, 2, 2, 1, 2), (1, [0]))
        for samples, patch, sizes, number in ((rows[:7], [1, 2], (2, 3, 5, 1, 2), 25),
                                              ([9], [4], (2, 1, MOST, 1, 1), 25),
                                              ([1, 2, 3, 4], [], (2, 2, 2, 1 << 32, 1 << 32), 23),
                                              ([9], [4], (1, 1, 0, 1, 1), 24),
                                              ([], [4], (0, 1, 0, 1, 1), 22)):
            self.assertEqual(refused(samples, patch, Sizes(*sizes), [7] * 4), (number, 0))

    def test_a_patch_of_two_rows(self):
        rows = [[10, 20, 30, 20],
                [40, 40, 10, 30],
                [50, 60, 60, 20]]
        for patch, listed in (([[1, 2], [3, 3]], [0]),          # 10 20 / 40 40
                              ([[1, 1], [2, 3]], [4]),          # 40 40 / 50 60
                              ([[3, 2], [1, 3]], [2]),          # 30 20 / 10 30
                              ([[2, 1], [3, 3]], [5]),          # 40 10 / 60 60
                              ([[1], [2], [3]], [0, 1]),
                              ([[2, 3], [1, 1]], [])):
            case = scenes.scene(rows, patch, 6, [0, 99])
            self.assertEqual(search(case.samples.whole(), case.patch.whole(), *case.sizes)[1], listed, patch)

    def test_what_is_written(self):
        samples, room = [1, 2, 1, 9, 9, 5, 6, 7, 8], [7] * 7
        self.assertEqual(frames.search(samples, [1, 2, 0], Sizes(2, 3, 5, 1, 2), room), (4, 3))
        self.assertEqual(room, [0, 3, 4, UNUSED, 7, 7, 7])
        room = [7]
        self.assertEqual(frames.search([1], [1, 2], Sizes(1, 1, 1, 2, 1), room), (0, 0))
        self.assertEqual(room, [7])


class Refusals(unittest.TestCase):
    def test_in_order(self):
        samples, patch, room = [1, 2, 1, 9, 9, 5, 6, 7], [1, 2], [7] * 4
        self.assertEqual(refused([], [], Sizes(0, 1025, 0, 1, 2), []), (22, 0))
        self.assertEqual(refused([], [], Sizes(2, 1025, 0, 1, 2), []), (23, 0))
        self.assertEqual(refused([], [], Sizes(2, 3, 2, 1, 2), []), (24, 0))
        self.assertEqual(refused(samples[1:], patch, Sizes(2, 3, 5, 1, 2), []), (25, 0))
        self.assertEqual(refused(samples, patch[1:], Sizes(2, 3, 5, 1, 2), []), (25, 0))
        self.assertEqual(refused(samples, patch, Sizes(2, 3, 5, 1, 2), room[1:]), (26, 0))
        self.assertIsNone(refused(samples, patch, Sizes(2, 3, 5, 1, 2), room))

    def test_limits(self):
        for samples, patch, sizes, number in (
                ([1] * 1024, [1], (1024, 1, 1, 1, 1), None), ([1] * 1025, [1], (1025, 1, 1, 1, 1), (23, 0)),
                ([1] * 1024, [1], (1, 1024, 1024, 1, 1), None),
                ([1] * 1025, [1], (1, 1025, 1025, 1, 1), (23, 0)),
                ([1], [1] * 1024, (1, 1, 1, 32, 32), None), ([1], [1] * 1056, (1, 1, 1, 33, 32), (23, 0)),
                ([1], [1] * 1025, (1, 1, 1, 25, 41), (23, 0)), ([1], [], (1, 1, 1, MOST, MOST), (23, 0)),
                ([1, 2], [1], (3, 1, 1 << 63, 1, 1), (25, 0)), ([1] * 5, [1], (1, 5, MOST, 1, 1), None)):
            self.assertEqual(refused(samples, patch, Sizes(*sizes), [7] * 1100), number, sizes)

    def test_the_lowest_that_holds(self):
        pairs, alone = set(), Counter()
        for case in (*scenes.edges(), *scenes.lengths(), *scenes.limits(), *scenes.faults(), *scenes.huge(),
                     *drawn(700, "lowest")):
            numbers = holding(case)
            self.assertEqual(answer(case)[0], min(numbers, default=0), case.sizes)
            pairs |= {*combinations(numbers, 2)}
            if len(numbers) == 1:
                alone[numbers[0]] += 1
        self.assertEqual(pairs, {*combinations(range(22, 27), 2)})
        self.assertEqual({*alone}, {*range(22, 27)}, alone)


class Places(unittest.TestCase):
    def test_by_pairs_by_ranks_and_by_links(self):
        found = Counter()
        for sizes, samples, patch in good(600, "three ways"):
            if sizes.tried() * sizes.patch_needed() ** 2 > 20000:
                continue
            patch = patch[:sizes.patch_needed()]
            plain = frames.positions_by_pairs(samples, patch, sizes)
            self.assertEqual(plain, frames.positions_by_rank(samples, patch, sizes))
            self.assertEqual(plain, frames.positions(samples, patch, sizes))
            found[len(plain) > 0, len(plain) < sizes.tried()] += 1
        self.assertGreater(min(found[True, True], found[True, False], found[False, True]), 30, found)

    def test_cut_out_row_by_row(self):
        for sizes, samples, patch in good(600, "cut out"):
            height, width, pitch, h, k = sizes
            rows = [samples[r * pitch:r * pitch + width] for r in range(height)]
            wanted = brute.ranks(patch[:h * k])
            listed = []
            for r in range(height - h + 1):
                for c in range(width - k + 1):
                    cut = [row[c:c + k] for row in rows[r:r + h]]
                    if brute.ranks([sample for row in cut for sample in row]) == wanted:
                        listed.append(r * width + c)
            self.assertEqual(search(samples, patch, *sizes)[1], listed, sizes)

    def test_samples_that_have_no_say(self):
        rng, changed = random.Random("no say"), 0
        for sizes, samples, patch in good(800, "say"):
            height, width, pitch, h, k = sizes
            right = search(samples, patch, *sizes)
            said = {r * pitch + c for r in range(height) for c in range(width)}
            other = [s if t in said else rng.randrange(65536) for t, s in enumerate(samples)]
            changed += other != samples
            self.assertEqual(search(other, patch[:h * k] + [rng.randrange(65536)], *sizes), right)
            self.assertEqual(search(samples[:max(said) + 1], patch[:h * k], *sizes), right)
            # packed, with no sample between the rows
            packed = [samples[t] for t in sorted(said)]
            self.assertEqual(search(packed, patch, height, width, width, h, k), right)
        self.assertGreater(changed, 200)
        self.assertEqual(len({case.expected() for case in scenes.paddings()}), 1)

    def test_only_the_order_of_levels_counts(self):
        rng = random.Random("levels")
        for sizes, samples, patch in good(300, "order"):
            levels = sorted({*samples})
            values = dict(zip(levels, sorted(rng.sample(range(65536), len(levels)))))
            other = [values[s] for s in samples]
            self.assertEqual(search(other, patch, *sizes), search(samples, patch, *sizes))

    def test_one_row_is_a_trace(self):
        rng, found = random.Random("one row"), 0
        for _ in range(500):
            row = scenes.picture(rng, 1, rng.randrange(1, 60))[0]
            k = rng.randrange(1, min(len(row), 8) + 1)
            x = rng.randrange(len(row) - k + 1)
            patch = rng.choice((row[x:x + k], scenes.picture(rng, 1, k)[0]))
            tried, listed = search(row, patch, 1, len(row), len(row), 1, k)
            counts, _, positions = search_trace(patch, row)
            self.assertEqual((tried, listed), (counts[0], positions))
            self.assertEqual(listed, brute.positions(patch, row))
            found += len(listed)
        self.assertGreater(found, 1000)

    def test_a_column_is_a_trace(self):
        rng = random.Random("a column")
        for _ in range(200):
            line = scenes.picture(rng, 1, rng.randrange(1, 40))[0]
            h = rng.randrange(1, min(len(line), 8) + 1)
            patch = rng.choice((line[:h], line[-h:]))
            pitch = rng.choice((1, 2, 5))
            samples = scenes.laid([[level] for level in line], pitch, range(9))
            _, listed = search(samples, patch, len(line), 1, pitch, h, 1)
            self.assertEqual(listed, brute.positions(patch, line))


class Spread(unittest.TestCase):
    def test_every_refusal_comes_up(self):
        met = Counter(answer(case)[0] for case in drawn(700, "spread"))
        self.assertEqual({*met}, {0, *range(22, 27)}, met)

    def test_draws_match_and_do_not(self):
        met = Counter()
        for case in drawn(800, "match"):
            number, *told = answer(case)
            if number:
                continue
            (tried, found), sizes = told, case.sizes
            met["no place"] += tried == 0
            met["none found"] += tried > 0 and found == 0
            met["one found"] += found == 1
            met["some found"] += 1 < found < tried
            met["all found"] += 1 < found == tried
            met["a block or more"] += tried > 0 and sizes.width - sizes.k + 1 > scenes.BLOCK
            met["rows apart"] += tried > 0 and sizes.height > 1 and sizes.pitch > sizes.width
            met["samples behind"] += case.samples.count > sizes.samples_needed()
        self.assertEqual(len(met), 8)
        self.assertGreater(min(met.values()), 10, met)

    def test_columns_at_the_edges_of_blocks(self):
        few, most = {}, Counter()                   # listed where few are; the most that are in a row
        for case in scenes.columns():
            width, columns = case.sizes.width, case.sizes.width - case.sizes.k + 1
            listed = [int(word) for word in case.expected().split("\n")[1].split()[1:] if word.isdigit()]
            if len(listed) < 20:
                few.setdefault(columns, set()).update(place % width for place in listed)
            most[columns] = max(most[columns], *Counter(place // width for place in listed).values())
        self.assertEqual([*few], [1, 2, 63, 64, 65, 127, 128, 129, 191, 255, 256, 257])
        for columns, listed in few.items():
            wanted = {0, 63, 64, 126, 127, 128, 129, 255, columns - 1} & {*range(columns)}
            self.assertLessEqual(wanted, listed, columns)
            self.assertEqual(most[columns], columns)

    def test_places_that_stand_for_a_while(self):
        met, ended = set(), set()
        for case in scenes.standing():
            sizes, samples, patch = case.sizes, case.samples.whole(), case.patch.whole()
            columns = sizes.width - sizes.k + 1
            starts = range(0, columns, scenes.BLOCK)
            listed = set(frames.positions(samples, patch, sizes))
            for r in range(sizes.height - sizes.h + 1):
                under = [frames.under(samples, sizes, r, c) for c in range(columns)]
                for after in (n for n in scenes.AFTER if n <= len(patch)):
                    wanted = brute.ranks(patch[:after])
                    stands = [brute.ranks(levels[:after]) == wanted for levels in under]
                    met |= {(after, sum(stands[at:at + scenes.BLOCK])) for at in starts}
                    if after < len(patch):
                        ended |= {(after, r * sizes.width + c in listed) for c in range(columns) if stands[c]}
        for after in (8, 9, 16, 17):
            for standing in (0, 1, 11, 12, 13, 128):
                self.assertIn((after, standing), met)
            self.assertLessEqual({(after, True), (after, False)}, ended)

    def test_large_ones_are_few_and_last(self):
        large = [case.samples.count > 100000 for case in scenes.corners()]
        self.assertEqual(large, sorted(large))
        self.assertIn(sum(large), range(5, 15))
        self.assertLess(max(case.samples.count for case in drawn(1000, "small")), 3000)
        most = next(case for case in scenes.large() if case.sizes.h * case.sizes.k == 1)
        self.assertEqual(most.positions, 1 << 20)

    def test_levels_at_the_ends(self):
        # Taken for signed, 32768 and 65535 would be darker than 0.
        signed = 0
        for case in islice(scenes.orders(), 30):
            samples, patch = case.samples.whole(), case.patch.whole()
            wrong = [[s - 65536 if s > 32767 else s for s in levels] for levels in (samples, patch)]
            signed += frames.positions(*wrong, case.sizes) != frames.positions(samples, patch, case.sizes)
        self.assertGreater(signed, 10)
