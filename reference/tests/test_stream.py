"""The stream of cases: its bytes, its lines, its spread."""

import unittest
from collections import Counter
from itertools import islice

from same_order import brute, generate, rules, stream
from same_order.facts import LOST, NONE, UNUSED
from same_order.frames import Sizes
from same_order.stream import Greys

KIND_BYTES = {"prepare": 1, "search": 2, "agree": 3, "read": 4, "report": 5, "write": 6,
              "frame": 7}


class Bytes(unittest.TestCase):
    def test_by_hand(self):
        cases = [stream.Prepare([1, -2], [1, 2, 3, 4]),
                 stream.Search([300], [1, 1, 1, 1], [7] * 6, 6, 9, [(4, 2, 513)]),
                 stream.Agree(2, [NONE], [], 1, 258),
                 stream.Read(b"ab", 3), stream.Report(b"", 5), stream.Write(b"xyz", 2, 513, [-1]),
                 stream.Frame(Sizes(2, 3, 258, 1, (1 << 64) - 1), Greys([7, 256], 5), Greys([], 0), 9)]
        data = b"".join((
            b"\1" b"\2\0\0\0\1\1\xfe" b"\1\0\2\0\3\0\4\0",
            b"\2" b"\1\0\0\0\4\x2c\1\0\0" b"\1" b"\1\0\1\0\1\0\1\0" b"\1\4\2\0\1\2"
            b"\6\0\0\0\0\7\0\0\0" b"\6\0\0\0\x09\0\0\0",
            b"\3" b"\2\0\0\0" b"\1\0\xff\xff" b"\0\0" b"\1\0\0\0" b"\2\1\0\0",
            b"\4" b"\2\0\0\0ab" b"\3\0\0\0", b"\5" b"\0\0\0\0" b"\5\0\0\0",
            b"\6" b"\3\0\0\0xyz" b"\2\0\0\0" b"\1\2\0\0\0\0\0\0" b"\1\0\0\0\1\xff",
            b"\7" b"\2\0\0\0\0\0\0\0" b"\3\0\0\0\0\0\0\0" b"\2\1\0\0\0\0\0\0" b"\1\0\0\0\0\0\0\0"
            b"\xff\xff\xff\xff\xff\xff\xff\xff" b"\5\0\0\0\2\0\0\0\2\7\0\0\1" b"\0\0\0\0\0\0\0\0\1"
            b"\x09\0\0\0", b"\0"))
        self.assertEqual(b"".join(case.encode() for case in cases) + stream.END, data)
        self.assertEqual(stream.decode(data), cases)

    def test_written_cases_read_back_within_the_limits(self):
        for kind, number in KIND_BYTES.items():
            cases = list(generate.cases(kind, 1500, 5))
            data = b"".join(case.encode() for case in cases)
            self.assertEqual(stream.decode(data + stream.END), cases)
            for case in cases:
                self.assertIs(type(case), stream.KINDS[number])
                self.limits(case)

    def limits(self, case):
        if isinstance(case, (stream.Prepare, stream.Search)):
            self.assertLessEqual(max(len(case.pattern), *case.lengths), 1100)
        if isinstance(case, stream.Search):
            self.assertLessEqual(max(len(case.trace), case.survivors, case.positions), 65600)
            self.assertTrue(all(1 <= t <= 4 and e < 1100 for t, e, _ in case.damages))
        if isinstance(case, stream.Agree):
            self.assertLessEqual(max(len(case.witness_i), len(case.witness_j)), 1100)
        if isinstance(case, (stream.Read, stream.Report)):
            self.assertLessEqual(len(case.data), 17000)
            self.assertLessEqual(case.room, 2100 if isinstance(case, stream.Read) else 40000)
        if isinstance(case, stream.Write):
            self.assertLessEqual(len(case.data) + case.spare, 262200)
            self.assertLessEqual(len(case.samples), 65537)
            self.assertLess(case.used, 1 << 64)
        if isinstance(case, stream.Frame):
            self.assertLessEqual(case.samples.count, 1310720)
            self.assertLessEqual(case.patch.count, 2100)
            self.assertLessEqual(case.positions, 1048600)
            for greys in (case.samples, case.patch):
                self.assertEqual(bool(greys.given), greys.count > 0)
                self.assertLessEqual(len(greys.given), greys.count)


class Lines(unittest.TestCase):
    def test_by_hand(self):
        p, t = generate.P, generate.T
        for case, lines in (
                (stream.Prepare(p, [5, 4, 6, 4]),
                 "prepare 0 0\nlow 65535 0 0 2 g1\nhigh 65535 65535 1 2\n"
                 "wi 65535 0 0 65535 g2\nwj 65535 1 1 65535\n"),
                (stream.Prepare(p, [4, 0, 6, 4]), "prepare 3 2\nlow g4\nhigh\nwi g6\nwj g4\n"),
                (stream.Prepare([3, LOST], [0, 1, 2, 3]), "prepare 21 1\nlow\nhigh g1\nwi g2\nwj g3\n"),
                (stream.Search(p, [4] * 4, t, 10, 8),
                 "search 0 0 8 5 3 12 3 0\nsurvivors 0 3 7 u5 g2\npositions 0 3 7 u5\n"),
                (stream.Search([1, 2, 3], [3] * 4, [1, 2, 2, LOST, 1, 2, 3], 5, 6),
                 "search 0 0 5 0 2 4 1 3\nsurvivors 0 4 u3\npositions 4 u4 g1\n"),
                (stream.Search([3, LOST], [0] * 4, t, 1, 0), "search 21 1\nsurvivors g1\npositions\n"),
                (stream.Search(p, [4] * 4, t, 10, 8, [(3, 2, 9)]),
                 "search 16 2\nsurvivors g10\npositions g8\n"),
                (stream.Search([0] * 1025, [1100] * 4, [], 0, 0),
                 "search 2 1025\nsurvivors\npositions\n"),
                (stream.Agree(2, [NONE, 0], [NONE, 1], 4, 5), "agree 0 0\n"),
                (stream.Agree(2, [NONE, 0], [NONE, 1], 4, 6), "agree 0 1\n"),
                (stream.Agree(UNUSED, [], [], 4, 6), "agree 2 4294967295\n"),
                (stream.Read(b"xx\xff\xff\xff\xff\4\0\0\0\1\0\0\0KREC", 3),
                 "read 0 0 1 2\nsamples -1 g2\n"),
                (stream.Read(b"x", 3), "read 8 1\nsamples g3\n"),
                (stream.Report(b"x", 24), "report 24\ntrace refusal 8 place 1\n"),
                (stream.Report(b"x", 23), "report 24\nkept\n"),
                (stream.Write(b"y", 17, 1, [-2]),
                 "write 0 0 17\nbytes 79feffffff04000000010000004b524543aa\nread 0 0 1 1\nsamples -2 g3\n"
                 "read 8 1\nsamples\n"),
                (stream.Write(b"", 12, 0, []),
                 "write 0 0 12\nbytes 00000000000000004b524543\nread 0 0 0 0\nsamples g3\nread 8 0\nsamples\n"),
                (stream.Write(b"y", 3, 4, []), "write 20 0\nbytes 79aaaaaa\n"),
                (stream.Write(b"y", 3, 5, []), "write 18 0\nbytes 79aaaaaa\n"),
                (stream.Frame(Sizes(2, 3, 5, 1, 2), Greys([1, 2, 1, 9, 9, 5, 6, 7], 8), Greys([1, 2], 2), 6),
                 "frame 0 0 4 3\npositions 0 3 4 u1 g2\n"),
                (stream.Frame(Sizes(2, 3, 5, 1, 2), Greys([1, 2], 8), Greys([1, 2], 2), 4),
                 "frame 0 0 4 2\npositions 0 4 u2\n"),
                (stream.Frame(Sizes(1, 1, 1, 2, 2), Greys([5], 1), Greys([5], 4), 1),
                 "frame 0 0 0 0\npositions g1\n"),
                (stream.Frame(Sizes(2, 3, 5, 1, 2), Greys([1, 2], 7), Greys([1, 2], 2), 4),
                 "frame 25 0\npositions g4\n")):
            self.assertEqual(case.expected(), lines)

    def test_disagreement_with_brute_force_is_an_error(self):
        for long in (1, 400):
            with self.assertRaises(AssertionError):
                stream.confirm([1, 2], [3, 4, 4] * long, [0, 1])
            with self.assertRaises(AssertionError):
                stream.confirm([1, 2], [LOST, 4, 3] * long, list(range(0, 3 * long, 3)))
        for height, width in ((3, 6), (30, 60), (180, 300)):       # by pairs, by ranks, by some ranks
            sizes, rows = Sizes(height, width, width, 1, 2), [1, 2, 3, 4, 5, 6] * (height * width // 6)
            right = [x for x in range(height * width) if x % 6 != 5]
            stream.confirm_frame(rows, [1, 2], sizes, right)
            for wrong in (right[::2], [*right, 5]):
                with self.assertRaises(AssertionError):
                    stream.confirm_frame(rows, [1, 2], sizes, wrong)


class Spread(unittest.TestCase):
    def heads(self, kind, count, take=2):
        lines = "".join(c.expected() for c in generate.cases(kind, count, 11)).split("\n")
        return Counter(tuple(line.split()[:take]) for line in lines if line.startswith(kind))

    def test_every_refusal_comes_up(self):
        for kind, numbers in (("prepare", (0, 1, 2, 3, 21)), ("search", (*range(7), *range(14, 18), 21)),
                              ("agree", (0, 1, 2, 3)), ("read", (0, 8, 9, 10, 11, 12)),
                              ("write", (0, 18, 19, 20))):
            found = self.heads(kind, 600)
            self.assertEqual(set(found), {(kind, str(number)) for number in numbers})
            self.assertGreater(found[kind, "0"], 300)

    def test_the_first_table_that_differs_decides(self):
        met = {(*case.expected().split()[1:3], *sorted(d[:2] for d in case.damages))
               for case in generate.search_corners() if case.damages}
        for first in range(1, 5):
            self.assertIn((str(13 + first), "3", (first, 3)), met)
            for later in range(first + 1, 5):
                self.assertIn((str(13 + first), "3", (first, 3), (later, 0)), met)
        self.assertIn(("17", "1", (4, 1), (4, 3)), met)

    def test_writing_meets_its_edges(self):
        cases = list(generate.cases("write", 1500, 11))
        exact, short, behind = 0, 0, 0
        for case in cases:
            end = case.used + 4 * len(case.samples) + 12
            room = len(case.data) + case.spare
            exact += end == room
            short += end == room + 1
            behind += case.expected().count("read 0 ") > 1
        self.assertGreater(min(exact, short, behind), 150)       # behind: a recording before it
        counts = {len(case.samples) for case in cases}
        self.assertLessEqual({0, 1, 65536, 65537}, counts)

    def test_every_word_comes_up(self):
        text = "".join(case.expected() for case in generate.cases("report", 600, 11))
        for word in ("windows ", "input refusal 13", "trace refusal 12", "pattern refusal 9",
                     "search refusal 1 ", "search refusal 21 ", "kept"):
            self.assertIn("\n" + word, text)

    def test_searches_match_and_strike(self):
        answers = [case.expected().split("\n")[0].split()[3:]
                   for case in generate.cases("search", 800, 3)]
        counts = [tuple(map(int, answer)) for answer in answers if answer]
        self.assertGreater(sum(c[4] > 0 for c in counts), 200)         # something found
        self.assertGreater(sum(c[1] > 3 for c in counts), 150)         # several duels
        self.assertGreater(sum(c[4] < c[2] for c in counts), 100)      # failed in the sweep

    def test_lost_stitches_come_up(self):
        met, corners = Counter(), len(list(generate.search_corners()))
        for case in islice(generate.cases("search", corners + 1500, 3), corners, None):
            m, trace, answer = len(case.pattern), case.trace, case.expected().split("\n")
            if LOST not in trace or not answer[0].startswith("search 0 "):
                continue
            windows, _, kept, _, found, struck = map(int, answer[0].split()[3:])
            listed = [int(word) for word in answer[2].split()[1:] if word.isdigit()]
            met["some struck, some listed"] += bool(struck and found)
            met["some struck, some fell"] += bool(struck) and kept < windows - struck
            met["all struck"] += bool(windows) and struck == windows
            met["none struck"] += struck == 0
            met["lost first"] += trace[0] == LOST
            met["lost last"] += trace[-1] == LOST
            met["one in each window"] += bool(windows) and all(
                trace[x:x + m].count(LOST) == 1 for x in range(windows))
            met["before a match"] += any(x and trace[x - 1] == LOST for x in listed)
            met["behind a match"] += any(trace[x + m:x + m + 1] == [LOST] for x in listed)
            met["the least tension beside it"] += generate.LEAST in trace
        self.assertEqual(len(met), 10)
        self.assertGreater(min(met.values()), 4, met)

    def test_stretches_of_steady_windows(self):
        for case in generate.stretch_corners():
            arriving = rules.arrivals(len(case.pattern), case.trace)
            runs = Counter(x - k for k, x in enumerate(arriving)).values()
            self.assertLessEqual({63, 64, 65, 128, 129}, set(runs))
            self.assertEqual(brute.positions_by_rank(case.pattern, case.trace), arriving)

    def test_same_seed_same_cases(self):
        corners = sum(len(list(corners())) for corners in generate.CORNERS.values())
        first, again, other = (list(generate.cases("all", corners + 200, s)) for s in (1, 1, 2))
        self.assertEqual(first, again)
        self.assertNotEqual(first, other)
        self.assertEqual({type(case) for case in first}, set(stream.KINDS.values()))
