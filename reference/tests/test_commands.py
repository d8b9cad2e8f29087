"""The commands, run as a user runs them."""

import subprocess
import sys
import tempfile
import unittest
from pathlib import Path

from same_order import recording, stream

HERE = Path(__file__).resolve().parent.parent
EXAMPLE = recording.made([5, 8, 6, 6, 9, 7, 7, 2, 4, 3, 3], recording.made([4, 9, 6, 6]))


def run(command, *arguments, given=b""):
    return subprocess.run([sys.executable, str(HERE / command), *map(str, arguments)],
                          input=given, capture_output=True, timeout=60)


class Commands(unittest.TestCase):
    def setUp(self):
        folder = tempfile.TemporaryDirectory()
        self.addCleanup(folder.cleanup)
        self.folder = Path(folder.name)

    def good(self, *arguments, **more):
        done = run(*arguments, **more)
        self.assertEqual((done.returncode, done.stderr), (0, b""))
        return done.stdout

    def bad(self, status, message, *arguments, **more):
        done = run(*arguments, **more)
        self.assertEqual((done.returncode, done.stdout), (status, b""), done.stderr)
        self.assertIn(message, done.stderr.decode())
        self.assertNotIn("Traceback", done.stderr.decode())

    def test_krec_round_trip(self):
        for numbers in (b"", b"7", b" -2147483648\n+5\t007 2147483647 "):
            made = self.good("krec", given=numbers)
            samples = [int(word) for word in numbers.split()]
            self.assertEqual(made, recording.made(samples))
            self.assertEqual(self.good("krec", "--show", given=made).split(),
                             [b"%d" % sample for sample in samples])
        self.assertEqual(self.good("krec", "--show", given=EXAMPLE),
                         b"5 8 6 6 9 7 7 2 4 3 3\n")

    def test_krec_lead(self):
        lead = self.folder / "pattern"
        lead.write_bytes(self.good("krec", given=b"4 9 6 6"))
        self.assertEqual(self.good("krec", "--lead", lead, given=b"5 8 6 6 9 7 7 2 4 3 3"),
                         EXAMPLE)

    def test_krec_largest(self):
        self.assertEqual(len(self.good("krec", given=b"1 " * 65536)), 4 * 65536 + 12)
        self.bad(2, "65537 samples", "krec", given=b"1 " * 65537)

    def test_krec_bad(self):
        self.bad(1, "refusal 8 place 5", "krec", "--show", given=b"12345")
        self.bad(1, "refusal 9 place 80", "krec", "--show", given=EXAMPLE[:-1] + b"k")
        for numbers in (b"2147483648", b"-2147483649", b"9" * 5000):
            self.bad(2, "range", "krec", given=numbers)
        for numbers in (b"1 x", b"1_0", b"1.5", b"--1", b"\xff", "٣".encode()):
            self.bad(2, "not an integer", "krec", given=numbers)
        self.bad(2, "No such file", "krec", "--lead", self.folder / "none", given=b"1")
        self.bad(2, "not allowed with", "krec", "--show", "--lead", "x", given=b"1")
        self.bad(2, "unrecognized", "krec", "--sho", given=b"1")
        self.bad(2, "expected one argument", "krec", "--lead", given=b"1")

    def test_search(self):
        self.assertEqual(self.good("search", given=EXAMPLE),
                         b"windows 8 duels 5 survivors 3 sweep 12 found 3\n0\n3\n7\n")
        self.assertEqual(self.good("search", given=b"short"), b"trace refusal 8 place 5\n")
        lost = recording.made([1], recording.made([3, -2147483648]))
        self.assertEqual(self.good("search", given=lost), b"search refusal 21 place 1\n")
        self.bad(2, "unrecognized", "search", "file")

    def cases(self, name, **changes):
        options = {"kind": "search", "count": 200, "seed": 4,
                   "input": self.folder / f"{name}.in", "expected": self.folder / f"{name}.out"}
        options.update(changes)
        return [part for key, value in options.items() if value is not None
                for part in (f"--{key}", value)]

    def test_cases(self):
        for name, seed in (("one", 4), ("two", 4), ("three", 5)):
            self.assertEqual(self.good("cases", *self.cases(name, seed=seed)), b"")
        one, two, three = ([(self.folder / f"{name}.{end}").read_bytes() for end in ("in", "out")]
                           for name in ("one", "two", "three"))
        self.assertEqual(one, two)
        self.assertNotEqual(one[0], three[0])
        cases = stream.decode(one[0])
        self.assertEqual(len(cases), 200)
        self.assertEqual("".join(case.expected() for case in cases).encode(), one[1])

    def test_no_cases(self):
        self.good("cases", *self.cases("empty", kind="all", count=0))
        self.assertEqual((self.folder / "empty.in").read_bytes(), b"\0")
        self.assertEqual((self.folder / "empty.out").read_bytes(), b"")

    def test_cases_bad(self):
        for message, changes in (("invalid choice", {"kind": "sort"}),
                                 ("not a whole number", {"count": "-1"}),
                                 ("not a whole number", {"count": "many"}),
                                 ("not a whole number", {"seed": "1.5"}),
                                 ("required: --seed", {"seed": None}),
                                 ("required: --input", {"input": None}),
                                 ("same file", {"input": self.folder / "x.out"}),
                                 ("No such file", {"input": self.folder / "no" / "where"})):
            self.bad(2, message, "cases", *self.cases("x", **changes))
