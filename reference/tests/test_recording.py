"""Recordings and the program's text."""

import struct
import unittest

from same_order import recording, report
from same_order.facts import LOST
from tests.test_examples import P, refusal

T = [5, 8, 6, 6, 9, 7, 7, 2, 4, 3, 3]


class Recordings(unittest.TestCase):
    def test_bytes(self):
        self.assertEqual(recording.made([1, -2], b"ab"),
                         b"ab\1\0\0\0\xfe\xff\xff\xff\x08\0\0\0\2\0\0\0KREC")

    def test_round_trip_and_final_content(self):
        for lead in (b"", b"x", b"12345"):
            for samples in ([], [0], [-2147483648, 2147483647, -1]):
                room = [9] * (len(samples) + 2)
                self.assertEqual(recording.read(recording.made(samples, lead), room),
                                 (len(samples), len(lead)))
                self.assertEqual(room, samples + [9, 9])

    def test_one_recording_before_another(self):
        data = recording.made(T, recording.made(P))
        room = [0] * 11
        self.assertEqual(recording.read(data, room), (11, 28))
        self.assertEqual(recording.read(data[:28], room), (4, 0))

    def test_refusals_in_order(self):
        def file(distance, count, mark=b"KREC", before=8):
            return bytes(before) + struct.pack("<II", distance, count) + mark

        for data, expected in ((b"", (8, 0)), (b"x" * 11, (8, 11)),
                               (file(9, 9, b"krec"), (9, 16)), (file(9, 2), (10, 8)),
                               (file(0, 1 << 30), (10, 8)), (file(12, 3), (11, 8)),
                               (file(4294967292, 1073741823), (11, 8)), (file(8, 2), (12, 2))):
            room = [5]
            self.assertEqual(refusal(recording.read, data, room), expected)
            self.assertEqual(room, [5])


class Writing(unittest.TestCase):
    def test_between_what_stays(self):
        for behind in (b"", b"\xaa"):
            buffer = bytearray(b"\xaa" * 17 + behind)
            self.assertEqual(recording.write(buffer, 1, [-2]), 17)
            self.assertEqual(buffer.hex(" "), "aa fe ff ff ff 04 00 00 00 01 00 00 00 4b 52 45 43"
                             + (" aa" if behind else ""))

    def test_refusals_in_order(self):
        many = [0] * 65537
        for length, used, samples, number in (
                (4, 5, many, 18), (4, 4, many, 19), (4, 0, many, 19), (4, 4, [], 20), (4, 5, [], 18),
                (11, 0, [], 20), (15, 0, [1], 20), (17, 2, [1], 20), (40, (1 << 64) - 1, [1], 18),
                (40, (1 << 64) - 12, [], 18), (4 * 65536 + 11, 0, many[1:], 20),
                (4 * 65537 + 12, 0, many, 19)):
            buffer = bytearray(b"q" * length)
            self.assertEqual(refusal(recording.write, buffer, used, samples), (number, 0))
            self.assertEqual(buffer, b"q" * length)

    def test_the_most_samples(self):
        buffer, samples, room = bytearray(4 * 65536 + 13), list(range(-32768, 32768)), [0] * 65536
        self.assertEqual(recording.write(buffer, 1, samples), len(buffer))
        self.assertEqual(recording.read(buffer, room), (65536, 1))
        self.assertEqual(room, samples)

    def test_the_same_file_again(self):
        file = recording.made([-2147483648, 5, 2147483647], b"lead")
        room = [0] * 3
        count, first = recording.read(file, room)
        buffer = bytearray(file[:first]) + bytes(len(file) - first)
        self.assertEqual(recording.write(buffer, first, room[:count]), len(file))
        self.assertEqual(buffer, file)

    def test_one_after_the_other(self):
        buffer, room = bytearray(84), [0] * 11
        self.assertEqual(recording.write(buffer, 0, P), 28)
        self.assertEqual(recording.write(buffer, 28, T), 84)
        self.assertEqual(recording.read(buffer, room), (11, 28))
        self.assertEqual(room, T)
        self.assertEqual(recording.read(buffer[:28], room), (4, 0))
        self.assertEqual(room[:4], P)


class Text(unittest.TestCase):
    def test_the_program_s_example(self):
        data = recording.made(T, recording.made(P))
        self.assertEqual(len(data), 84)
        self.assertEqual(report.text(data),
                         "windows 8 duels 5 survivors 3 sweep 12 found 3\n0\n3\n7\n")

    def test_refusals(self):
        def both(pattern, trace):
            return recording.made(trace, recording.made(pattern))

        good = both(P, T)
        for data, line in (
                (b"\0" * 16385, "input refusal 13 place 16384"),
                (b"", "trace refusal 8 place 0"),
                (b"five5", "trace refusal 8 place 5"),
                (good[:-1] + b"c", "trace refusal 9 place 80"),
                (recording.made(T), "pattern refusal 8 place 0"),
                (recording.made(T, b"x" * 13), "pattern refusal 9 place 9"),
                (both([], T), "search refusal 1 place 0"),
                (both([3, LOST, LOST], T), "search refusal 21 place 1"),
                (both([LOST], []), "search refusal 21 place 0"),
                (both([LOST], T)[:-1] + b"c", "trace refusal 9 place 68"),
                (both([LOST] * 1025, T), "pattern refusal 12 place 1025"),
                (both([1] * 1025, T), "pattern refusal 12 place 1025"),
                (both(P, [1] * 2049), "trace refusal 12 place 2049"),
                (bytes(16385 - 84) + good, "input refusal 13 place 16384")):
            self.assertEqual(report.text(data), line + "\n")

    def test_lost_stitches(self):
        for pattern, trace, text in (
                ([7], [LOST, LOST], "windows 2 duels 0 survivors 0 sweep 0 found 0\n"),
                ([1, 2, 3], [1, 2, 2, LOST, 1, 2, 3],
                 "windows 5 duels 0 survivors 2 sweep 4 found 1\n4\n")):
            self.assertEqual(report.text(recording.made(trace, recording.made(pattern))), text)

    def test_full_buffers(self):
        data = recording.made([1] * 2048, recording.made([1] * 1024))
        text = report.text(bytes(16384 - len(data)) + data).split("\n")
        self.assertEqual(text[0], "windows 1025 duels 0 survivors 1025 sweep 2047 found 1025")
        self.assertEqual(text[1:], [*map(str, range(1025)), ""])
