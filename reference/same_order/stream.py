"""Cases as a stream of little-endian bytes, and the answers expected for them.

Each kind of case is a class that can write itself (encode), be read back
(decode) and say what a right program answers (expected). README.md describes
the bytes and the lines.
"""

import random
import struct
from dataclasses import dataclass, field
from itertools import cycle, groupby, islice

from . import brute, calls, frames, recording, report
from .facts import Tables, UNUSED, windows
from .refusals import Refused

GUARD8, GUARD16, GUARD32, GUARD_SAMPLE = 170, 43690, 2863311530, -1431655766
TABLE_ROOM = 1100            # entries of the tables a search case prepares
LONG_CHECK = 20000           # pairs times windows beyond which ranks are used
SOME_CHECK = 100000          # samples times places beyond which ranks are used for some places only


# --- bytes -----------------------------------------------------------------

def put(form, *values):
    return struct.pack("<" + form, *values)


def put_samples(samples):
    count = len(samples)
    if count > 4 and min(samples) == max(samples):
        return put("IBi", count, 0, samples[0])
    width, form = (1, "b") if all(-128 <= s <= 127 for s in samples) else (4, "i")
    return put(f"IB{count}{form}", count, width, *samples)


def put_entries(entries):
    return put(f"H{len(entries)}H", len(entries), *entries)


@dataclass
class Greys:
    """A buffer of grey levels: those given, over and over, until there are `count`."""
    given: list
    count: int

    @classmethod
    def of(cls, samples):
        return cls(samples, len(samples))

    def resized(self, count):
        """A buffer of another length that starts alike."""
        return Greys(self.given[:count], count)

    def whole(self):
        return list(islice(cycle(self.given), self.count))

    def encode(self):
        width, form = (1, "B") if max(self.given, default=0) <= 255 else (2, "H")
        given = len(self.given)
        return put(f"IIB{given}{form}", self.count, given, width, *self.given)


class Reader:
    """Takes a stream apart from front to back."""

    def __init__(self, data):
        self.data, self.at = data, 0

    def take(self, form):
        form = "<" + form
        values = struct.unpack_from(form, self.data, self.at)
        self.at += struct.calcsize(form)
        return values

    def one(self, form):
        return self.take(form)[0]

    def samples(self):
        count, width = self.take("IB")
        if width == 0:
            return [self.one("i")] * count
        form = {1: "b", 4: "i"}[width]
        return list(self.take(f"{count}{form}"))

    def entries(self):
        return list(self.take(f"{self.one('H')}H"))

    def bytes(self):
        return self.one(f"{self.one('I')}s")

    def greys(self):
        count, given, width = self.take("IIB")
        form = {1: "B", 2: "H"}[width]
        return Greys(list(self.take(f"{given}{form}")), count)


# --- lines -----------------------------------------------------------------

def show(name, entries, guard):
    """A buffer as a line; runs of guards and, in u32 buffers, of "unused" are counted."""
    words = [name]
    for value, run in groupby(entries):
        run = list(run)
        if value == guard:
            words.append(f"g{len(run)}")
        elif value == UNUSED:
            words.append(f"u{len(run)}")
        else:
            words += map(str, run)
    return " ".join(words) + "\n"


def head(name, call, accepted):
    """The first line: a refusal, or what `accepted` makes of the answer."""
    try:
        return f"{name} 0 {accepted(call())}\n"
    except Refused as refused:
        return f"{name} {refused.number} {refused.place}\n"


def confirm(pattern, trace, listed):
    """Compare a list of positions with brute force; raise if they part."""
    few = windows(len(pattern), len(trace)) * len(pattern) ** 2 <= LONG_CHECK
    plain = (brute.positions if few else brute.positions_by_rank)(pattern, trace)
    if plain != listed:
        raise AssertionError(f"rules list {listed}, brute force {plain}: {pattern} in {trace}")


def confirm_frame(samples, patch, sizes, listed):
    """Judge places anew, each by itself: all, or of very many some. Raise if the list says otherwise."""
    size, tried = sizes.patch_needed(), sizes.tried()
    patch = patch[:size]
    if tried * size <= SOME_CHECK:
        few = tried * size ** 2 <= LONG_CHECK
        plain = (frames.positions_by_pairs if few else frames.positions_by_rank)(samples, patch, sizes)
        if plain != listed:
            raise AssertionError(f"listed {listed}, by the definition {plain}: {patch}, {sizes}, {samples}")
        return
    draw, share, wanted = random.Random(tried), SOME_CHECK // size, brute.ranks(patch)
    those, places = set(listed), draw.sample(sizes.places(), share)
    places += [divmod(place, sizes.width) for place in draw.sample(listed, min(share, len(listed)))]
    for r, c in places:
        right = brute.ranks(frames.under(samples, sizes, r, c)) == wanted
        if right != (r * sizes.width + c in those):
            raise AssertionError(f"row {r}, column {c}, by the definition {right}: {patch[:9]}.., {sizes}")


# --- the kinds -------------------------------------------------------------

@dataclass
class Prepare:
    pattern: list
    lengths: list                # of the four tables

    def encode(self):
        return put("B", 1) + put_samples(self.pattern) + put("4H", *self.lengths)

    @classmethod
    def decode(cls, reader):
        return cls(reader.samples(), list(reader.take("4H")))

    def expected(self):
        tables = Tables(*([GUARD16] * length for length in self.lengths))
        first = head("prepare", lambda: calls.prepare(self.pattern, tables), lambda _: "0")
        names = ("low", "high", "wi", "wj")
        return first + "".join(show(n, t, GUARD16) for n, t in zip(names, tables))


@dataclass
class Search:
    pattern: list
    lengths: list                # of the four tables
    trace: list
    survivors: int               # lengths of the two list buffers
    positions: int
    damages: list = field(default_factory=list)   # (table 1..4, entry, value)

    def encode(self):
        damages = b"".join(put("BHH", *damage) for damage in self.damages)
        return (put("B", 2) + put_samples(self.pattern) + put("B4H", 1, *self.lengths)
                + put("B", len(self.damages)) + damages + put_samples(self.trace)
                + put("II", self.survivors, self.positions))

    @classmethod
    def decode(cls, reader):
        pattern, made = reader.samples(), reader.one("B")
        if made != 1:
            raise ValueError(f"search case with unknown way {made} of making tables")
        lengths = list(reader.take("4H"))
        damages = [reader.take("BHH") for _ in range(reader.one("B"))]
        return cls(pattern, lengths, reader.samples(), *reader.take("II"), damages)

    def tables(self):
        """Prepared, then damaged, then cut to the lengths lent."""
        tables = Tables(*([0] * TABLE_ROOM for _ in range(4)))
        try:
            calls.prepare(self.pattern, tables)
        except Refused:
            pass                 # they stay all 0
        for number, entry, value in self.damages:
            tables[number - 1][entry] = value
        return Tables(*(table[:length] for table, length in zip(tables, self.lengths)))

    def expected(self):
        survivors, positions = [GUARD32] * self.survivors, [GUARD32] * self.positions

        def call():
            counts = calls.search(self.pattern, self.tables(), self.trace, survivors, positions)
            confirm(self.pattern, self.trace, positions[:counts.found])
            return counts

        first = head("search", call, lambda counts: " ".join(map(str, (0, *counts))))
        return (first + show("survivors", survivors, GUARD32)
                + show("positions", positions, GUARD32))


@dataclass
class Agree:
    m: int
    witness_i: list
    witness_j: list
    x: int
    y: int

    def encode(self):
        return (put("BI", 3, self.m) + put_entries(self.witness_i)
                + put_entries(self.witness_j) + put("II", self.x, self.y))

    @classmethod
    def decode(cls, reader):
        return cls(reader.one("I"), reader.entries(), reader.entries(), *reader.take("II"))

    def expected(self):
        return head("agree", lambda: calls.agree(self.m, self.witness_i, self.witness_j,
                                                 self.x, self.y), int)


@dataclass
class OfBytes:
    """A call on a file's bytes with one lent buffer; `KIND` is its number in the stream."""
    data: bytes
    room: int                    # length of the lent buffer

    def encode(self):
        return put("BI", self.KIND, len(self.data)) + self.data + put("I", self.room)

    @classmethod
    def decode(cls, reader):
        return cls(reader.bytes(), reader.one("I"))


def reading(data, room):
    """The lines of a reading."""
    samples = [GUARD_SAMPLE] * room
    first = head("read", lambda: recording.read(data, samples), lambda answer: "0 %d %d" % answer)
    return first + show("samples", samples, GUARD_SAMPLE)


class Read(OfBytes):
    KIND = 4

    def expected(self):
        return reading(self.data, self.room)


class Report(OfBytes):
    KIND = 5

    def expected(self):
        text = report.text(self.data)
        if text.startswith("windows"):
            confirm(*report.inputs(self.data), [int(line) for line in text.split("\n")[1:-1]])
        return f"report {len(text)}\n" + (text if len(text) <= self.room else "kept\n")


@dataclass
class Write:
    data: bytes                  # at the front of the lent buffer
    spare: int                   # guard bytes behind them
    used: int
    samples: list

    def encode(self):
        return (put("BI", 6, len(self.data)) + self.data + put("IQ", self.spare, self.used)
                + put_samples(self.samples))

    @classmethod
    def decode(cls, reader):
        return cls(reader.bytes(), *reader.take("IQ"), reader.samples())

    def expected(self):
        """What is written and, if it is, the recordings that are then read from the end on."""
        buffer = bytearray(self.data) + bytes([GUARD8]) * self.spare
        answers = []
        first = head("write", lambda: answers.append(recording.write(buffer, self.used, self.samples)),
                     lambda _: f"0 {answers[0]}")
        lines = [first, f"bytes {buffer.hex()}\n"]
        for end in answers:          # grows by the place of each recording found
            lines.append(reading(buffer[:end], end // 4))
            if lines[-1].startswith("read 0 "):
                answers.append(int(lines[-1].split()[4]))
        return "".join(lines)


@dataclass
class Frame:
    sizes: frames.Sizes
    samples: Greys
    patch: Greys
    positions: int               # length of the list buffer

    def encode(self):
        return (put("B5Q", 7, *self.sizes) + self.samples.encode() + self.patch.encode()
                + put("I", self.positions))

    @classmethod
    def decode(cls, reader):
        return cls(frames.Sizes(*reader.take("5Q")), reader.greys(), reader.greys(), reader.one("I"))

    def expected(self):
        samples, patch, positions = self.samples.whole(), self.patch.whole(), [GUARD32] * self.positions

        def call():
            tried, found = frames.search(samples, patch, self.sizes, positions)
            confirm_frame(samples, patch, self.sizes, positions[:found])
            return tried, found

        first = head("frame", call, lambda answer: "0 %d %d" % answer)
        return first + show("positions", positions, GUARD32)


KINDS = {1: Prepare, 2: Search, 3: Agree, 4: Read, 5: Report, 6: Write, 7: Frame}
END = b"\0"


def decode(data):
    """All cases of a whole stream."""
    reader, cases = Reader(data), []
    while kind := reader.one("B"):
        cases.append(KINDS[kind].decode(reader))
    if reader.at != len(data):
        raise ValueError(f"{len(data) - reader.at} bytes after the end of the stream")
    return cases
