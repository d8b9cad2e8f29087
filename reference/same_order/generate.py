"""Seeded random cases: a few fixed corners first, then draws of every kind."""

import random
from itertools import islice

from . import brute, recording, report, rules, scenes
from .facts import LOST, NONE, PATTERN_MAX, RECORDING_MAX, SAMPLE_MAX, SAMPLE_MIN, TRACE_MAX, UNUSED, windows
from .stream import TABLE_ROOM, Agree, Prepare, Read, Report, Search, Write

P = [4, 9, 6, 6]
T = [5, 8, 6, 6, 9, 7, 7, 2, 4, 3, 3]
LEAST = LOST + 1             # the least tension, easily taken for a lost stitch


# --- samples ---------------------------------------------------------------

def shape(rng, count):
    """Samples of a shape that strains the rules; all but long slopes fit 8 bits."""
    base, span = rng.randrange(-100, 100), rng.randrange(1, 27)
    way = rng.randrange(9)
    if way <= 1:                                    # few values, many ties
        few = rng.randrange(1, 5)
        return [base + rng.randrange(few) for _ in range(count)]
    if way == 2:
        return [rng.randrange(-128, 128) for _ in range(count)]
    if way == 3:                                    # level runs
        made = []
        while len(made) < count:
            made += [rng.randrange(-9, 10)] * rng.randrange(1, 7)
        return made[:count]
    if way == 4:                                    # rising or falling, perhaps with steps
        step, made = rng.choice((1, -1)), [base]
        for _ in range(count):
            made.append(made[-1] + step * rng.choice((0, 1, 1, 1)))
        return made[:count]
    if way == 5:                                    # sawtooth
        period, step = rng.randrange(2, 10), rng.choice((1, -1))
        return [base + step * (t % period) for t in range(count)]
    if way == 6:                                    # zigzag
        return [base + (t % 2) * span for t in range(count)]
    if way == 7:                                    # periodic
        part = [rng.randrange(-9, 10) for _ in range(rng.randrange(1, 8))]
        return [part[t % len(part)] for t in range(count)]
    return [base] * count                           # level


def extreme(rng, samples, least=LEAST):
    """Some samples moved to the two ends of the range."""
    return [rng.choice((least, SAMPLE_MAX, s, s, s)) for s in samples]


def lowest(samples):
    """The same shape, its least sample being the least tension."""
    down = LEAST - min(samples, default=LEAST)
    return [s + down for s in samples]


def lost_at(places, samples):
    """The samples with a lost stitch at each of these places; places outside do not matter."""
    places = set(places)
    return [LOST if t in places else s for t, s in enumerate(samples)]


def scattered(rng, share, samples):
    """The samples with about one in `share` lost."""
    return [s if rng.randrange(share) else LOST for s in samples]


def lose(rng, pattern, trace):
    """A trace with lost stitches, laid so that some windows are struck and others just not."""
    m, n = len(pattern), len(trace)
    way = rng.randrange(12)
    if way <= 3:
        return scattered(rng, rng.choice((3, 8, 20, 100)), trace)
    if way <= 5:                                    # a run
        first = rng.randrange(n + 1)
        return lost_at(range(first, first + rng.randrange(1, 7)), trace)
    if way <= 7:                                    # at a beat: one in each window, more, or fewer
        beat = max(m + rng.choice((-1, 0, 0, 0, 1, 2)), 1)
        return lost_at(range(rng.randrange(beat), n, beat), trace)
    if way == 8:                                    # at the ends
        return lost_at(rng.choice(((0,), (n - 1,), (0, n - 1))), trace)
    if way == 9:                                    # all, or all but one window
        first, kept = rng.randrange(n + 1), rng.choice((0, m))
        return lost_at({*range(n)} - {*range(first, first + kept)}, trace)
    matches = brute.positions_by_rank(pattern, trace)
    if not matches:
        return trace
    x = rng.choice(matches)                         # right before and behind a match
    return lost_at(rng.choice(((x - 1,), (x + m,), (x - 1, x + m))), trace)


def copy(rng, samples):
    """Other samples in the same order: an isomorphic copy."""
    ranks = sorted(set(samples))
    room = range(-128, 128) if len(ranks) <= 200 else range(-40000, 40000)
    values = dict(zip(ranks, sorted(rng.sample(room, len(ranks)))))
    return [values[s] for s in samples]


def plant(rng, pattern, trace):
    """Copies of the pattern put into the trace, now and then with one sample off."""
    for _ in range(rng.randrange(1, 4)):
        count = windows(len(pattern), len(trace))
        if pattern and count:
            x, part = rng.randrange(count), copy(rng, pattern)
            if rng.randrange(4) == 0:
                place = rng.randrange(len(part))
                part[place] += rng.choice((1, -1)) if abs(part[place]) < 100 else 0
            trace[x:x + len(part)] = part
    return trace


def pair(rng, m, n):
    """A pattern and a trace of these lengths."""
    pattern, trace = shape(rng, m), shape(rng, n)
    way = rng.randrange(6)
    if way <= 1:
        trace = plant(rng, pattern, trace)
    elif way <= 3 and n >= m:                       # the pattern is taken from the trace
        x = rng.randrange(n - m + 1)
        pattern = copy(rng, trace[x:x + m])
    if rng.randrange(30) == 0:
        trace = extreme(rng, trace)
    if rng.randrange(25) == 0:
        pattern = extreme(rng, pattern)
    if rng.randrange(10) == 0:
        trace = lose(rng, pattern, trace if rng.randrange(4) else lowest(trace))
    return pattern, trace


def steady(rng):
    """A steady pattern and a trace mostly like it, in stretches between lost stitches.

    A program may take the windows of such a pattern by the machine word, so
    the stretches hold some 64 of them, or 128.
    """
    m, step = rng.choice((1, 2, 3, 8, 30)), rng.choice((1, 0, -1))
    trace = [LOST] * rng.choice((0, 0, 1, 3))
    for _ in range(rng.randrange(1, 4)):
        at, even = 0, rng.choice((20, 100, 10000))  # how often the trace leaves the step
        for _ in range(m - 1 + rng.choice((63, 64, 65, 128, rng.randrange(1, 150)))):
            trace.append(at)
            at += step if rng.randrange(even) else rng.choice((1, 0, -1))
        trace += [LOST] * rng.choice((0, 1, 1, 2, m, 70))
    return [step * j for j in range(m)], trace


def spoilt(rng, pattern):
    """1 pattern in 40 holds a lost stitch, or several."""
    if not pattern or rng.randrange(40):
        return pattern
    places = range(len(pattern))
    some = rng.choice((places[:1], places[-1:], rng.choices(places), rng.choices(places, k=3), places))
    return lost_at(some, pattern)


# --- lengths ---------------------------------------------------------------

def sizes(rng):
    """Lengths of pattern and trace: mostly small, 1 in 50 middling, 1 in 2000 large."""
    draw = rng.randrange(2000)
    if draw == 0:
        if rng.randrange(2):
            m = rng.choice((rng.randrange(65, 1025), 1023, 1024, 1025))
            return m, rng.randrange(m - 2, m + 300)
        return rng.randrange(1, 20), rng.randrange(1000, 4000)
    if draw <= 40:
        return rng.randrange(1, 65), rng.randrange(401)
    if draw <= 60:
        return rng.choice(((0, 5), (1, 0), (1, 1), (0, 0), (5, 4), (5, 5)))
    return rng.randrange(1, 13), rng.randrange(41)


def lent(rng, needed, limit):
    """A length to lend: enough, with or without some to spare, or 1 in 30 too short."""
    if needed and rng.randrange(30) == 0:
        return min(rng.choice((needed - 1, 0, rng.randrange(needed))), limit)
    return min(needed + rng.choice((0, 0, 1, 3)), limit)


def table_lengths(rng, m):
    if rng.randrange(10):
        spare = rng.choice((0, 0, 1, 3))
        return [min(m + spare, TABLE_ROOM)] * 4
    return [lent(rng, m, TABLE_ROOM) for _ in range(4)]


def damages(rng, m):
    """1 search in 12 finds one or several entries changed (or set to what they were)."""
    if rng.randrange(12):
        return []
    return [(rng.randrange(1, 5),
             min(rng.randrange(m + 1 + rng.randrange(3)), TABLE_ROOM - 1),
             rng.choice((NONE, 0, 1, rng.randrange(m + 1), rng.randrange(65536))))
            for _ in range(rng.choice((1, 1, 1, 2, 4)))]


# --- the kinds -------------------------------------------------------------

def prepare_case(rng):
    m, _ = sizes(rng)
    pattern = shape(rng, m)
    if rng.randrange(15) == 0:
        pattern = extreme(rng, pattern)
    return Prepare(spoilt(rng, pattern), table_lengths(rng, m))


def search_case(rng):
    pattern, trace = steady(rng) if rng.randrange(400) == 0 else pair(rng, *sizes(rng))
    pattern = spoilt(rng, pattern)
    if rng.randrange(400) == 0:                     # above a limit, level to stay compact
        level = rng.choice((rng.randrange(9), LOST))
        if rng.randrange(2):
            pattern = [level] * rng.randrange(PATTERN_MAX + 1, TABLE_ROOM + 1)
        else:
            trace = [level] * rng.randrange(TRACE_MAX + 1, 65600 + 1)
    m, count = len(pattern), windows(len(pattern), len(trace))
    return Search(pattern, table_lengths(rng, m), trace,
                  lent(rng, count, 65600), lent(rng, count, 65600), damages(rng, m))


def agree_case(rng):
    pattern = shape(rng, rng.choice((1, 2, 3, 5, 8, 13)))
    m, tables = len(pattern), rules.tables(pattern)
    wi, wj = tables.witness_i, tables.witness_j
    if rng.randrange(3) == 0:                       # entries as they stand, right or not
        for _ in range(rng.randrange(1, 4)):
            table = rng.choice((wi, wj))
            table[rng.randrange(m)] = rng.choice((NONE, 0, rng.randrange(m), rng.randrange(65536)))
    if rng.randrange(6) == 0:                       # longer or shorter than m
        wi, wj = (w[:lent(rng, m, m)] + [rng.randrange(9)] * rng.randrange(3) for w in (wi, wj))
    if rng.randrange(12) == 0:
        m = rng.choice((0, m + 1, PATTERN_MAX, PATTERN_MAX + 1, 65536 + m, UNUSED))
    x = rng.choice((0, rng.randrange(100), rng.randrange(TRACE_MAX), UNUSED, rng.randrange(UNUSED)))
    y = x + rng.randrange(-len(pattern) - 2, len(pattern) + 3)
    if rng.randrange(10) == 0:
        y = rng.choice((0, x, UNUSED, x + 65536, rng.randrange(UNUSED)))
    return Agree(m, wi, wj, x, min(max(y, 0), UNUSED))


def damaged(rng, data):
    """A recording spoilt in one way."""
    at = len(data) - recording.TRAILER.size
    way = rng.randrange(7)
    if way == 0:                                    # cut short at the end
        return data[:rng.randrange(len(data))]
    if way == 1:                                    # cut at the front: too far back
        return data[rng.randrange(1, len(data)):]
    if way == 2:                                    # mark
        place = rng.randrange(1, 5)
        changed = data[-place] ^ (1 << rng.randrange(8))
        return data[:-place] + bytes([changed]) + data[len(data) - place + 1:]
    if way == 3:                                    # any byte of distance or count
        place = at + rng.randrange(8)
        return data[:place] + rng.randbytes(1) + data[place + 1:]
    distance, count, _ = recording.TRAILER.unpack_from(data, at)
    if way == 4:                                    # count that fits only in 32 bits
        count = (count + rng.choice((1, 2, 3)) * (1 << 30)) % (1 << 32)
    elif way == 5:                                  # fits together, but points before the start
        count += rng.choice((1, 1, 2, 5, 1 << 20))
        distance = 4 * count
    else:
        distance = max(distance + rng.choice((1, -1, 4, -4, 3)), 0)
    return data[:at] + recording.TRAILER.pack(distance, count, recording.MARK)


def lead(rng):
    return rng.randbytes(rng.choice((0, 0, 0, 1, 2, 3, 4, rng.randrange(30))))


def samples(rng, count):
    made = shape(rng, count)
    return extreme(rng, made, SAMPLE_MIN) if rng.randrange(4) == 0 else made


def edge_lead(rng, length):
    """Leading bytes that bring a file of `length` bytes to one of the edge sizes."""
    wanted = rng.choice((16383, 16384, 16385, 16384))
    return rng.randbytes(max(wanted - length, 0))


def read_case(rng):
    draw = rng.randrange(400)
    count = rng.randrange(13)
    if draw == 0:
        count = rng.choice((2048, 2049, 2100, 2101, 4093))
    elif draw < 8:
        count = rng.randrange(100)
    data = recording.made(samples(rng, count))
    data = (edge_lead(rng, len(data)) if draw == 0 else lead(rng)) + data
    if rng.randrange(3) == 0:
        data = damaged(rng, data)
    elif rng.randrange(30) == 0:
        data = rng.randbytes(rng.randrange(30))
    return Read(data, min(lent(rng, count, 2100) if rng.randrange(8) else rng.randrange(20), 2100))


def report_case(rng):
    draw = rng.randrange(400)
    m, n = sizes(rng)
    while max(m, n) > 400:
        m, n = sizes(rng)
    if draw == 0:
        m, n = rng.choice(((3, 2048), (3, 2049), (1024, 1500), (1025, 1100), (1024, 2048)))
    pattern, trace = pair(rng, m, n)
    pattern = spoilt(rng, pattern)
    between = lead(rng) if rng.randrange(20) == 0 else b""    # hides the pattern
    first, second = recording.made(pattern), recording.made(trace, between)
    first = (edge_lead(rng, len(first) + len(second)) if draw == 0 else lead(rng)) + first
    if rng.randrange(10) == 0:
        first = damaged(rng, first)
    if rng.randrange(10) == 0:
        second = damaged(rng, second)
    data = second if rng.randrange(40) == 0 else first + second
    length = len(report.text(data))
    room = rng.choice((length, length, length + 1, length + 50, 40000, length - 1, 0))
    return Report(data, room)


def write_case(rng):
    """Behind no bytes, any bytes or a recording; the room exact, a byte short, or with bytes to spare."""
    count = rng.randrange(100) if rng.randrange(50) == 0 else rng.randrange(13)
    made = samples(rng, count)
    front = recording.made(samples(rng, rng.randrange(6)), lead(rng)) if rng.randrange(3) == 0 else lead(rng)
    used, size = len(front), len(recording.made(made))
    way = rng.randrange(12)
    if way == 0:                                    # some bytes of the front are free
        used = rng.randrange(len(front) + 1)
    elif way == 1:                                  # more in use than there are, by far or not
        used += size + rng.choice((1, 2, 40, 1 << 31, (1 << 32) - 1, (1 << 62), (1 << 64) - 1 - used - size))
    behind = rng.choice((0, 0, 0, -1, -1, 1, 2, 3, 4, 20, rng.randrange(-size, 1)))
    length = min(used, len(front)) + size + behind
    data = front[:length]
    if rng.randrange(2):                            # not guards alone behind the front
        data += rng.randbytes(rng.randrange(length - len(data) + 1))
    return Write(data, length - len(data), used, made)


# --- corners ---------------------------------------------------------------

def prepare_corners():
    yield Prepare(P, [4] * 4)
    yield Prepare([], [0] * 4)
    yield Prepare([7], [1] * 4)
    yield Prepare([LEAST, SAMPLE_MAX], [3] * 4)
    for number in range(4):                         # each table short by itself
        yield Prepare(P, [3 if k == number else 5 for k in range(4)])
    saw = [t % 7 for t in range(1025)]
    yield Prepare(saw[:1024], [1024] * 4)
    yield Prepare(saw, [1100] * 4)
    yield Prepare(list(range(1024)), [1100] * 4)
    yield Prepare([0] * 1024, [1024, 1024, 1024, 1023])
    for pattern in lost_patterns():
        yield Prepare(pattern, [len(pattern)] * 4)
        yield Prepare(pattern, [0] * 4)
    for number in range(4):
        yield Prepare([3, LOST, LOST], [2 if k == number else 3 for k in range(4)])
    yield Prepare([LOST] * 1024, [1024] * 4)
    yield Prepare([0] * 1023 + [LOST], [1100] * 4)
    for room in (1100, 0):                          # too long whatever it holds
        yield Prepare([LOST] * 1025, [room] * 4)
    yield Prepare(lowest(P), [4] * 4)


def lost_patterns():
    """Patterns with a lost stitch at the first, a middle, the last place, at several, at all."""
    yield [LOST]
    yield [LOST, SAMPLE_MAX]
    yield [LEAST, LOST]
    yield [3, LOST, LOST]
    for place in range(4):
        yield lost_at((place,), P)


def exact_search(pattern, trace, **more):
    count = windows(len(pattern), len(trace))
    return Search(pattern, [len(pattern)] * 4, trace, count, count, **more)


def search_corners():
    for pattern, trace in ((P, T), (P, [5] * 5), (P, [1, 2, 3, 4, 5]), ([7], [3, 3]),
                           (P, [1, 2, 3]), (P, [4, 9, 7, 6]), ([1, 2, 3], [1, 2, 3, 4, 5]),
                           ([LEAST, SAMPLE_MAX], [SAMPLE_MAX, LEAST, 0]),
                           ([], [1]), ([1], []), ([1], [1]), ([6, 6], [7, 3, 3, 7, 7]),
                           ([12, 50, 10, 17], [8, 13, 5, 21, 14, 18, 20, 25, 15, 22])):
        yield exact_search(pattern, trace)
    for number in range(1, 5):                      # each table altered by itself
        yield exact_search(P, T, damages=[(number, 3, 5)])
        for later in range(number + 1, 5):          # and a later one with it, at a lower entry
            yield exact_search(P, T, damages=[(later, 0, 5), (number, 3, 5)])
    yield exact_search(P, T, damages=[(4, 3, 5), (4, 1, 5)])
    yield Search(P, [5] * 4, T, 8, 8, [(2, 4, 77)])  # altered past m: no matter
    yield Search(P, [4, 4, 3, 3], T, 7, 7)
    yield Search(P, [4] * 4, T, 7, 7)
    yield Search(P, [4] * 4, T, 9, 7)
    yield Search(P, [4] * 4, T, 10, 12)
    saw = [t % 7 for t in range(1030)]
    yield exact_search(saw[:1024], saw)
    yield exact_search(saw[:1025], saw)
    yield exact_search(P, [5] * TRACE_MAX)
    yield Search(P, [4] * 4, [5] * TRACE_MAX, TRACE_MAX - 4, TRACE_MAX)
    yield exact_search(P, [5] * (TRACE_MAX + 1))
    yield exact_search([1, 2, 3], [t % 100 for t in range(2500)])
    yield from lost_corners()
    yield from stretch_corners()
    yield from long_lost_corners()
    yield from lost_pattern_corners()


def lost_corners():
    """Short traces with lost stitches."""
    for pattern, trace in (([7], [LOST, LOST]), ([1, 2], [1, 2, LOST, 1, 2]),
                           ([1, 2, 3], [1, 2, 2, LOST, 1, 2, 3]), ([7], [LEAST, LOST, LEAST]),
                           ([LEAST, 0], [LEAST, SAMPLE_MAX, LOST, LEAST, LEAST, SAMPLE_MAX]),
                           ([1, 2], [LOST, LEAST]), ([2, 1], [LEAST, LOST]), ([1, 1], [LOST, LOST]),
                           (P, [LOST] * 3), (P, [LOST] * 4), (P, [LOST] * 9), (P, [LEAST] * 5)):
        yield exact_search(pattern, trace)
    low = lowest(T)
    for place in range(len(T)):                     # a lost stitch in place of each one
        yield exact_search(P, lost_at((place,), low if place % 2 else T))
        yield exact_search([1, 2, 3], lost_at((place,), range(len(T))))
    for place in range(len(T) + 1):                 # and between each two: beside every match
        yield exact_search(P, low[:place] + [LOST] + low[place:])
    for m in (1, 2, 3, 4):                          # at a beat: one in every window, then some whole
        for beat in (m, m + 1):
            yield exact_search(P[:m], lost_at(range(beat - 1, 11, beat), T))
    yield exact_search(P, lost_at(range(0, 11, 3), T))      # runs shorter than the pattern
    for run in (1, 3, 4, 9):
        yield exact_search(P, [LOST] * run + T + [LOST] * run + T)
    one = lost_at((5,), T)                          # lists go by all windows, struck or not
    for survivors, positions in ((7, 8), (8, 7), (4, 4), (9, 10)):
        yield Search(P, [4] * 4, one, survivors, positions)
    yield Search(P, [4] * 4, [LOST] * 11, 0, 0)
    for number in range(1, 5):                      # tables are checked for no window too
        yield exact_search(P, [LOST] * 8, damages=[(number, 3, 5)])


def stretch_corners():
    """Steady patterns over traces steady as they are, in stretches of about 64 and 128 windows."""
    for pattern in ([7], [1, 2, 3], [3, 2, 1, 0], [5, 5], list(range(70))):
        m, step, trace = len(pattern), pattern[-1] - pattern[0], []
        for count in (63, 64, 65, 1, 128, 129):
            trace += [step * t for t in range(count + m - 1)] + [LOST]
        yield exact_search(pattern, trace)


def long_lost_corners():
    """Longer traces with one stitch in 100 lost, or all."""
    rng = random.Random("one stitch in 100")
    rising, saw = list(range(2500)), [t % 7 for t in range(2500)]
    for pattern, trace in ((P, saw[:400]), ([0] * 70, [5] * 1000), (rising[:70], rising), (saw[:20], saw)):
        yield exact_search(pattern, scattered(rng, 100, trace))
    yield exact_search(P, [LOST] * TRACE_MAX)


def lost_pattern_corners():
    """Patterns that hold a lost stitch, alone and with what is refused before and after it."""
    for pattern in lost_patterns():
        yield exact_search(pattern, [SAMPLE_MAX, LOST, 0])
        yield Search(pattern, [0] * 4, [SAMPLE_MAX, LOST, 0], 0, 0)
    for number in range(4):
        yield Search([3, LOST, LOST], [2 if k == number else 3 for k in range(4)], T, 9, 9)
    yield exact_search([LOST] * 1025, [LOST] * 1030)
    yield Search([0] * 1024 + [LOST], [0] * 4, [1], 0, 0)
    yield exact_search([0] * 1023 + [LOST], [0] * 1030)
    bad = lost_at((2,), P)
    yield exact_search(bad, [5] * (TRACE_MAX + 1))
    yield Search(bad, [4] * 4, T, 7, 8)
    yield Search(bad, [4] * 4, T, 8, 7)
    for number in range(1, 5):
        yield exact_search(bad, T, damages=[(number, 0, 5)])


def agree_corners():
    wi, wj = [NONE, 0, 0, NONE], [NONE, 1, 1, NONE]
    for x, y in ((0, 0), (0, 1), (1, 0), (0, 2), (0, 3), (3, 0), (0, 4), (UNUSED, UNUSED),
                 (0, UNUSED), (UNUSED, UNUSED - 1)):
        yield Agree(4, wi, wj, x, y)
    yield Agree(4, [0] * 4, [0] * 4, 5, 5)          # entry 0 is not read
    yield Agree(4, [NONE, NONE, 0, 0], [NONE, 1, 1, 1], 0, 1)
    yield Agree(0, [], [], 0, 1)
    yield Agree(4, wi[:3], wj, 0, 9)
    yield Agree(4, wi, wj[:3], 0, 9)
    yield Agree(1024, [NONE] * 1023 + [5], [NONE] * 1024, 7, 1030)
    yield Agree(1025, [NONE] * 1025, [NONE] * 1025, 0, 1)
    yield Agree(UNUSED, [], [], 0, 1)


def read_corners():
    def trailer(distance, count, mark=recording.MARK):
        return recording.TRAILER.pack(distance, count, mark)

    empty = recording.made([])
    yield Read(empty, 0)
    yield Read(empty[1:], 0)
    yield Read(b"", 0)
    yield Read(trailer(0, 1 << 30), 5)
    yield Read(trailer(0, 0, b"KREc"), 0)
    yield Read(trailer(4, 1), 1)
    yield Read(trailer(UNUSED - 3, (1 << 30) - 1), 1)
    yield Read(recording.made([SAMPLE_MIN, -1, SAMPLE_MAX], b"abc"), 4)
    yield Read(recording.made([1, 2, 3]), 2)
    yield Read(recording.made([3], recording.made(P)), 3)
    for count, room in ((2048, 2048), (2048, 2047), (2100, 2100), (2101, 2100)):
        yield Read(recording.made([t % 50 for t in range(count)]), room)
    for size in (16383, 16384, 16385):
        yield Read(bytes(size - 24) + recording.made([1, 2, 3]), 3)


def report_corners():
    good = recording.made(T, recording.made(P))
    length = len(report.text(good))
    for room in (length, length - 1, length + 1, 0):
        yield Report(good, room)
    yield Report(good[-5:], 100)
    yield Report(recording.made(T), 100)           # nothing before the trace
    yield Report(recording.made(T, recording.made([])), 100)
    yield Report(recording.made([], recording.made(P)), 100)
    for size in (16383, 16384, 16385):
        yield Report(bytes(size - len(good)) + good, 100)
    yield Report(b"x" * 16385, 100)
    for m, n in ((1024, 2048), (1025, 10), (1, 2049)):
        yield Report(recording.made([t % 5 for t in range(n)],
                                     recording.made([t % 5 for t in range(m)])), 40000)
    for pattern in lost_patterns():
        yield Report(recording.made(T, recording.made(pattern)), 40000)
    bad = recording.made([3, LOST, LOST])
    yield Report(recording.made([], bad), 40000)
    yield Report(recording.made(T, bad)[:-1], 40000)
    yield Report(recording.made([LOST] * 9, recording.made([LOST] * 1025)), 40000)
    for pattern, trace in (([7], [LOST, LOST]), ([1, 2], [1, 2, LOST, 1, 2]), (P, lost_at((5,), T)),
                           ([LEAST, SAMPLE_MAX], [SAMPLE_MAX, LEAST, LOST, LEAST, 0]),
                           (P, lost_at(range(0, 2048, 90), T * 187))):
        yield Report(recording.made(trace[:2048], recording.made(pattern)), 40000)


def write_corners():
    most = (1 << 64) - 1
    yield Write(b"", 17, 1, [-2])
    yield Write(b"", 18, 1, [-2])
    yield Write(b"", 16, 1, [-2])
    yield Write(b"", 12, 0, [])
    yield Write(b"", 11, 0, [])
    yield Write(b"", 0, 0, [])
    yield Write(b"abc", 0, 3, [])                   # all in use: no room, but none too many
    yield Write(b"abc", 0, 4, [])
    yield Write(b"abc", 0, 4, [7] * (RECORDING_MAX + 1))
    yield Write(b"", 4, 0, [7] * (RECORDING_MAX + 1))
    yield Write(b"", 4, 5, [7] * (RECORDING_MAX + 1))
    for used in (most, most - 11, most - 12, most - 15, (1 << 63) - 1, 1 << 63, 1 << 32):
        yield Write(b"", 40, used, [1])             # a sum that wraps would find room
    yield Write(recording.made(P), 56, 28, T)       # the two recordings of the program's example
    yield Write(recording.made(T, recording.made(P)), 24, 84, [SAMPLE_MIN, -1, SAMPLE_MAX])
    yield Write(bytes(range(256)), 0, 100, [1 << 30, -(1 << 30)])
    long = [(t * 40503 + 7) % 65536 - 32768 for t in range(RECORDING_MAX)]
    size = 4 * RECORDING_MAX + 12
    yield Write(b"ab", size, 2, long)
    yield Write(b"ab", size - 1, 2, long)
    yield Write(b"ab", size + 1, 2, [SAMPLE_MIN] * RECORDING_MAX)
    yield Write(b"", size + 4, 0, [5] * (RECORDING_MAX + 1))


CORNERS = {"prepare": prepare_corners, "search": search_corners, "agree": agree_corners,
           "read": read_corners, "report": report_corners, "write": write_corners,
           "frame": scenes.corners}
DRAWS = {"prepare": prepare_case, "search": search_case, "agree": agree_case,
         "read": read_case, "report": report_case, "write": write_case, "frame": scenes.draw}
KINDS = (*DRAWS, "all")


def endless(kind, rng):
    """Corners, then draws without end; "all" draws nearly half its cases from search."""
    kinds = list(DRAWS) if kind == "all" else [kind]
    for name in kinds:
        yield from CORNERS[name]()
    while True:
        name = "search" if kind == "all" and rng.randrange(3) == 0 else rng.choice(kinds)
        yield DRAWS[name](rng)


def cases(kind, count, seed):
    """The first `count` cases of a kind for a seed."""
    return islice(endless(kind, random.Random(f"{kind}/{seed}")), count)
