"""Cases of frames: fixed corners, the large ones last, and draws.

A program may take a row's columns in blocks, of 128 say, and turn to single
places where few of a block are left. So there are corners with about 64, 128
and 256 columns to try, and with 0, 1, 11, 12, 13 or all places of a block that
stand after 8, 9, 16 or 17 samples of the patch.
"""

import random
from itertools import combinations, cycle, islice, permutations

from . import brute
from .facts import FRAME_MAX, GREY_MAX, PATCH_MAX
from .frames import Sizes
from .stream import Frame, Greys

BLOCK = 128
STANDING = (1, 11, 12, 13)              # places of a block, beside none and all
AFTER = (8, 9, 16, 17)                  # samples of the patch
EVERY = range(GREY_MAX + 1)
ENDS = [0, 32767, 32768, GREY_MAX]      # of the levels, and where a sign would change
TOP = 1 << 64                           # what no size reaches


# --- making ----------------------------------------------------------------

def flat(rows):
    return [sample for row in rows for sample in row]


def in_rows(samples, k):
    return [samples[at:at + k] for at in range(0, len(samples), k)]


def laid(rows, pitch, between):
    """The rows at this pitch, with the samples of `between` in turn where none of them is."""
    others, samples = cycle(between), []
    for row in rows[:-1]:
        samples += row + list(islice(others, pitch - len(row)))
    return samples + rows[-1]


def scene(rows, patch, pitch=None, between=(0,)):
    """A frame and a patch, given as rows, in buffers of just the right length."""
    width = len(rows[0])
    sizes = Sizes(len(rows), width, width if pitch is None else pitch, len(patch), len(patch[0]))
    return Frame(sizes, Greys.of(laid(rows, sizes.pitch, between)), Greys.of(flat(patch)), sizes.tried())


def changed(case, samples=None, patch=None, positions=None, **sizes):
    """The case with buffers of other lengths, or with other sizes."""
    return Frame(case.sizes._replace(**sizes),
                 case.samples if samples is None else case.samples.resized(samples),
                 case.patch if patch is None else case.patch.resized(patch),
                 case.positions if positions is None else positions)


def noise(rng, height, width, levels):
    return [[rng.choice(levels) for _ in range(width)] for _ in range(height)]


def shuffled(rng, h, k):
    """A patch of levels that all differ."""
    return in_rows(rng.sample(range(h * k), h * k), k)


def rising(height, width):
    """Each sample brighter than all before it."""
    return in_rows(list(range(height * width)), width)


def piece(rows, r, c, h, k):
    return [row[c:c + k] for row in rows[r:r + h]]


def plant(rows, patch, r, c):
    for part, row in zip(patch, rows[r:]):
        row[c:c + len(part)] = part


def alike(rng, rows):
    """Other levels, none of them 0, in the same order."""
    levels = sorted(set(flat(rows)))
    brightest = rng.choice((255, GREY_MAX)) if len(levels) < 256 else GREY_MAX
    values = dict(zip(levels, sorted(rng.sample(range(1, brightest + 1), len(levels)))))
    return [[values[sample] for sample in row] for row in rows]


def broken(rng, rows, place):
    """The same order in all samples before a place, but not with the one that stands there."""
    order = [2 * rank + 1 for rank in brute.ranks(flat(rows))]
    wrong = order[:]
    while brute.ranks(wrong[:place + 1]) == brute.ranks(order[:place + 1]):
        wrong[place] = rng.randrange(2 * len(order) + 1)
    return in_rows(wrong, len(rows[0]))


# --- corners ---------------------------------------------------------------

def edges():
    """What the rules say outright."""
    for beyond in (9, 0, 2, GREY_MAX):
        example = scene([[1, 2, 1], [5, 6, 7]], [[1, 2]], 5, [beyond])
        yield example
        yield changed(example, samples=7)
    yield scene([[1, 2, 1], [5, 6, 7]], [[1], [2], [3]], 5, [9])
    yield scene([[32767, 32768]], [[0, GREY_MAX]])
    one = scene([[9]], [[4]], TOP - 1)
    yield one
    yield changed(one, height=2, positions=2)
    yield changed(one, pitch=0)
    yield changed(one, samples=0, height=0, pitch=0)


def lengths():
    """Buffers of just the length needed, shorter and longer; pitches from the width on."""
    rows, patch = [[1, 2, 1, 3], [5, 6, 7, 2], [2, 2, 9, 9]], [[1, 2], [3, 4]]
    for pitch in (4, 5, 6, 11, 500):
        case = scene(rows, patch, pitch, [3, 9, 0, GREY_MAX])
        count, tried = case.samples.count, case.positions
        yield case
        for samples in (count - 1, count + 1, count + pitch, pitch, 0):
            yield changed(case, samples=samples)
        for length in (3, 5, 9, 0):
            yield changed(case, patch=length)
        for positions in (tried - 1, tried + 1, tried + 5, 0):
            yield changed(case, positions=positions)
        yield changed(case, pitch=3)
        yield changed(case, samples=count + 3, patch=7, positions=tried + 2)


def columns():
    """So many columns to try, and matches at the edges of blocks, each in rows of its own."""
    rng = random.Random("columns")
    for number, tried in enumerate((1, 2, 63, 64, 65, 127, 128, 129, 191, 255, 256, 257)):
        at = sorted({c for c in (0, 63, 64, 126, 127, 128, 129, 255, tried - 1) if c < tried})
        for h, k in ((1, 3), (2, 2), (3, 3), (2, 7)):
            patch = shuffled(rng, h, k)
            rows = [[0] * (tried + k - 1) for _ in range(h * len(at))]
            for r, c in enumerate(at):
                plant(rows, alike(rng, patch), h * r, c)
            pitch = len(rows[0]) + (0, 1, 7)[(number + h) % 3]
            yield scene(rows, alike(rng, patch), pitch, rng.choices(range(9), k=50))
        # a match at each column, and at each but one
        yield scene(rising(2, tried + 2), [[1, 2, 3]])
        yield scene([[c + 2 * (c < tried // 2) for c in range(tried + 2)]], [[1, 2, 3]])


def standing():
    """Blocks of which a known number of places stand after so many samples of the patch."""
    rng = random.Random("standing")
    widths = cycle((BLOCK, 200, 256, 129, 260, 300))
    for h, k in ((3, 3), (4, 4), (5, 5), (1, 16), (1, 18), (18, 1)):
        patch = [[1 + sample for sample in row] for row in rising(h, k)]
        for place in (None, 2, 7, *AFTER):          # where all fall, if they do
            if place is not None and place >= h * k:
                continue
            wanted = in_rows([0 if j == place else s for j, s in enumerate(flat(patch))], k)
            yield scene(rising(h + 1, next(widths) + k - 1), wanted)
    for count in STANDING:                          # a run as long as to have so many
        for after in AFTER:
            for k in (after, 24):
                row = [0] * (BLOCK + k - 1 + rng.choice((0, 0, 1, 36)))
                row[5:5 + count + after - 1] = range(count + after - 1)
                yield scene([row], rising(1, k))
    for h, k in ((3, 3), (4, 4), (5, 5)):           # some that hold out, and others that do not
        for count in STANDING:
            for after in (*(after for after in AFTER if after < h * k), h * k):
                patch, width = shuffled(rng, h, k), next(widths) + k - 1
                rows = [[0] * width for _ in range(h)]
                for number in range(count):
                    whole = after == h * k or number % 3 == 1
                    plant(rows, alike(rng, patch if whole else broken(rng, patch, after)), 0, 7 * number)
                yield scene(rows, patch, width + 2, rng.sample(range(999), 40))
    for beat in (7, 9, 10, 11, 32, 128):            # sawteeth and stripes
        for (h, k), shift in (((1, 16), 0), ((1, 17), 1), ((3, 3), 0), ((3, 3), 1), ((4, 4), 2), ((5, 5), 3)):
            width = next(widths) + k - 1
            rows = [[(c + shift * r) % beat for c in range(width)] for r in range(h + 2)]
            yield scene(rows, piece(rows, 1, 3, h, k), width + 1, range(beat))


def paddings():
    """One frame, and other samples between its rows or another pitch: one list."""
    rng = random.Random("paddings")
    rows = noise(rng, 4, 70, range(3))
    for pitch, between in ((70, [0]), (71, [0]), (71, [GREY_MAX]), (71, [1]), (72, [2, 0]),
                           (75, [0, 1, 2, 1]), (134, [0, 1, 2]), (140, rows[2]), (1000, range(50))):
        yield scene(rows, [[1, 0], [2, 1]], pitch, between)


def fits():
    """Patches that do not fit, and some that just do."""
    rng = random.Random("fits")
    rows = noise(rng, 3, 4, range(5))
    for h, k in ((4, 2), (4, 1), (2, 5), (1, 5), (4, 5), (1024, 1), (1, 1024), (32, 32), (3, 5), (4, 4)):
        case = scene(rows, noise(rng, h, k, range(5)), 6)
        for positions in (0, 2):
            yield changed(case, positions=positions)
        yield changed(case, patch=h * k - 1)        # refused all the same
        yield changed(case, samples=case.samples.count - 1)
    for h, k in ((3, 4), (3, 1), (1, 4), (3, 3), (2, 4)):
        patch = piece(rows, 0, 0, h, k)
        for wanted in (patch, alike(rng, patch), broken(rng, patch, h * k - 1)):
            case = scene(rows, wanted, 5, [1, 2])
            yield case
            yield changed(case, positions=case.positions - 1)
            yield changed(case, positions=case.positions + 2)


def orders():
    """Levels at the ends of their range and about its middle, ties, and single samples."""
    rng = random.Random("orders")
    row = [*ENDS, *reversed(ENDS), *ENDS[::2], *ENDS[1::2], 5, 5, 5, *ENDS, 1, GREY_MAX - 1]
    for pair in (*permutations(ENDS, 2), (7, 7)):
        yield scene([row, row[::-1]], [[*pair]], 40, ENDS)
        yield scene([row, row[::-1], row], [[level] for level in pair], len(row))
    for level in ENDS:
        yield scene([row] * 2, [[level]])
        yield scene([[level] * 80] * 3, [[5, 5], [5, 5]], 81)
        yield scene([[level] * 80] * 3, [[5, 5], [5, 6]], 81)
        yield scene([[level] * 5] * 5, [[level] * 5] * 5)
        yield scene([[level]], [[GREY_MAX - level]])
    for levels in ([0, GREY_MAX], [32767, 32768], [0, 1], ENDS, ENDS + [1, 2, 3]):
        rows = noise(rng, 5, 90, levels)
        for h, k in ((1, 1), (1, 2), (2, 1), (2, 2), (1, 5), (5, 1), (2, 3), (3, 2)):
            yield scene(rows, noise(rng, h, k, levels), 90 + rng.randrange(3), levels)


def pieces():
    """A patch that is a piece of the frame, or in its order: at the corners, and inside."""
    rng = random.Random("pieces")
    for height, width, h, k in ((8, 9, 3, 3), (6, 66, 2, 3), (5, 70, 5, 2), (4, 140, 4, 6),
                                (20, 21, 12, 13), (40, 80, 32, 32)):
        low, right = height - h, width - k
        for levels in (EVERY, range(3)):
            rows = noise(rng, height, width, levels)
            for r, c in ((0, 0), (0, right), (low, 0), (low, right), (low // 2, 1)):
                patch = piece(rows, r, c, h, k)
                yield scene(rows, patch if r else alike(rng, patch), width + rng.randrange(4), levels)


def limits():
    """The most rows, columns and samples of a patch, and one more."""
    for count in (FRAME_MAX, FRAME_MAX + 1):
        line = list(range(count))
        yield scene([line], [[1]])
        yield scene([line], [[1, 2]], count + 3)
        yield scene([[level] for level in line], [[1]])
        yield scene([[level] for level in line], [[1], [2]], 2, [5])
        yield scene([[c * 7 % 31 for c in line]], [[c * 7 % 31 for c in range(18)]])
    for h, k in ((1, 1024), (1024, 1), (32, 32), (16, 64), (31, 33), (1, 1025), (1025, 1), (25, 41),
                 (41, 25), (5, 205), (33, 32), (1024, 2), (2, 1024)):
        height, width = min(h + 1, FRAME_MAX), min(k + 2, FRAME_MAX)
        rows = [[level * 7 % 3001 for level in row] for row in rising(height, width)]
        fits_in = h <= height and k <= width        # then the patch is there
        case = scene(rows, piece(rows, height - h, width - k, h, k) if fits_in else rising(h, k), width + 1)
        yield case
        yield changed(case, patch=h * k - 1)
    level = scene([[6] * 130] * 40, [[1] * 32] * 32, 131)
    yield level
    yield changed(level, patch=PATCH_MAX + 1, h=25, k=41)


def faults():
    """Each refusal by itself, and each two that can hold at once."""
    base = scene([[1, 2, 1, 3], [5, 6, 7, 2], [2, 2, 9, 9]], [[1, 2], [3, 4]], 6, [4, 8])
    known = [(22, {"height": 0}), (22, {"width": 0}), (22, {"h": 0}), (22, {"k": 0}),
             (23, {"height": 1025}), (23, {"width": 1025}), (23, {"h": 1025}), (23, {"k": 1025}),
             (23, {"h": 513}), (24, {"pitch": 3}), (24, {"pitch": 0}),
             (25, {"samples": base.samples.count - 1}), (25, {"patch": 3}),
             (26, {"positions": base.positions - 1}), (26, {"positions": 0})]
    for _, change in known:
        yield changed(base, **change)
    for (number, change), (other, more) in combinations(known, 2):
        if number != other and not {*change} & {*more}:
            yield changed(base, **change, **more)
    yield changed(base, 0, 0, 0, height=0, width=1025, pitch=0)
    yield changed(base, 0, 0, 0, width=1025, pitch=0)
    yield changed(base, 0, 0, 0, pitch=0)
    yield changed(base, 0, 0, 0)
    yield changed(base, positions=0)


def huge():
    """Numbers near 2^32 and 2^64, alone and where a sum or a product that wraps looks right."""
    base = scene([[1, 2, 1, 3], [5, 6, 7, 2], [2, 2, 9, 9]], [[1, 2], [3, 4]], 6, [4, 8])
    for name in Sizes._fields:
        right = getattr(base.sizes, name)
        for number in (1 << 16, 1 << 31, (1 << 32) - 1, 1 << 32, (1 << 32) + right, 1 << 48, (1 << 63) - 1,
                       1 << 63, (1 << 63) + right, TOP - right, TOP - 2, TOP - 1):
            yield changed(base, **{name: number})
    third, last = pow(3, -1, TOP), pow(FRAME_MAX - 1, -1, TOP)
    for h, k in ((1 << 32, 1 << 32), (1 << 33, 1 << 31), (1 << 63, 2), (2, 1 << 63), (TOP - 1, TOP - 1),
                 (TOP - 2, TOP - 2), (3, third), (third, 3), ((1 << 32) + 1, (1 << 32) - 1),
                 (1 << 16, 1 << 16), (65537, 65535), ((1 << 32) + 1, 1), (1, (1 << 32) + 1), (TOP - 1, 1),
                 (1, TOP - 1), (1 << 32, 3), (3, 1 << 32)):
        yield changed(base, h=h, k=k)
        yield changed(base, h=h, k=k, patch=0, positions=0)
    # The samples needed: modulo 2^64, or 2^32, no more than are there.
    for height, width, pitch in ((3, 1, 1 << 63), (2, 1, 1 << 63), (5, 2, 1 << 62), (257, 4, 1 << 56),
                                 (2, 4, TOP - 1), (2, 4, TOP - 3), (2, 4, TOP - 4), (4, 4, third * 8 % TOP),
                                 (1024, 4, last * 20 % TOP), (1024, 4, last * 5 % TOP), (1024, 1, TOP - 1),
                                 (1024, 1024, last * 1024 % TOP), (1024, 1024, TOP - 1), (1024, 1, 1 << 54),
                                 (2, 3, 1 << 32), (3, 3, 1 << 31), (5, 4, 1 << 30), (65, 4, 1 << 26),
                                 (2, 4, (1 << 32) + 4), (2, 4, 1 << 31), (1024, 4, 1 << 22)):
        for samples in (1, width, width + 60):
            yield Frame(Sizes(height, width, pitch, 1, 1), Greys([5], samples), Greys.of([7]), height * width)
    for pitch in (4, 5, 1 << 16, 1 << 31, 1 << 32, (1 << 32) + 1, 1 << 63, TOP - 4, TOP - 1):
        one = scene([[1, 2, 1, 3]], [[1, 2]], pitch)    # asks for no more than its row
        yield one
        for samples in (3, 5, 9):
            yield changed(one, samples=samples)


def tiled(rng, pitch, h, k, at, levels, tile):
    """A frame as large as can be, one tile over and over, and the piece of it that starts at this sample."""
    given = [rng.choice(levels) for _ in range(tile)]
    sizes = Sizes(FRAME_MAX, FRAME_MAX, pitch, h, k)
    patch = [given[(at + step) % tile] for step in sizes.steps()]
    return Frame(sizes, Greys(given, sizes.samples_needed()), Greys.of(patch), sizes.tried())


def large():
    """Frames as large as can be."""
    rng = random.Random("large")
    yield tiled(rng, 1024, 32, 32, 5000, EVERY, 4099)
    yield tiled(rng, 1280, 32, 32, 0, range(2), 16411)
    yield tiled(rng, 1280, 1, 1024, 3 * 1280, EVERY, 2003)
    yield tiled(rng, 1024, 1, 1024, 0, range(3), 1021)
    yield tiled(rng, 1280, 1024, 1, 700, EVERY, 3001)
    yield tiled(rng, 1024, 1024, 1, 64, range(4), 120)
    yield tiled(rng, 1280, 3, 3, 77, range(3), 50021)
    yield tiled(rng, 1100, 4, 5, 64, ENDS, 997)
    single = tiled(rng, 1025, 1, 1, 0, EVERY, 5)
    yield single                                        # no list is longer
    yield changed(single, positions=single.positions - 1)
    yield changed(single, samples=single.samples.count - 1)


def corners():
    for part in (edges, paddings, columns, standing, lengths, fits, orders, pieces, limits, faults, huge,
                 large):
        yield from part()


# --- draws -----------------------------------------------------------------

def picture(rng, height, width):
    """Rows of a kind that strains a search."""
    way = rng.randrange(9)
    if way <= 3:                                    # few levels, many ties
        return noise(rng, height, width, rng.sample(rng.choice((range(256), EVERY)), rng.randrange(1, 5)))
    if way == 4:
        return noise(rng, height, width, EVERY)
    if way == 5:                                    # stripes, upright or slanted
        beat, shift = [rng.randrange(20) for _ in range(rng.randrange(1, 12))], rng.randrange(4)
        return [[beat[(c + shift * r) % len(beat)] for c in range(width)] for r in range(height)]
    if way == 6:                                    # brighter and brighter, but for some samples
        odd, levels = rng.choice((10, 50, 1000)), range(height * width)
        return in_rows([s if rng.randrange(odd) else rng.choice(levels) for s in levels], width)
    if way == 7:                                    # level rows
        return [[rng.randrange(3)] * width for _ in range(height)]
    return noise(rng, height, width, ENDS)


def spoil(rng, case):
    """The case with one or two other sizes, most of which are refused."""
    sizes = case.sizes
    for _ in range(rng.choice((1, 1, 2))):
        name = rng.choice(Sizes._fields)
        right = getattr(case.sizes, name)
        far = rng.choice((1 << 16, 1 << 31, 1 << 32, 1 << 63)) + rng.randrange(-2, 3)
        number = rng.choice((0, 1, right - 1, right - 1, right + 1, 2 * right, rng.randrange(2000), FRAME_MAX,
                             FRAME_MAX + 1, far, (1 << 32) + right, TOP - rng.randrange(1, 4)))
        sizes = sizes._replace(**{name: min(number, TOP - 1)})
    return changed(case, **sizes._asdict())


def draw(rng):
    """Mostly a few rows of some columns, and a patch that is there, or nearly."""
    height = rng.randrange(1, 7)
    width = rng.choice((rng.randrange(1, 41), rng.randrange(1, 41), rng.randrange(60, 151)))
    h, k = rng.randrange(1, min(height, 5) + 1), rng.randrange(1, min(width, rng.choice((3, 6, 30))) + 1)
    if rng.randrange(25) == 0:                      # fits just, or not
        h, k = rng.choice(((height, k), (h, width), (height, width), (height + 1, k), (h, width + 1)))
    rows = picture(rng, height, width)
    way = rng.randrange(6)
    if way <= 2 and h <= height and k <= width:
        patch = piece(rows, rng.randrange(height - h + 1), rng.randrange(width - k + 1), h, k)
    else:
        patch = picture(rng, h, k)
    if way == 3 and h <= height and k <= width:
        for _ in range(rng.randrange(1, 4)):
            wrong = h * k > 1 and rng.randrange(3) == 0
            planted = alike(rng, broken(rng, patch, rng.randrange(1, h * k)) if wrong else patch)
            plant(rows, planted, rng.randrange(height - h + 1), rng.randrange(width - k + 1))
    if rng.randrange(2):
        patch = alike(rng, patch)
    pitch = width + rng.choice((0, 0, 1, 2, 7, rng.randrange(100)))
    if height == 1 and rng.randrange(5) == 0:
        pitch = rng.choice((1 << 32, TOP - 1, width + rng.randrange(TOP - width)))
    between = rng.choice((flat(rows), [0], [GREY_MAX], rng.choices(EVERY, k=20)))
    case = scene(rows, patch, pitch, between)
    if rng.randrange(3) == 0:                       # buffers with some to spare
        case = changed(case, case.samples.count + rng.choice((0, 1, 5, min(pitch, 90))),
                       h * k + rng.choice((0, 1, 5)), case.positions + rng.choice((0, 1, 5)))
    if rng.randrange(20) == 0:                      # or one that is too short
        name, needed = rng.choice((("samples", case.sizes.samples_needed()), ("patch", h * k),
                                   ("positions", case.sizes.tried())))
        case = changed(case, **{name: max(needed - rng.choice((1, 1, 1, needed)), 0)})
    return spoil(rng, case) if rng.randrange(12) == 0 else case
