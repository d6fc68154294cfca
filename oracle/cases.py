"""The cases of the comparison with the Rust crate, by seed and size. oracle/rust/driver.rs says how a case is written.

KINDS lists them: a kind is a function of dice and a size, which multiplies what is drawn; what is exhaustive does not grow. Encodings are lists
that no rule of document 01 refuses, since the Rust is no oracle elsewhere. Random numbers come from getrandbits alone, so that a seed gives the same
cases under every Python.
"""
import random

from examples import flipped, packed, to_bytes
from model import END, HALF, INFINITY, LAST_TIME, MINUS_ZERO, NAN, ONE, ROWS, field

# quiet and signalling, of both signs; infinities, zeros, the ends of the subnormal and of the normal numbers
SPECIAL = [NAN, NAN | 1, NAN | MINUS_ZERO, 2**64 - 1, INFINITY + 1, INFINITY | 1 << 50, INFINITY | MINUS_ZERO | 1, 2**63 - 1]
SPECIAL += [INFINITY, INFINITY | MINUS_ZERO, 0, MINUS_ZERO, 1, 2**52 - 1, 2**52, INFINITY - 1, MINUS_ZERO | 1, ONE, ONE | MINUS_ZERO, HALF, 2**63 + 1]
STARTS = [0, 1, 1000, 2**32 - 1, 2**63, LAST_TIME - 2**40, LAST_TIME - 40000, LAST_TIME - 16383, LAST_TIME]

# Where a stream may go on, in whole bytes: at the first point; at a value before any window is open; behind the first 1 of a row; and at a time, with a
# window open (document 01's M4).
FIRST = field(1000, 64) + "0" + field(100, 14) + field(ONE, 64)
OPEN = field(0, 64) + "0" + field(10, 14) + field(0, 64) + "0" + "11" + field(2, 6) + field(9, 6) + 10 * "1"
PLACES = [to_bytes(bits).hex() for bits in (field(1000, 64), FIRST + "0", FIRST + "1", OPEN)]


class Dice:
    def __init__(self, seed):
        self.bits = random.Random(seed).getrandbits

    def below(self, count):
        return self.bits(64) % count

    def pick(self, items):
        return items[self.below(len(items))]

    def word(self, count):
        """Random bits, as text."""
        return field(self.bits(count), count) if count else ""

    def hex(self, count):
        """Random bytes, in hex."""
        return "%0*x" % (2 * count, self.bits(8 * count)) if count else ""


def decode(bits):
    return "d " + to_bytes(bits).hex()


def encode(start, points):
    return "e %d" % start + "".join(" %d,%016x" % point for point in points)


# ---- streams


def short_tails(dice, size):
    """Every way to go on by up to two bytes: cut there, and with bytes behind so that the fields are whole."""
    yield "d -"
    for place in PLACES:
        rest = dice.hex(24)
        for tail in [""] + ["%02x" % number for number in range(256)] + ["%04x" % number for number in range(65536)]:
            yield "d " + place + tail
            yield "d " + place + tail + rest


def long_tails(dice, size):
    """Three bytes where a time stands and a window is open: some points, and then a tear or a refusal. All of them, if as many would be drawn."""
    count = 170000 * size
    for number in range(2**24) if count >= 2**24 else (dice.bits(24) for _ in range(count)):
        yield "d %s%06x" % (PLACES[3], number)


def window_fields(dice, size):
    """Each of the 4,096 window fields, with digits and more behind it, and torn there, in the byte that it ends in: a bad window is refused before its digits are missed."""
    for before in FIRST + "0", OPEN + "0":
        for number in range(4096):
            bits = before + "11" + field(number, 12)
            yield decode(bits + dice.word(180))
            yield decode(bits)


def time_fields(dice, size):
    """Each field of the short rows and some of the long one, behind several deltas and near the last time; then the same delta again, and the end."""
    long = [0, 1, 2, 2**31 - 1, 2**31, 2**31 + 1, 2**32 - 1, 2**32 - 100, 2**32 - 16383, 2**32 - 16384]
    for delta in 0, 60, 300, 16383:
        for start in 1000, LAST_TIME - 20000:
            before = field(start, 64) + "0" + field(delta, 14) + field(ONE, 64)
            for prefix, width, _, _ in ROWS:
                for raw in range(2**width) if width < 32 else long + [dice.bits(32) for _ in range(500 * size)]:
                    yield decode(before + prefix + field(raw, width) + "0" + "0" + "0" + END)


def damaged(dice, size):
    """Closed streams: whole, torn at every byte, with each bit changed, and with bytes behind the end."""
    for _ in range(30 * size):
        start, points = series(dice, dice.below(8))
        data = packed(start, points, 4096)
        for count in range(1, len(data) + 1):
            yield "d " + data[:count].hex()
        for place in range(8 * len(data)):
            yield "d " + flipped(data, place).hex()
        for count in 1, 2, 9:
            yield "d " + data.hex() + dice.hex(count)


def long_streams(dice, size):
    """The same of longer series, at some of their bytes and bits."""
    for _ in range(20 * size):
        data = packed(*series(dice, 100 + dice.below(201)), 8192)
        yield "d " + data.hex()
        for _ in range(10):
            yield "d " + data[: dice.below(len(data)) + 1].hex()
            yield "d " + flipped(data, dice.below(8 * len(data))).hex()


def noise(dice, size):
    """Random bytes at each place and from nothing; those at a place are mostly points."""
    for _ in range(10000 * size):
        yield "d " + dice.pick(PLACES) + dice.hex(1 + dice.below(40))
        yield "d " + dice.hex(1 + dice.below(40))


def unusual(dice, size):
    """Streams that no encoder writes and a decoder takes: longer rows than needed, loose windows, zero xors as digits."""
    for _ in range(20000 * size):
        bits, window = field(dice.pick(STARTS), 64) + "0" + dice.word(14) + dice.word(64), 64
        for _ in range(1 + dice.below(6)):
            prefix, width, _, _ = dice.pick(ROWS)
            # near 0 rather often, so that times rise
            bits += dice.pick(["0", prefix + field(dice.below(50) - 10, width), prefix + dice.word(width)])
            kind = dice.below(4)
            if kind == 0:
                bits += "0"
            elif kind == 1:
                bits += "10" + dice.pick([dice.word(window), window * "0"])
            else:
                above = dice.below(64)
                window = 1 + dice.below(64 - above)
                bits += "11" + field(above, 6) + field(window - 1, 6) + dice.pick([dice.word(window), window * "0"])
        yield decode(bits + dice.pick([END, "", "1111" + dice.word(32)]))


# ---- series


def next_dod(dice, delta):
    """A dod of any row that keeps the delta from falling below 0: at a row's ends, one beyond them, or between."""
    _, _, lowest, highest = dice.pick(ROWS)
    dod = dice.pick([0, lowest, highest, lowest - 1, highest + 1, lowest + dice.below(highest - lowest + 1), dice.below(20) - 10])
    return max(min(dod, 2**31), -(2**31) + 1, -delta)


def shaped(dice, above, below):
    """A number with just so many zeros above its digits and below them."""
    width = 64 - above - below
    inner = dice.bits(width - 2) if width > 2 else 0
    return (1 << width - 1 | inner << 1 | 1 if width > 1 else 1) << below


def any_shape(dice):
    above = dice.below(64)
    return above, dice.below(64 - above)


def next_value(dice, value):
    kind = dice.below(6)
    if kind == 0:
        return value
    if kind == 1:
        return dice.pick(SPECIAL)
    if kind == 2:
        return dice.bits(64)
    return value ^ shaped(dice, *any_shape(dice))


def series(dice, count):
    """A start and up to so many points: fewer where the last time is reached."""
    start = dice.pick(STARTS + [dice.bits(64), dice.bits(40)])
    time, delta, value, points = start, dice.pick([0, 1, 10, 16383, dice.below(16384)]), dice.pick(SPECIAL + [dice.bits(64)]), []
    for _ in range(count):
        if time + delta > LAST_TIME:
            break
        time += delta
        points.append((time, value))
        delta += next_dod(dice, delta)
        value = next_value(dice, value)
    return start, points


def random_series(dice, size):
    for number in range(8000 * size):
        yield encode(*series(dice, dice.below(10) if number % 200 else 300))


def row_ends(dice, size):
    """Each row's lowest and highest dod and one beyond each, behind first deltas from 0 to the highest; a large delta comes first where the dod is below 0."""
    ends = sorted({end + step for row in ROWS for end, step in ((row[2], 0), (row[2], -1), (row[3], 0), (row[3], 1))} | {0, 1, -1})
    for dod in ends:
        if not -(2**31) < dod <= 2**31:
            continue
        for first in 0, 1, 64, 16383:
            for start in 0, 1000, LAST_TIME - 2**34:
                deltas = [first, first + 2**31, first + 2**31 + dod, first + 2**31 + dod]
                if first + dod >= 0:
                    yield encode(start, [(start + first, ONE), (start + 2 * first + dod, ONE), (start + 3 * first + 2 * dod, HALF)])
                yield encode(start, [(start + sum(deltas[: n + 1]), dice.pick(SPECIAL)) for n in range(4)])


def last_times(dice, size):
    """Series that end at the last time there is, or near it."""
    for back in range(40):
        for delta in 0, 1, 10, 16383:
            start = LAST_TIME - 3 * delta - back
            yield encode(start, [(start + delta * n, dice.pick(SPECIAL)) for n in (1, 2, 3)])


def window_shapes(dice, size):
    """Each pair of zeros above and below the digits; then an xor inside it, the same shape again, one that is too wide on a side, and one on the other."""
    for above in range(64):
        for below in range(64 - above):
            value, points = dice.bits(64), []
            shapes = [None, (above, below), (above, 63 - above), (above, below), (max(above - 1, 0), below), (above, max(below - 1, 0))]
            for number, shape in enumerate(shapes):
                value ^= shaped(dice, *shape) if shape else 0
                points.append((10 * number, value))
            yield encode(0, points)


def shape_pairs(dice, size):
    """One shape behind another."""
    for _ in range(4000 * size):
        value, points = dice.bits(64), []
        for number in range(4):
            points.append((10 * number, value))
            value ^= shaped(dice, *any_shape(dice))
        yield encode(0, points)


def special_pairs(dice, size):
    for first in SPECIAL:
        for second in SPECIAL:
            yield encode(5, [(7, first), (9, second), (11, first), (13, dice.pick(SPECIAL))])
    for start in STARTS:
        yield encode(start, [])
        yield encode(start, [(start, ONE)])


# ---- the writer and the reader


def one_width(dice, size):
    """Each width at each place within a byte, by writes and by reads; wider ones are 64."""
    for width in list(range(67)) + [255, 256, 2**32 - 1]:
        for place in range(9):
            number, rest = "%x" % dice.bits(64), dice.hex(10)
            yield "w %d:%x %d:%s" % (place, dice.bits(9), width, number)
            yield "w" + place * " b1" + " %d:%s b1 y%s" % (width, number, dice.hex(1))
            yield "r %s%s %d b" % (rest, place * " b", width)
            yield "r %s %d p%d %d y" % (rest, place, width, width)


def writes(dice, size):
    yield "w"
    for _ in range(3000 * size):
        words = [dice.pick(["b0", "b1", "y" + dice.hex(1), "%d:%x" % (dice.below(66), dice.bits(64))]) for _ in range(1 + dice.below(12))]
        yield "w " + " ".join(words)


def reads(dice, size):
    """Up to the first read that is refused, which most lists come to."""
    yield "r -"
    for _ in range(3000 * size):
        words = [dice.pick(["b", "y", "%d" % dice.below(66), "p%d" % dice.below(66)]) for _ in range(1 + dice.below(12))]
        yield "r %s %s" % (dice.hex(dice.below(30)) or "-", " ".join(words))


KINDS = [short_tails, long_tails, window_fields, time_fields, damaged, long_streams, noise, unusual]
KINDS += [random_series, row_ends, last_times, window_shapes, shape_pairs, special_pairs, one_width, writes, reads]


def cases_of(kind, seed, size):
    """A kind's cases. It has dice of its own, so that a change to one kind does not move the others."""
    return kind(Dice(1000 * seed + KINDS.index(kind)), size)


def cases(seed, size):
    """Every case."""
    for kind in KINDS:
        yield from cases_of(kind, seed, size)
