#!/usr/bin/env python3
"""The files of examples/, made by the model alone: streams, and for each what `./run unpack` must write of it.

    python3 oracle/examples.py examples
"""
import os
import struct
import sys

from model import HALF, ONE, Codec, answers, dirt

ROOM = 65536
LIMIT = 16777216


def packed(start, points, room=ROOM):
    """The closed stream, or the number of the point that is refused, from 1 on, and the refusal."""
    buf = dirt(room)
    codec = Codec(start, buf)
    for number, (time, value) in enumerate(points, 1):
        refusal = codec.add(buf, time, value)
        if refusal:
            return number, refusal
    assert codec.finish(buf) == 0
    return to_bytes(codec.stream)


def to_bytes(stream):
    """Bits as bytes, the last byte filled with zeros."""
    stream += "0" * (-len(stream) % 8)
    return bytes(int(stream[i : i + 8], 2) for i in range(0, len(stream), 8))


def to_bits(data):
    return "".join(format(byte, "08b") for byte in data)


def line(time, value):
    return "%d,%016x\n" % (time, value)


def unpacked(data):
    """What unpack writes of a stream."""
    if len(data) > ROOM:
        return "refused 5\n"
    *points, last = answers(to_bits(data))
    lines = [line(int(words[1]), int(words[2], 16)) for words in map(str.split, points)]
    return "".join(lines) + (last if last.startswith("refused") else "end %d" % len(points)) + "\n"


def flipped(data, place):
    """The stream with one bit changed."""
    changed = bytearray(data)
    changed[place // 8] ^= 128 >> place % 8
    return bytes(changed)


def noise(seed):
    """Numbers below 2^31 that look random and are the same everywhere."""
    while True:
        seed = (seed * 1103515245 + 12345) % 2**31
        yield seed // 8


def bits_of(value):
    return struct.unpack(">Q", struct.pack(">d", value))[0]


def shots(count):
    """Shot times in milliseconds, about 8 s apart, with amplitudes in steps of 1/256."""
    numbers, time, points = noise(7), 0, []
    for _ in range(count):
        time += 8000 + next(numbers) % 41 - 20
        points.append((time, bits_of((next(numbers) % 4001 - 2000) / 256)))
    return points


M3 = packed(0, [(10, 0), (20, 0)])
M6 = packed(0, [(10, 0), (20, ONE), (30, HALF), (40, 0)])
# as document 01 has it
assert M3 == bytes(9) + b"\x14" + bytes(8) + b"\x78" + bytes(4)
POINTS = shots(40)
SHOTS = packed(0, POINTS)
NO_POINTS = packed(0, [])


def has_bad_window(stream):
    """Some points as in the whole stream, then a window that does not fit 64 bits."""
    *points, last = unpacked(stream).splitlines()
    return last == "refused 9" and len(points) > 2 and points == unpacked(SHOTS).splitlines()[: len(points)]


BAD_WINDOW = next(filter(has_bad_window, (flipped(SHOTS, place) for place in range(8 * len(SHOTS)))))
STREAMS = {
    "m3": M3,
    "m6": M6,
    "shots": SHOTS,
    "torn": SHOTS[: len(SHOTS) * 2 // 3],
    "bad_end": flipped(NO_POINTS, 99),
    "bad_window": BAD_WINDOW,
}


def files():
    """Each file's name and its bytes."""
    for name, stream in STREAMS.items():
        yield name + ".tsz", stream
        yield name + ".out", unpacked(stream).encode()
    yield "points.txt", "".join(line(*point) for point in POINTS).encode()
    yield "c/demo.out", demo().encode()


# ---- what examples/c/demo.c must print


def said(what, refusal, points, bits):
    return "%s: refusal %d, points %d, bits %d, bytes %d\n" % (what, refusal, points, bits, (bits + 7) // 8)


def pack_said(what, points, room):
    """What tsz_pack says from 0 on, and the stream, which is closed also behind a refused point."""
    if room > LIMIT:
        return said(what, 5, 0, 0), b""
    # a larger one makes no difference to so few points
    buf = dirt(min(room, ROOM))
    codec, refusal, count = Codec(0, buf), 0, 0
    if codec.closed:
        return said(what, 1, 0, 0), b""
    for time, value in points:
        refusal = codec.add(buf, time, value)
        if refusal:
            break
        count += 1
    assert codec.finish(buf) == 0
    return said(what, refusal, count, len(codec.stream)), to_bytes(codec.stream)


def unpack_said(what, data, entries):
    """What tsz_unpack says of a stream and lists with so many entries."""
    if len(data) > LIMIT:
        return said(what, 5, 0, 0)
    *points, last = [words.split() for words in answers(to_bits(data))]
    count = min(len(points), entries)
    bits = int(points[count - 1][-1]) if count else 0
    if entries < len(points):
        return said(what, 1, count, bits)
    if last[0] == "end":
        return said(what, 0, count, int(last[-1]))
    return said(what, int(last[1]), count, bits)


def demo():
    two = [(10, 0), (20, ONE)]
    m4, stream = pack_said("pack", two, 32)
    many = [(10 * number, ONE) for number in range(1, 101)]
    repeat, long = pack_said("points that repeat", many, 48)
    falls, before = pack_said("a time that falls", [(10, 0), (9, 0), (20, 0)], 32)
    return "".join([
        m4,
        " ".join("%02x" % byte for byte in stream) + "\n",
        "behind it: aa\n",
        unpack_said("unpack", stream, 3),
        *("%d %016x\n" % point for point in two + [(7, 7)]),
        unpack_said("lists of the right length", stream, 2),
        unpack_said("torn after 20 bytes", stream[:20], 2),
        unpack_said("one list too short", stream, 1),
        unpack_said("no lists", stream, 0),
        unpack_said("no bytes", b"", 3),
        pack_said("no room for the second point", two, 23)[0],
        falls,
        unpack_said("what was packed before it", before, 3),
        pack_said("12 bytes", two, 12)[0],
        repeat,
        " ".join("%02x" % byte for byte in long) + "\n",
        unpack_said("unpack them", long, 100),
        "%d %016x\n" % many[-1],
        pack_said("into 40 bytes", many, 40)[0],
        pack_said("pack into %d bytes" % LIMIT, two, LIMIT)[0],
        pack_said("pack into %d bytes" % (LIMIT + 1), two, LIMIT + 1)[0],
        # no entries: the bytes behind the stream make no difference
        unpack_said("unpack %d bytes" % LIMIT, stream, 0),
        unpack_said("unpack %d bytes" % (LIMIT + 1), bytes(LIMIT + 1), 0),
    ])


if __name__ == "__main__":
    os.makedirs(os.path.join(sys.argv[1], "c"), exist_ok=True)
    for name, data in files():
        with open(os.path.join(sys.argv[1], name), "wb") as file:
            file.write(data)
