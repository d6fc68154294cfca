#!/usr/bin/env python3
"""What the program `lending` must print, from document 01's rules alone, as model.py has them.

    python3 oracle/lending.py > crates/lending/stdout

It shares with the program the calls that are made, and the widths of the fields. What document 01 states of M6's bits is held against what comes out.
"""
from model import HALF, ONE, Codec, answers, dirt, told

WIDTHS = [(64, 1), (14, 64), (1, 2), (6, 6), (10, 1), (2, 10), (1, 2), (10, 4), (32, 2)]


def offer(encoder, buf, *points):
    for time, value in points:
        print("%d %016x: %s" % (time, value, told(encoder.add(buf, time, value), "done")))


def close(encoder, buf):
    refusal = encoder.finish(buf)
    print("close:", told(refusal, "%d bits in %d bytes" % (len(encoder.stream), (len(encoder.stream) + 7) // 8)))


def encode(buf):
    """M6 with a time that falls, closed, and calls after it. Gives the bits of the bytes in use."""
    encoder = Codec(0, buf)
    print("open:", told(1 if encoder.closed else 0, "done"))
    offer(encoder, buf, (10, 0), (20, ONE), (19, ONE), (30, HALF), (40, 0))
    close(encoder, buf)
    offer(encoder, buf, (50, 0))
    close(encoder, buf)
    assert len(encoder.stream) == 230
    assert encoder.stream[168:194] == "010" + "0000000001" + "010" + "1111111110"
    return buf[:232]


def field(buf, place, size):
    """What a read answers, and the place after it."""
    refusal = 13 if place > len(buf) else 7 if place + size > len(buf) else 0
    number = int("0" + "".join(buf[place : place + size]), 2)
    return told(refusal, "%x" % number), place if refusal else place + size


def two(buf, place, *sizes):
    """A line for two reads by one reader, and the place after them."""
    first, behind = field(buf, place, sizes[0])
    second, end = field(buf, behind, sizes[1])
    print("at %d, %d and %d bits: %s, %s" % (place, *sizes, first, second))
    return end


def read(buf, used):
    """The fields of the bytes in use, then past them; then the bytes behind them."""
    print("64 bits behind the start: " + field(used[64:], 0, 64)[0])
    place = 0
    for sizes in WIDTHS:
        place = two(used, place, *sizes)
    two(used, place, 1, 0)
    two(used, 233, 0, 1)
    two(buf, 232, 8, 16)


def decode(buf):
    """Six steps: once there is no point, each answers the same."""
    lines = list(answers(buf))
    print("\n".join(["decode %d bytes" % (len(buf) // 8)] + lines + lines[-1:] * (6 - len(lines))))


DIRTY = dirt(32)
USED = encode(DIRTY)
read(DIRTY, USED)
decode(USED)
decode(USED[: 8 * 21])
