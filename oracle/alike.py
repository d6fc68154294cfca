#!/usr/bin/env python3
"""What the program `alike` must print: Python's own floats, compared as document 01 says of points.

    python3 oracle/alike.py > crates/alike/stdout

It shares nothing with the program but the cases, which both list.
"""
import math
import struct

PATTERNS = [
    0x0000000000000000,
    0x8000000000000000,
    0x0000000000000001,
    0x800FFFFFFFFFFFFF,
    0x0010000000000000,
    0x7FEFFFFFFFFFFFFF,
    0x3FF0000000000000,
    0xBFF0000000000000,
    0x3FF0000000000001,
    0x3FD5555555555555,
    0x7FF0000000000000,
    0xFFF0000000000000,
    0x7FF0000000000001,
    0x7FF8000000000000,
    0xFFF8000000000000,
    0xFFFFFFFFFFFFFFFF,
]


def value(bits):
    return struct.unpack(">d", struct.pack(">Q", bits))[0]


def back(x):
    """A NaN's bits are the one pattern that docs/DECISIONS.md names."""
    return 0x7FF8000000000000 if math.isnan(x) else struct.unpack(">Q", struct.pack(">d", x))[0]


def same(time, x, other, y):
    return time == other and (x == y or math.isnan(x) and math.isnan(y))


for bits in PATTERNS:
    x = value(bits)
    alike = "".join("=" if same(7, x, 7, value(other)) else "." for other in PATTERNS)
    print("%016x %016x 7 %s %s" % (bits, back(x), alike, "=" if same(7, x, 8, x) else "."))
# (1, 2), (2, 2), (3, 2), (0, 2^64 - 1), (2^64 - 1, 0): by the times alone
print("<=><>")
