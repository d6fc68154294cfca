#!/usr/bin/env python3
"""What the program `fields` must print, from document 01's rules alone: a buffer is a string of the characters 0 and 1.

    python3 oracle/fields.py > crates/fields/stdout

It shares nothing with the program but the cases, which both list.
"""

PLACES = [0, 1, 3, 7, 8, 9, 63, 64, 87, 88, 95, 96, 97, 98, 150, 151, 152, 153, 154, 159, 160]
WIDTHS = [0, 1, 7, 8, 9, 63, 64, 65, 256, 2**32 - 1]
VALUE = 0x9E3779B97F4A7C15
LIMIT = 16_777_216


def dirt(count):
    return "".join(format((37 * i + 201) % 256, "08b") for i in range(count))


def fault(bits, place, size, short):
    """The first rule that holds: 13 a place past the end, then the field that does not fit. No buffer here is long enough for 5."""
    if place > len(bits):
        return 13
    if place + size > len(bits):
        return short
    return 0


def told(number, text, place):
    return (" refused %d" % number if number else text) + " at %d" % place


def write(name, bits, place, value, size):
    size = min(size, 64)
    number = fault(bits, place, size, 1)
    if not number and size:
        field = format(value, "064b")[64 - size :]
        rest = -(place + size) % 8
        bits = bits[:place] + field + "0" * rest + bits[place + size + rest :]
    place += 0 if number else size
    shown = "".join("%02x" % int(bits[i : i + 8], 2) for i in range(0, len(bits), 8))
    print("%s:%s %s" % (name, told(number, " done", place), shown))


def read(bits, place, size, moves=True):
    size = min(size, 64)
    number = fault(bits, place, size, 7)
    text = "" if number else " %x" % int("0" + bits[place : place + size], 2)
    return told(number, text, place + size if moves and not number else place)


def cases(count, place):
    bits = dirt(count)
    write("write_byte", bits, place, 0x5A, 8)
    write("write_bit 0", bits, place, 0, 1)
    write("write_bit 1", bits, place, 1, 1)
    for size in WIDTHS:
        write("write %d" % size, bits, place, VALUE, size)
    print("read_byte:%s, read_bit:%s" % (read(bits, place, 8), read(bits, place, 1)))
    for size in WIDTHS:
        print("read %d:%s, peek:%s" % (size, read(bits, place, size), read(bits, place, size, moves=False)))


def convert(n):
    bits = " refused 5" if n > LIMIT else " at %d" % (8 * n)
    print("%d bytes:%s, %d bits: %d" % (n, bits, n, (n + 7) // 8))


def main():
    for place in PLACES:
        print("to bit %d" % place)
        cases(20, place)
    for count, place in [(2, 15), (2, 16), (2, 17), (0, 0), (0, 1)]:
        print("with fewer bytes, from bit %d" % place)
        cases(count, place)
    for n in [0, 1, 7, 8, 9, LIMIT, LIMIT + 1, 2**61, 2**64 - 1]:
        convert(n)


main()
