#!/usr/bin/env python3
"""What the program `marked` must print, from document 01's rules alone, as model.py has them.

    python3 oracle/marked.py > crates/marked/stdout

It shares nothing with the program but the cases, which both list. What document 01 states of M1 to M10 is held against what comes out.
"""
from model import HALF, INFINITY, LAST_TIME, MINUS_ZERO, NAN, ONE
from model import Codec, answers, bits, bytes_of, dirt, field, put, told


def show(buf, count):
    print(bytes_of(buf[: 8 * count]) + "|" + bytes_of(buf[8 * count :]))


class Encoder(Codec):
    """Each call with a line that says what it was given and what it answered."""

    def __init__(self, title, start, buf):
        super().__init__(start, buf)
        self.refusals = []
        print("%s: start %d\nopen on %d bytes: %s" % (title, start, len(buf) // 8, told(1 if self.closed else 0, "done")))

    def line(self, time, value, answer=""):
        """A point, what it was answered if it was offered, its code and the window after it."""
        late, head, digits, window = self.code(time, value)
        fields = int(head, 2), len(head), int("0" + digits, 2), len(digits)
        code = "%d bits %x/%d %x/%d window %d %d" % (len(head + digits), *fields, *window)
        return "%d %016x: %scode %s" % (time, value, answer, told(late, code))

    def offer(self, buf, *points):
        for time, value in points:
            code = self.line(time, value, "%s, ")
            refusal = self.add(buf, time, value)
            print(code % told(refusal, "done"))
            self.refusals.append(refusal)
        return self

    def close(self, buf):
        refusal = self.finish(buf)
        print("close:", told(refusal, "%d bits, %d bytes" % (len(self.stream), (len(self.stream) + 7) // 8)))
        return self


def decode(buf, *counts):
    """So many bytes: each answer, and the last one again."""
    for count in counts:
        lines = list(answers(buf[: 8 * count]))
        print("\n".join(["decode %d bytes: done" % count] + lines + lines[-1:]))


def finished(encoder, buf):
    """Closed, shown and decoded."""
    used = (len(encoder.close(buf).stream) + 7) // 8
    show(buf, used)
    decode(buf, used)
    return encoder


def encoded(title, start, *points, count=48):
    """A series from its opening to its decoding."""
    buf = dirt(count)
    return finished(Encoder(title, start, buf).offer(buf, *points), buf)


def cut(title, start, *points):
    """A series decoded at each number of bytes up to its own, then with the dirty bytes behind it."""
    buf = dirt(48)
    used = (len(Encoder(title, start, buf).offer(buf, *points).close(buf).stream) + 7) // 8
    show(buf, used)
    decode(buf, *range(used + 1), 48)
    whole = list(answers(buf))
    assert list(answers(buf[: 8 * used])) == whole
    for count in range(used):
        there = [line for line in whole if int(line.split()[-1]) <= 8 * count]
        assert list(answers(buf[: 8 * count])) == there + ["refused 6" if count < 8 else "refused 7"]


def streams(start, first, *texts):
    """Streams bit by bit, behind the start or behind a first point too."""
    for text in texts:
        buf = dirt(48)
        print("start %d%s, then %s" % (start, ", a point" if first else "", text))
        used = put(buf, 0, field(start, 64) + first + bits(text))
        show(buf, (used + 7) // 8)
        decode(buf, (used + 7) // 8)


# M1 to M10, each with what document 01 states of it
m1, m2, m3 = encoded("M1", 0), encoded("M2", 0, (10, 0)), encoded("M3", 0, (10, 0), (20, 0))
assert bytes_of(m1.stream + 4 * "0") == 8 * "00" + "f0" + 4 * "00"
assert bytes_of(m2.stream + 5 * "0") == 9 * "00" + "14" + 7 * "00" + "01" + "e0" + 4 * "00"
assert bytes_of(m3.stream + 3 * "0") == 9 * "00" + "14" + 8 * "00" + "78" + 4 * "00"
m4 = encoded("M4", 0, (10, 0), (20, ONE))
m5 = encoded("M5", 0, (10, 0), (20, ONE), (30, 0))
m6 = encoded("M6", 0, (10, 0), (20, ONE), (30, HALF), (40, 0))
assert m4.stream == m2.stream[:-36] + bits("0 11 000010 001001 1111111111 E") and len(m4.stream) == 204
assert m5.stream == m4.stream[:-36] + bits("0 10 1111111111 E") and len(m5.stream) == 217
assert m6.stream == m4.stream[:-36] + bits("0 10 0000000001 0 10 1111111110 E") and len(m6.stream) == 230
m7 = encoded("M7", 0, (100, 0), (264, 0), (493, 0), (659, 0), (761, 0))
assert m7.stream[143:] == bits("10 1000000 0 110 001000001 0 10 1000001 0 110 111000000 0 E")
m8 = encoded("M8", 0, (100, 0), (2248, 0), (6445, 0), (8594, 0))
assert m8.stream[143:160] == bits("1110 100000000000 0") and len(m8.stream) == 160 + 2 * (36 + 1) + 36
m9 = encoded("M9", 0, (100, 0), (200 + 2**31, 0), (300 + 2**31, 0), (301 + 2**31, 0))
m10 = encoded("M10", 1000, (1000 + 16384, 0), (1000 + 16383, 0))
assert m9.refusals == [0, 0, 4, 0] and m10.refusals == [3, 0]

# others that are encoded
encoded("time falls", 5, (4, 0), (10, 0), (9, ONE), (10, 0))
encoded("one time", 7, (7, 0), (7, ONE), (17, ONE), (17, 0))
encoded("dod rows", 0, (3000, 0), (6256, 0), (9769, 0), (13027, 0), (16029, 0), (16984, 0))
encoded("dod range", 0, (10, 0), (20 + 2**32, 0), (20 + 2**31 + 1, 0), (LAST_TIME, 0), (20, 0))
encoded("last time", LAST_TIME - 20, (LAST_TIME - 10, 0), (LAST_TIME, 0), (0, 0))
encoded("64 digits", 0, (10, 0), (20, 0x8000000000000001), (30, 0x8000000000000000))
encoded("one digit", 0, (10, 0), (20, 1), (30, 0), (40, 2))
encoded("payloads", 0, (10, 0x7FF4DEADBEEF0001), (20, 0xFFFFFFFFFFFFFFFF))
encoded("floats", 0, (10, NAN), (20, MINUS_ZERO), (30, INFINITY))
# M6 from 5 on, and two points that are refused: around the second, the next point's code and the bytes are shown
buf = dirt(48)
encoder = Encoder("refused floats", 5, buf).offer(buf, (4, ONE), (15, 0), (25, ONE))
print(encoder.line(35, HALF))
show(buf, 21)
print(encoder.offer(buf, (24, HALF)).line(35, HALF))
show(buf, 21)
finished(encoder.offer(buf, (35, HALF), (45, 0)), buf)
assert encoder.refusals == [2, 0, 0, 2, 0, 0] and encoder.stream[64:] == m6.stream[64:]

# closed states, buffers of another length, buffers without room
few, buf, other, right, shorter, longer = dirt(12), dirt(28), dirt(30), dirt(28), dirt(27), dirt(29)
Encoder("too few bytes", 7, few).offer(few, (10, ONE)).close(few)
show(few, 0)
done = Encoder("closed", 0, buf).offer(buf, (10, 0)).close(buf)
done.offer(buf, (20, ONE)).close(buf).offer(other, (20, ONE)).close(other)
show(buf, 23)
show(other, 0)
encoder = Encoder("another length", 5, right).offer(shorter, (15, 0), (4, 0)).close(longer)
show(shorter, 0)
show(longer, 0)
encoder.offer(right, (15, 0)).close(right)
show(right, 23)
decode(right, 23)
encoded("13 bytes", 0, (10, 0), (16384, 0), count=13)
encoded("22 bytes", 0, (10, 0), count=22)
encoded("23 bytes", 0, (10, 0), (20, ONE), (9, ONE), (20 + 2**32, ONE), count=23)
encoded("26 bytes", 0, (10, 0), (20, ONE), (30, ONE), (40, ONE), (50, ONE), count=26)
encoded("27 bytes", 0, (10, 0), (20, ONE), (30, 0), count=27)
# a decoder of 23 bytes on 22, 23, 24, 23 and 24: other lengths are refused until it has ended
buf = dirt(23)
Encoder("decoded on others", 0, buf).offer(buf, (10, 0)).close(buf)
point, end = answers(buf)
print("\n".join(["decode 23 bytes: done", "refused 13", point, "refused 13", end, end]))
cut("M1 cut", 0)
cut("M2 cut", 0, (10, 0))
cut("M6 cut", 0, (10, 0), (20, ONE), (30, HALF), (40, 0))

# streams that are no encoder's
POINT, ends = "0" + field(10, 14) + field(0, 64), "1" + 62 * "0" + "1"
streams(0, POINT, "0 11 000001 111111", "0 11 111111 000001", "0 11 000000 111111 " + ends + " E", "0 11 111111 000000 1 E")
streams(0, POINT, "0 10 " + ends + " E", "0 11 000010 001001 0000000000 0 10 0000100000 E", "10 1110110 0 E", "10 1110101")
streams(LAST_TIME - 20, POINT, "0 0 E", "10 0000001")
streams(LAST_TIME, "", "0 00000000000001")
streams(0, POINT, "1111 1" + 31 * "0" + " 0 1111 1" + 30 * "0" + "1 0 E")
streams(0, POINT, "10 0000000 0 110 000000000 0 1110 000000000000 0 1111 " + 31 * "0" + "1 0 E", "0 0 0 0 0 0 1111 " + 31 * "0")
streams(0, "", "1111 " + 31 * "0" + "1", "1000 " + 32 * "0", "1111 " + 27 * "0" + "1")
streams(0, "", "E 1111 11111111", "0 0000000", "0 00000000001010 0")
streams(0, POINT, "1", "110 000000", "0", "1110 000000000001 1", "110 000000001 11 000", "0 11 000010")
streams(0, POINT, "1110 000000000001 11 111111 1", "0 11 000010 001010 1111111111")
