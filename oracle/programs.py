#!/usr/bin/env python3
"""Cases for the programs unpack and pack at their limits, and what must come out, from the model and from the rules for lines.

    python3 oracle/programs.py DIR

A case is a folder: `name`; `words`, one to a line, the first the program's name; `in`; `out`, `err` and `status`. A folder with `shell` has a
command in place of the words. Programs of the name `both` are a pack whose output an unpack reads. .ci/programs runs them.
"""
import itertools
import os
import re
import sys

from examples import STREAMS, flipped, line, noise, packed, shots, to_bytes, unpacked
from model import HALF, LAST_TIME, ONE, bits, field

NAMES = {1: "no room", 2: "time falls", 3: "first delta", 4: "dod range"}
SPLIT = "pack the lines before it as one stream and those from it on as another, with a START at most 16383 below its time"
ADVICE = {
    1: "there is no room in 65536 bytes for this point behind those before it; " + SPLIT,
    2: "a time may not be below the one before it, nor the first below START",
    3: "the first time may be at most 16383 above START; take a START nearer to it",
    4: "from one step between times to the next the change may be -2147483647 to 2147483648; " + SPLIT,
}
NO_STREAM = "no stream was written; "
FORM = NO_STREAM + "a line is TIME,VALUE: decimal digits, a comma, the value's bits in 16 hex digits\n"
USAGE = "usage: pack START < points > stream; START is a number from 0 to 18446744073709551615, a point is a line TIME,VALUE\n"
LONGEST = 1000
cases = []


def case(name, words, data, out, err="", status=0, **more):
    cases.append(dict(more, name=name, words="".join(word + "\n" for word in words), out=out, err=err, status="%d\n" % status))
    cases[-1]["in"] = data


# ---- unpack


def unpack(name, data):
    out = unpacked(data)
    case("unpack: " + name, ["unpack"], data, out, status=1 if "refused" in out else 0)


def stream(start, *texts):
    """Bits behind a start."""
    return to_bytes(field(start, 64) + "".join(map(bits, texts)))


def unpack_cases(fillings):
    m1, m6, point = packed(0, []), STREAMS["m6"], "0" + field(10, 14) + field(0, 64)
    unpack("empty input", b"")
    for count in [1, 7, 8, 12, 13]:
        unpack("M1 cut to %d bytes" % count, m1[:count])
    for name, data in fillings:
        unpack("65,536 bytes, " + name, data)
        unpack("65,537 bytes, " + name, data + b"\0")
    for byte in [b"\0", b"\xff", b"\xf0"]:
        unpack("M6 and junk up to 65,536 bytes", m6 + byte * (65536 - len(m6)))
        unpack("M6 and junk up to 65,537 bytes", m6 + byte * (65537 - len(m6)))
        unpack("M1 and bytes behind its end", m1 + 9 * byte)
        unpack("65,536 equal bytes", 65536 * byte)
        unpack("65,537 equal bytes", 65537 * byte)
    unpack("a million bytes", 1000000 * b"a")
    # the output is gathered in pages: lines of 37 bytes and then of 38, so that any room is left at a page's end
    for count in range(38):
        times = [10**19 + 10 * (number - count) for number in range(1760)]
        unpack("%d times of 19 digits, then of 20" % count, packed(times[0], [(time, 0) for time in times]))
    case("unpack: a word", ["unpack", "m6.tsz"], m6, "", "usage: unpack < stream > points; it takes no words\n", 2)
    long = packed(5, wild(3, 600, 5))
    for count in range(len(long) - 100, len(long) + 1):
        unpack("a long stream torn at byte %d" % count, long[:count])
    for place in range(64, 8 * len(m6)):
        unpack("M6 with bit %d changed" % place, flipped(m6, place))
    for number, data in [
        (8, stream(0, "1111 " + 31 * "0" + "1")),
        (8, stream(0, "1000 " + 32 * "0")),
        (9, stream(0, point, "0 11 000001 111111")),
        (9, stream(0, point, "0 11 111111 000001")),
        (10, stream(0, point, "10 1110101")),
        (10, stream(0, point, "0 0 1111 1" + 30 * "0" + "1 0 E")),
        (11, stream(LAST_TIME, "0 00000000000001")),
        (11, stream(LAST_TIME - 20, point, "10 0000001")),
    ]:
        assert unpacked(data).endswith("refused %d\n" % number)
        unpack("a stream refused %d" % number, data)
    unpack("the widest window", stream(0, point, "0 11 000000 111111 1" + 62 * "0" + "1 E"))
    unpack("the narrowest window", stream(0, point, "0 11 111111 000000 1 E"))
    unpack("the last time there is", stream(LAST_TIME - 20, point, "0 0 E"))
    for name, data in STREAMS.items():
        unpack("example " + name, data)


# ---- pack


def above(digits):
    digits = digits.lstrip(b"0")
    return len(digits) > 20 or int(b"0" + digits) > LAST_TIME


def fault(text):
    """What is wrong with a line, of which this is all but its end: the first byte that is wrong decides."""
    if not text:
        return "the line is empty"
    time, comma, value = text.partition(b",")
    digits = re.match(rb"[0-9]*", time).group()
    hexes = re.match(rb"[0-9a-fA-F]{0,16}", value).group()
    found = [(LONGEST, 0, "too long")] if len(text) > LONGEST else []
    if b"\r" in text:
        found.append((text.index(b"\r"), 0, "a carriage return that no line feed follows"))
    if digits != time:
        found.append((len(digits), 1, "a byte before the comma is no digit"))
    if digits and above(digits):
        least = next(count for count in range(1, len(digits) + 1) if above(digits[:count]))
        found.append((least - 1, 1, "the time is above 18446744073709551615"))
    if comma and not time:
        found.append((0, 1, "no time before the comma"))
    if not comma:
        found.append((len(text), 1, "no comma"))
    elif hexes != value or len(hexes) != 16:
        found.append((len(time) + 1 + len(hexes), 1, "the value is not 16 hex digits"))
    return min(found)[2] if found else ""


def lines_of(data):
    """The lines, without their ends."""
    *ended, last = data.split(b"\n")
    return [text[:-1] if text.endswith(b"\r") else text for text in ended] + ([last] if last else [])


def pack(name, data, start="0"):
    """The points before the first line that is none are offered; so a point that is refused before it decides."""
    points, wrong = [], ""
    for text in lines_of(data):
        wrong = fault(text)
        if wrong:
            break
        time, value = text.split(b",")
        points.append((int(time), int(value, 16)))
    made = packed(int(start), points)
    err = ""
    if isinstance(made, tuple):
        number, refusal = made
        err = "line %d: refused %d (%s)\n%s%s\n" % (number, refusal, NAMES[refusal], NO_STREAM, ADVICE[refusal])
    elif wrong:
        err = "line %d: no point: %s\n%s" % (len(points) + 1, wrong, FORM)
    case("pack: " + name, ["pack", start], data, b"" if err else made, err, 1 if err else 0)
    return err


def text_of(points):
    return "".join(line(*point) for point in points).encode()


def wild(seed, count, start):
    """Times with steps of every row, values of any bits; now and then the same again."""
    numbers, time, delta, points = noise(seed), start, 0, []
    value = 0
    for number in range(count):
        dod = next(numbers) % [1, 60, 250, 2000, 2**27][next(numbers) % 5] if number else 9
        delta = delta + dod if next(numbers) % 2 or dod > delta else delta - dod
        time += delta
        if next(numbers) % 4:
            value = (next(numbers) << 40 ^ next(numbers) << 20 ^ next(numbers)) % 2**64
        points.append((time, value))
    return points


def wide(count):
    """Points of 102 bits, but for the first two: steps of the last row, xors in a window of 64 digits."""
    times = itertools.accumulate(itertools.cycle([10000, 10]))
    return list(zip(times, itertools.islice(itertools.cycle([0, 2**63 + 1, 2**40, 2**63 - 1]), count)))


def pack_lines():
    zeros, good = b"0" * 16, b"10," + b"0" * 16
    for name, data in [
        ("empty input", b""),
        ("one point", good + b"\n"),
        ("CR LF", good + b"\r\n" + b"20," + zeros + b"\r\n"),
        ("a missing last line feed", good + b"\n20," + zeros),
        ("CR LF and a missing last line feed", good + b"\r\n20," + zeros),
        ("CR LF and LF by turns", good + b"\r\n20," + zeros + b"\n30," + zeros + b"\r\n40," + zeros),
        ("a CR at the end of the input", good + b"\n20," + zeros + b"\r"),
        ("a CR alone", b"\r"),
        ("a CR in the time", b"1\r0," + zeros + b"\n"),
        ("a CR in the value", b"10,0000\r0000" + b"\n"),
        ("two CR", good + b"\r\r\n"),
        ("a CR as a line's end", good + b"\r20," + zeros + b"\r"),
        ("digits of either case", b"10,0123456789aBcDeF\n20,FEDCBA9876543210\n"),
        ("leading zeros", 100 * b"0" + good + b"\n"),
        ("an empty line", good + b"\n\n20," + zeros + b"\n"),
        ("an empty first line", b"\n" + good + b"\n"),
        ("an empty last line", good + b"\n\n"),
        ("an empty line of CR LF", good + b"\r\n\r\n"),
        ("a time of 2^64", b"18446744073709551616," + zeros),
        ("a time of 2^64 + 9", b"18446744073709551625," + zeros),
        ("a time of 21 digits", b"100000000000000000000," + zeros),
        ("a time far larger", 900 * b"9" + b"," + zeros),
        ("a time behind zeros of 2^64", 500 * b"0" + b"18446744073709551616," + zeros),
        ("no comma", b"10\n"),
        ("no comma in the last line", good + b"\n10"),
        ("a blank for the comma", b"10 " + zeros + b"\n"),
        ("a semicolon for the comma", b"10;" + zeros + b"\n"),
        ("two commas", b"10,," + zeros + b"\n"),
        ("a comma behind the value", good + b",\n"),
        ("no time", b"," + zeros + b"\n"),
        ("no value", b"10,\n"),
        ("a comma alone", b","),
        ("15 digits", b"10," + 15 * b"0" + b"\n"),
        ("17 digits", b"10," + 17 * b"0" + b"\n"),
        ("15 digits in the last line", good + b"\n20," + 15 * b"0"),
        ("a letter that is no digit", b"10,000000000000000g\n"),
        ("0x before the value", b"10,0x00000000000000\n"),
        ("bytes beside the digits", b"10,00000000000000:@\n"),
        ("a blank before", b" " + good + b"\n"),
        ("a blank behind the time", b"10 ," + zeros + b"\n"),
        ("a blank before the value", b"10, " + zeros + b"\n"),
        ("a blank behind", good + b" \n"),
        ("a tab behind", good + b"\t\n"),
        ("a minus", b"-" + good + b"\n"),
        ("a plus", b"+" + good + b"\n"),
        ("a fraction", b"1.5," + zeros + b"\n"),
        ("hex in the time", b"1f," + zeros + b"\n"),
        ("a zero byte first", b"\0" + good + b"\n"),
        ("a zero byte in the value", b"10,0000000\x0000000000\n"),
        ("a zero byte alone", b"\0"),
        ("a zero byte behind", good + b"\0\n"),
        ("bytes above 127", b"\xef\xbb\xbf" + good + b"\n"),
        ("bytes above 127 in the value", b"10,000000000000000\xb0\n"),
        ("a million bytes that are no digit, no line feed", 1000000 * b"a"),
        ("a million zero bytes", bytes(1000000)),
        ("a million zeros, no line feed", 1000000 * b"0"),
        ("a million digits behind the comma", b"10," + 1000000 * b"0"),
        ("a million blanks", 1000000 * b" "),
        ("a million line feeds", 1000000 * b"\n"),
        ("a million CR", 1000000 * b"\r"),
        ("1,000 bytes", 981 * b"0" + good + b"\n"),
        ("1,000 bytes and CR LF", 981 * b"0" + good + b"\r\n"),
        ("1,001 bytes", 982 * b"0" + good + b"\n"),
        ("1,000 zeros", 1000 * b"0" + b"\n"),
        ("1,001 zeros", 1001 * b"0" + b"\n"),
    ]:
        pack(name, data)
    # lines across the pieces in which the input is read
    for count in [65533, 65534, 65535, 65536, 65537]:
        few = text_of([(1000 + number, 0) for number in range(3000)])[: count - 21]
        few = few[: few.rindex(b"\n") + 1]
        pack("a line's end at byte %d" % count, few + (count - 20 - len(few)) * b"0" + b"9999,%016x\r\n9999," % 7 + zeros)


def pack_points(narrow, exact, short):
    for start in [0, 1, 5, 2**63, LAST_TIME - 10, LAST_TIME]:
        pack("no points from %d on" % start, b"", str(start))
        pack("the start itself, %d" % start, text_of([(start, ONE)]), str(start))
    pack("a time of 2^64 - 1", text_of([(LAST_TIME - 1, 0), (LAST_TIME, HALF)]), str(LAST_TIME - 10))
    pack("a start behind zeros", text_of([(8, 0)]), "0000000000000000000000000000000000000000000000000000000000007")
    pack("a time below the start", text_of([(4, 0)]), "5")
    pack("a time that falls", text_of([(10, 0), (20, 0), (19, 0), (30, 0)]))
    pack("a time that falls in the last line", text_of([(10, 0), (20, 0), (19, 0)])[:-1])
    pack("a time that falls before a line that is none", text_of([(10, 0), (9, 0)]) + b"x\n")
    pack("a line that is none before a time that falls", text_of([(10, 0)]) + b"x\n" + text_of([(9, 0)]))
    pack("the same time again", text_of([(10, 0), (10, 1), (10, 2)]))
    pack("a first delta of 16,383", text_of([(1000 + 16383, 0)]), "1000")
    pack("a first delta of 16,384", text_of([(1000 + 16384, 0)]), "1000")
    pack("the first delta of the last time", text_of([(LAST_TIME, 0)]))
    for dod, limit in itertools.product([2**31, 2**31 + 1, 2**32, -(2**31) + 1, -(2**31)], ["\n", ""]):
        steps = [(100, 0), (200, 0), (300 + max(dod, 0), 0)] if dod > 0 else [(100, 0), (200 + 2**31, 0), (300 + 2**32 + dod, 0)]
        pack("a dod of %d%s" % (dod, "" if limit else ", no last line feed"), text_of(steps)[:-1] + limit.encode())
    assert "refused 1 " in pack("a point of 2 bits too many", text_of(narrow))
    assert "refused 1 " in pack("a point of 1 bit too many", text_of(short))
    assert "refused 1 " in pack("a point of 1 bit too many, no last line feed", text_of(short)[:-1])
    assert pack("65,536 bytes to the last bit", text_of(exact)) == ""
    assert "refused 1 " in pack("wide points, one too many", text_of(wide(9000)))


def pack_words():
    data = text_of([(10, 0)])
    for words in [[], ["0", "0"], ["0", "x", "y"]]:
        case("pack: %d words" % len(words), ["pack"] + words, data, "", USAGE, 2)
    for word in ["", "x", "-1", "+1", " 1", "1 ", "1e3", "0x10", "1,5", "18446744073709551616", 21 * "9", 5000 * "1", "\x7f", "\u0661"]:
        case("pack: the word '%s'" % word[:30], ["pack", word], data, "", USAGE, 2)


def both(name, start, points):
    lines = text_of(points)
    made = packed(start, points)
    assert isinstance(made, bytes)
    case("pack: " + name, ["pack", str(start)], lines, made)
    case("both: " + name, ["both", str(start)], lines, lines + b"end %d\n" % len(points))


# ---- the page of examples


def shell_cases():
    """Each command of README.md and examples/README.md, behind `$ `, and what the page shows of its output."""
    root = os.path.join(os.path.dirname(__file__), "..")
    for name in "README.md", "examples/README.md":
        page = open(os.path.join(root, name)).read()
        blocks = re.findall(r"```\n(\$ .*?)```", page, re.S)
        assert blocks, "%s shows no command" % name
        for block in blocks:
            for part in re.split(r"^\$ ", block, flags=re.M)[1:]:
                command, shown = part.split("\n", 1)
                command = command.replace("./run ", "./run --built ")
                case("%s: %s" % (name, command), [], "", shown, shell="exec 2>&1\n%s\n" % command)


def main(folder):
    narrow = [(number, 0) for number in range(1, 262100)]
    # 143 bits, then 2 for a point; a last one of 17 bits or 18, and the marker's 36: 524,288 bits or one more
    exact = narrow[:262047] + [(262048, 3)]
    short = narrow[:262047] + [(262048, 5)]
    full = packed(0, exact)
    assert len(full) == 65536 and packed(0, short) == (262048, 1)
    number, refusal = packed(0, wide(9000))
    unpack_cases([("points of 2 bits", full), ("wide points", (packed(0, wide(number - 1)) + bytes(16))[:65536])])
    pack_lines()
    pack_points(narrow, exact, short)
    pack_words()
    both("3,000 shots", 0, shots(3000))
    both("4,000 points of every kind", 2**40, wild(1, 4000, 2**40))
    both("2,000 others", 2**63, wild(2, 2000, 2**63))
    both("as many wide points as fit", 0, wide(number - 1))
    both("no points", 7, [])
    shell_cases()
    for number, parts in enumerate(cases, 1):
        where = os.path.join(folder, "%04d" % number)
        os.makedirs(where)
        for part, data in parts.items():
            with open(os.path.join(where, part), "wb") as file:
                file.write(data if isinstance(data, bytes) else data.encode())


if __name__ == "__main__":
    main(sys.argv[1])
