#!/usr/bin/env python3
"""Tests of the comparison that need no Rust: of the program `answers`, lines whose answers document 01 decides, lines that are no case, and a record with
faults in it, each of which it has to report; and which answers are taken as the same.

    python3 oracle/lines.py
"""
import os
import subprocess
import sys

from differential import agree
from examples import packed
from model import HALF, ONE
from sides import ROOT, port

ZERO, NO = 16 * "0", "line not understood"
M6 = packed(0, [(10, 0), (20, ONE), (30, HALF), (40, 0)]).hex()
LINES = [
    ("d 0000000000000000f000000000", "end"),
    ("d -", "refused 6"),
    ("d 0000000000000000001400000000000000007800000000", "10,%s 20,%s end" % (ZERO, ZERO)),
    ("d 0000000000000000f000000010", "refused 8"),
    ("d 000000000000000000140000000000000000c1fc", "10,%s refused 9" % ZERO),
    ("d 00000000000000000014000000000000000175", "10,%s refused 10" % ZERO),
    ("d ffffffffffffffff00020000000000000000", "refused 11"),
    ("e 0 10,{0} 20,3ff0000000000000 30,3fe0000000000000 40,{0}".format(ZERO), M6),
    ("e 18446744073709551615", "fffffffffffffffff000000000"),
    ("e 5 4," + ZERO, "refused 2"),
    ("e 0 16384," + ZERO, "refused 3"),
    ("e 0 1,{0} 2147483651,{0}".format(ZERO), "refused 4"),
    ("w b1 y5a 64:1 3:7 0:ff 65:8000000000000001", "ad0000000000000000f80000000000000010"),
    ("w", "-"),
    ("r ff0f p3 b y 7", "7 1 fe f"),
    ("r - b", "refused 7"),
    ("r ff 65", "refused 7"),
    # the longest line there may be, and one byte more; the stream is a start and points of two bits
    ("d " + 12286 * "0", "0,%s " % ZERO * (1 + (8 * 6143 - 143) // 2) + "refused 7"),
    ("d " + 12287 * "0", NO),
]
# a case, what the port and the two builds of the Rust answer, and whether these agree: a refusal that the Rust lacks is taken only where document 01 has it
POINT, TORN = "10,%s " % ZERO, "d 000000000000000000140000000000000000c1fc"
AGREEING = [
    (TORN, POINT + "refused 9", POINT + "20,%s refused 7" % ZERO, POINT + "trap", True),
    (TORN, POINT + "refused 10", POINT + "20,%s refused 7" % ZERO, POINT + "trap", False),
    (TORN, "refused 9", POINT + "20,%s refused 7" % ZERO, POINT + "trap", False),
    (TORN, POINT + "refused 9", "11" + POINT[2:] + "refused 7", POINT + "trap", False),
    ("d -", "refused 6", "refused 6", "refused 6", True),
    ("d -", "refused 9", "refused 6", "refused 6", False),
    ("d -", "refused 6", "refused 6", "trap", False),
    ("e 0", "refused 9", "0000000000000000f000000000", "0000000000000000f000000000", False),
    ("e x", NO, NO, NO, False),
]
NO_CASES = ["", "x", "d", "d 0", "d 0G", "d 0A", "d  00", "d 00 ", "d 00 00", "D 00", "e", "e x", "e 0 1,0", "e 0 10,%s," % ZERO, "e 0  10," + ZERO, "e 0 10"]
NO_CASES += ["e 18446744073709551616", "e 0 10,%s0" % ZERO, "w 3", "w b2", "w y1", "w 4294967296:0", "w 3:", "w b0 ", "r ff x", "r ff p", "r", "r ff 4294967296"]


def answered(command, lines):
    done = subprocess.run(command, input="\n".join(lines) + "\n", stdout=subprocess.PIPE, text=True, check=True)
    return done.stdout.split("\n")[:-1]


def hold(name, lines, wanted, got):
    """Ends the test at the first line that is not as it must be."""
    for line, must, came in zip(lines, wanted, got):
        if must != came:
            sys.exit("lines: FAILED, %s\n%s\nmust be answered: %s\nwas answered:     %s" % (name, line[:300], must[:300], came[:300]))
    if len(wanted) != len(got):
        sys.exit("lines: FAILED, %s: %d lines came for %d" % (name, len(got), len(wanted)))


def spoilt(line):
    """A record's line with the last byte of its answer changed, or one added to an answer that has none."""
    if line.endswith(" "):
        return line + "0"
    return line[:-1] + ("0" if line[-1] != "0" else "1")


def faults(command):
    """The record with every hundredth line spoilt: just these are reported, each with the true answer."""
    with open(os.path.join(ROOT, "crates", "answers", "stdin")) as file:
        record = file.read().split("\n")[:-1]
    changed = [spoilt(line) if number % 100 == 0 else line for number, line in enumerate(record)]
    wrong = [(line, true) for line, true in zip(changed, record) if line != true]
    texts = [true.replace(" ~ ", " = ").split(" = ")[1] + " is answered, and on record is: " + line for line, true in wrong]
    counts = ["%d cases as recorded" % (len(record) - len(wrong)), "%d cases NOT as recorded" % len(wrong)]
    hold("a record with faults", [line for line, _ in wrong] + counts, texts + counts, answered(command, changed))
    return len(wrong)


def main():
    for *answers, same in AGREEING:
        if agree(*answers) != same:
            sys.exit("lines: FAILED, these must %sbe taken as the same:\n%s" % ("" if same else "not ", "\n".join(answers)))
    command = port("answers")
    lines = LINES + [(line, NO) for line in NO_CASES]
    hold("a line", [line for line, _ in lines], [answer for _, answer in lines], answered(command, [line for line, _ in lines]))
    # the end of the last line may be missing
    done = subprocess.run(command, input="d -\nd -", stdout=subprocess.PIPE, text=True, check=True)
    hold("a missing line feed", ["d -", "d -"], ["refused 6", "refused 6"], done.stdout.split("\n")[:-1])
    print("oracle: %d lines answered as they must be, %d faults in the record reported" % (len(lines), faults(command)))


if __name__ == "__main__":
    main()
