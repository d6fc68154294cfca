#!/usr/bin/env python3
"""Writes down what the Rust crate answers, for the program `answers`, whose test run needs no Rust: some cases of every kind of oracle/cases.py.

    python3 oracle/record.py FILE

A line is `CASE = ANSWER`, the answer of the Rust crate built for release. Where document 01 has refusal 9, 10 or 11 the Rust reads on: such a line is
`CASE ~ ANSWER`, with the Rust's points up to there and then the refusal by oracle/model.py. The port has no part in it. Where the number of lines changes,
crates/answers/stdout, which counts them, is to be changed too.
"""
import sys
import tempfile

from cases import KINDS, Dice, cases_of
from expected import expected, is_beyond, points_of
from sides import BUILDS, Batch, Skipped, rust

SEED, LONGEST, OF_A_KIND = 7, 260, 250
# kinds whose cases are few or differ much
MORE = {"special_pairs": 450, "window_fields": 400, "time_fields": 400, "unusual": 400, "row_ends": 345}


def sample(kind):
    """Some of a kind's cases, spread over it, the long ones left out."""
    name = kind.__name__
    lines = [line for line in cases_of(kind, SEED, 1) if len(line) <= LONGEST]
    count = min(MORE.get(name, OF_A_KIND), len(lines))
    dice = Dice(SEED)
    # one out of each of so many equal parts
    parts = [(len(lines) * n // count, len(lines) * (n + 1) // count) for n in range(count)]
    return [lines[first + dice.below(end - first)] for first, end in parts]


def recorded(line, theirs):
    """The line of the record. The model has to agree with the Rust, as far as that is an oracle."""
    if line[0] == "d":
        must = expected(line)
        if is_beyond(must):
            assert theirs.startswith(points_of(must)), line
            return "%s ~ %s" % (line, must)
        assert theirs == must, line
    assert not theirs.endswith(("trap", "line not understood")), line
    return "%s = %s" % (line, theirs)


def main(path):
    lines = list(dict.fromkeys(line for kind in KINDS for line in sample(kind)))
    with tempfile.TemporaryDirectory() as work:
        try:
            commands = [rust(work, *BUILDS[0])]
        except Skipped as why:
            print("oracle: SKIPPED, %s" % why)
            return 77
        (theirs,) = Batch(work, 0, commands, lines).answers()
    text = "".join(recorded(*pair) + "\n" for pair in zip(lines, theirs))
    with open(path, "w") as file:
        file.write(text)
    return 0


if __name__ == "__main__":
    sys.exit(main(sys.argv[1]))
