#!/usr/bin/env python3
"""Compares the port with the Rust crate, which is built twice: for release, and with every overflow a trap.

    python3 oracle/differential.py [SEED [SIZE]]

Every answer must be the same, but where the port ends a stream with refusal 9, 10 or 11: there the Rust reads on, or traps, and is held to the points
before, and the port to oracle/model.py. The last line counts what was compared; on a difference the smallest case found is printed, and where a program
breaks off the case at which it does; the status is 1.
"""
import sys
import tempfile
from itertools import chain

from cases import cases
from examples import packed
from expected import expected, is_beyond, points_of
from sides import BUILDS, Batch, Broken, Skipped, port, rust

# at most so many cases go through one start, and so many bytes of them
BATCH, BYTES = 100000, 2**23


def agree(line, ours, *rust_answers):
    if all(theirs == ours for theirs in rust_answers):
        return ours != "line not understood"
    if line[0] != "d" or not is_beyond(ours):
        return False
    return ours == expected(line) and all(theirs.startswith(points_of(ours)) for theirs in rust_answers)


def differing(batch):
    """The cases of a batch that differ, each with its answers; and how many of its streams end beyond the Rust."""
    ours, *rust_answers = batch.answers()
    beyond = sum(map(is_beyond, ours))
    if all(theirs == ours for theirs in rust_answers) and "line not understood" not in ours:
        return [], beyond
    rows = zip(batch.lines, ours, *rust_answers)
    return [row for row in rows if not agree(*row)], beyond


# ---- the smallest case


def in_domain(line):
    """Whether a list of points is refused by no rule."""
    words = line.split(" ")
    points = [(int(time), int(value, 16)) for time, value in (word.split(",") for word in words[2:])]
    return isinstance(packed(int(words[1]), points), bytes)


def smaller(line):
    """The case without a byte, without a word, and with only a part of its words or bytes."""
    kind, *words = line.split(" ")
    found = []
    if kind in "dr":
        data = words[0].replace("-", "")
        cut = [data[:place] + data[place + 2 :] for place in range(0, len(data), 2)] + [data[: len(data) // 4 * 2]]
        found += [" ".join([kind, text or "-"] + words[1:]) for text in cut if text != data]
    first = {"d": 1, "r": 1, "e": 1, "w": 0}[kind]
    for place in range(first, len(words)):
        found.append(" ".join([kind] + words[:place] + words[place + 1 :]))
    return [case for case in found if kind != "e" or in_domain(case)]


def shrunk(work, commands, row):
    """The smallest case that still differs, as far as one step after the other leads."""
    while True:
        lines = smaller(row[0])
        if not lines:
            return row
        try:
            found, _ = differing(Batch(work, -1, commands, lines))
        except Broken:
            return row
        if not found:
            return row
        row = min(found, key=lambda row: (len(row[0]), row[0]))


def report(work, commands, names, found):
    row = shrunk(work, commands, min(found, key=lambda row: (len(row[0]), row[0])))
    print("oracle: %d cases of a batch differ; the smallest found:" % len(found))
    print("    " + row[0])
    for name, answer in zip(names, row[1:]):
        print("%-14s %s" % (name + ":", answer))


def breaking(work, commands, lines):
    """A case at which a program breaks off, by halves."""
    while len(lines) > 1:
        half = lines[: len(lines) // 2]
        try:
            Batch(work, -1, commands, half).answers()
            lines = lines[len(half) :]
        except Broken:
            lines = half
    return lines[0]


def has_fault(work, commands, names, batch):
    """Whether a case of the batch differs, or a program breaks off at one, which is reported; and how many of its streams end beyond the Rust."""
    try:
        found, beyond = differing(batch)
    except Broken as why:
        print("oracle: %s; a case at which it breaks off:\n    %s" % (why, breaking(work, commands, batch.lines)))
        return True, 0
    if found:
        report(work, commands, names, found)
    return bool(found), beyond


# ---- the run


def batches(source):
    lines, size = [], 0
    for line in source:
        lines.append(line)
        size += len(line)
        if len(lines) == BATCH or size > BYTES:
            yield lines
            lines, size = [], 0
    yield lines


def run(work, commands, names, seed, size):
    """Answers the counts of lines by their first letter, or nothing if a case differs. The next batch is made while one is answered."""
    counts, beyond, last = dict.fromkeys("dewr", 0), 0, None
    for number, lines in enumerate(chain(batches(cases(seed, size)), [[]])):
        now = Batch(work, number, commands, lines) if lines else None
        if last:
            wrong, more = has_fault(work, commands, names, last)
            if wrong:
                if now:
                    now.drop()
                return None
            beyond += more
            for line in last.lines:
                counts[line[0]] += 1
        last = now
    return dict(counts, beyond=beyond)


def main(seed=1, size=3):
    with tempfile.TemporaryDirectory() as work:
        try:
            commands = [rust(work, name, flags) for name, flags in BUILDS]
        except Skipped as why:
            print("oracle: SKIPPED, %s" % why)
            return 0
        names = ["port"] + ["Rust, " + name for name, _ in BUILDS]
        counts = run(work, [port("answers")] + commands, names, seed, size)
    if not counts:
        print("oracle: FAILED with seed %d and size %d" % (seed, size), file=sys.stderr)
        return 1
    print("oracle: %d of the streams end in refusal 9, 10 or 11: the Rust was held to the points before, the refusal to the model" % counts["beyond"])
    print("oracle: %d lists of writes and %d of reads, 0 differ" % (counts["w"], counts["r"]))
    print("oracle: %d streams, %d series, 0 differ" % (counts["d"], counts["e"]))
    return 0


if __name__ == "__main__":
    words = sys.argv[1:]
    if len(words) > 2 or not all(word.isdecimal() for word in words):
        sys.exit("usage: oracle/run [SEED [SIZE]], two numbers; 1 and 3 where they are left out")
    sys.exit(main(*map(int, words)))
