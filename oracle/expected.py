"""What document 01 answers to a stream, by oracle/model.py, in the words of oracle/rust/driver.rs."""
from examples import to_bits
from model import answers

BEYOND = ("9", "10", "11")


def expected(line):
    """The answer to `d BYTES`."""
    *points, last = answers(to_bits(bytes.fromhex(line[2:].replace("-", ""))))
    words = ["%s,%s" % tuple(point.split(" ")[1:3]) for point in points]
    return " ".join(words + ["end" if last.startswith("end") else last])


def is_beyond(answer):
    """Whether it ends where the Rust is no oracle any more: in refusal 9, 10 or 11."""
    words = answer.rsplit(" ", 2)
    return len(words) > 1 and words[-2] == "refused" and words[-1] in BEYOND


def points_of(answer):
    """What stands before the refusal that an answer ends in."""
    return answer[: answer.rindex("refused")]
