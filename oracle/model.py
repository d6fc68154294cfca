"""The codec from document 01's rules alone, for the scripts beside it: a buffer is a list of the characters 0 and 1."""
ROWS = [("10", 7, -63, 64), ("110", 9, -255, 256), ("1110", 12, -2047, 2048), ("1111", 32, -(2**31 - 1), 2**31)]
END, LAST_TIME = "1111" + 32 * "0", 2**64 - 1
ONE, HALF, NAN, MINUS_ZERO, INFINITY = 0x3FF << 52, 0x3FE << 52, 0x7FF8 << 48, 1 << 63, 0x7FF << 52


def field(number, size):
    return format(number % 2**size, "0%db" % size)


def bits(text):
    """Bits written out: blanks part them, E is the end."""
    return text.replace(" ", "").replace("E", END)


def dirt(count):
    return list("1" * (8 * count))


def put(buf, place, word):
    rest = -(place + len(word)) % 8
    buf[place : place + len(word) + rest] = word + "0" * rest
    return place + len(word)


def bytes_of(buf):
    return "".join("%02x" % int("".join(buf[i : i + 8]), 2) for i in range(0, len(buf), 8))


def told(refusal, text):
    return "refused %d" % refusal if refusal else text


def dod_bits(dod):
    """In the first row that fits; nothing for a dod out of range."""
    fitting = [prefix + field(dod, size) for prefix, size, lowest, highest in ROWS if lowest <= dod <= highest]
    return "0" if dod == 0 else fitting[0] if fitting else ""


def xor_bits(window, xor):
    """What stands before the digits, the digits, and the window after them: the zeros above its digits and those below."""
    if xor == 0:
        return "0", "", window
    word = field(xor, 64)
    above, below = word.index("1"), 63 - word.rindex("1")
    if above >= window[0] and below >= window[1]:
        return "10", word[window[0] : 64 - window[1]], window
    digits = word[above : 64 - below]
    return "11" + field(above, 6) + field(len(digits) - 1, 6), digits, (above, below)


class Codec:
    """An encoder: each call answers a refusal's number, or 0."""

    def __init__(self, start, buf):
        """Opens. A refusal leaves it closed and all else zero."""
        self.time = self.delta = self.value = self.size = self.place = 0
        self.window, self.first, self.closed, self.stream = (0, 0), False, len(buf) < 8 * 13, ""
        if not self.closed:
            self.time, self.size, self.window, self.first = start, len(buf), (64, 64), True
            self.place = put(buf, 0, field(start, 64))

    def standing(self, buf):
        return 12 if self.closed else 13 if len(buf) != self.size else 0

    def code(self, time, value):
        """A refusal or 0, what stands before the value's digits, the digits, the window after them."""
        delta = time - self.time
        if self.first:
            return 2 if delta < 0 else 3 if delta > 16383 else 0, "0" + field(delta, 14), field(value, 64), self.window
        head, digits, window = xor_bits(self.window, value ^ self.value)
        dod = dod_bits(delta - self.delta)
        return 2 if delta < 0 else 0 if dod else 4, dod + head, digits, window

    def add(self, buf, time, value):
        """Offers a point."""
        late, head, digits, window = self.code(time, value)
        refusal = self.standing(buf) or late or (1 if self.place + len(head + digits) + len(END) > self.size else 0)
        if not refusal:
            self.place = put(buf, self.place, head + digits)
            self.time, self.delta, self.value, self.window, self.first = time, time - self.time, value, window, False
        return refusal

    def finish(self, buf):
        """Closes; the stream is then what stands in use, as bits."""
        refusal = self.standing(buf)
        if not refusal:
            self.closed, self.stream = True, "".join(buf[: put(buf, self.place, END)])
        return refusal


class Refused(Exception):
    pass


def refuse(number, test):
    if test:
        raise Refused(number)


def answers(buf):
    """What a decoder's steps answer, one after the other, up to the first that is no point."""
    place = above = below = 0

    def take(size, refusal=7):
        nonlocal place
        refuse(refusal, place + size > len(buf))
        place += size
        return "".join(buf[place - size : place])

    try:
        time, value = int(take(64, refusal=6), 2), None
        if take(1) == "1":
            refuse(8, "1" + take(35) != END)
            yield "end at %d" % place
            return
        delta = int(take(14), 2)
        while True:
            refuse(10, delta < 0)
            refuse(11, time + delta > LAST_TIME)
            time += delta
            if value is None:
                value = int(take(64), 2)
            elif take(1) == "1":
                if take(1) == "1":
                    above, digits = int(take(6), 2), int(take(6), 2) + 1
                    refuse(9, above + digits > 64)
                    below = 64 - above - digits
                value ^= int(take(64 - above - below), 2) << below
            yield "point %d %016x at %d" % (time, value, place)
            prefix = take(1)
            while prefix in ["1", "11", "111"]:
                prefix += take(1)
            for size in [row[1] for row in ROWS if row[0] == prefix]:
                raw = int(take(size), 2)
                if prefix + field(raw, size) == END:
                    yield "end at %d" % place
                    return
                delta += raw - 2**size if raw > 2 ** (size - 1) else raw
    except Refused as refusal:
        yield told(refusal.args[0], "")
