#!/usr/bin/env python3
"""A model of the library, written from the rules of the format and of the refusals, bit by bit and without a register trick. It shares
no code with the library. It answers scripts (docs/REPLAY.md) on every input, refusals included:

    model.py answer < script        the answers
    model.py refusals               the script of refusals: each number in each call where it can occur, on both sides of its line
    model.py ends                   the script of ends: cursors that stop at every bit of short slices, with every call
"""
import random
import sys

LIMIT = 16_777_216
MOST = (1 << 64) - 1
WIDTHS = [1, 8, 8, 16, 16, 32, 32, 32, 64, 64, 64]


def bit(little, s, k):
    return s[k // 8] >> (k % 8 if little else 7 - k % 8) & 1


def field(little, s, place, w):
    v = 0
    for i in range(w):
        b = bit(little, s, place + i)
        v = v + (b << i) if little else 2 * v + b
    return v


def signed(w, v):
    return v - (1 << w) if w >= 1 and v >= 1 << (w - 1) else v


def pattern(z):
    return z % (1 << 64)


def widened(b):
    """the bits of the double with the value of the single that has the bits b: sign, exponent and digits by IEEE 754, one NaN"""
    sign, exponent, digits = b >> 31, b >> 23 & 255, b & 0x7FFFFF
    if exponent == 255:
        return 0x7FF8000000000000 if digits else sign << 63 | 2047 << 52
    if exponent == 0:
        if digits == 0:
            return sign << 63
        # a subnormal: its leading one moves to the place above the digits
        shift = 24 - digits.bit_length()
        exponent, digits = 1 - shift, (digits << shift) - (1 << 23)
    return sign << 63 | exponent - 127 + 1023 << 52 | digits << 29


# ---- cursors: (offset, lookahead, register, end)

def register(little, s, offset, lookahead):
    v = field(little, s, 8 * offset - lookahead, lookahead)
    return v if little else v << (64 - lookahead)


def belongs(little, s, c):
    offset, lookahead, reg, end = c
    if not (offset <= len(s) and lookahead <= 63 and lookahead <= 8 * offset and reg == register(little, s, offset, lookahead)):
        return False
    return 8 * offset - lookahead <= end <= 8 * len(s)


def refill(n, c):
    offset, r = c
    more = min(n - offset, 7 - r // 8)
    return offset + more, r + 8 * more


def after_read(n, c, w):
    offset, r = c
    if w <= 56:
        if w > r:
            c = refill(n, c)
        return c[0], c[1] - w
    if w > r or n - offset < 8:
        c = refill(n, c)
    c = refill(n, (c[0], c[1] - 56))
    return c[0], c[1] - (w - 56)


def after_bytes(n, c, count):
    """as the Rust does it: bytes out of the lookahead; a copy and a refill where it is empty then, else chunks of sixteen behind the
    first byte, a refill, and the others one by one"""
    offset, r = c
    whole = min(r // 8, count)
    r -= 8 * whole
    left = count - whole
    if left == 0:
        return offset, r
    if r == 0:
        return refill(n, (offset + left, 0))
    over = 1 + 16 * ((left - 1) // 16)
    c = refill(n, (offset + over, r))
    for _ in range(left - over):
        c = after_read(n, c, 8)
    return c


class Machine:
    def __init__(self):
        self.little, self.src, self.out = True, b"", bytearray()
        self.cursor, self.writer = (0, 0, 0, 0), (0, 0, 0)

    # the refusal of the slice and the cursor, or of the output and the writer
    def of_cursor(self):
        if len(self.src) > LIMIT:
            return 1
        return 0 if belongs(self.little, self.src, self.cursor) else 2

    def of_writer(self):
        written, held, number = self.writer
        if len(self.out) > LIMIT:
            return 1
        return 0 if 8 * written + held <= 8 * len(self.out) and held <= 7 and number < 1 << held else 2

    def place(self):
        return 8 * self.cursor[0] - self.cursor[1]

    def left(self):
        return self.cursor[3] - self.place()

    def ahead(self):
        return min(self.cursor[1], self.left())

    def go(self, counts):
        self.cursor = (*counts, register(self.little, self.src, *counts), self.cursor[3])

    def read(self, w):
        e = self.of_cursor() or (3 if w > 64 else 0) or (9 if w > self.left() else 0)
        if e:
            return e, 0
        v = field(self.little, self.src, self.place(), w)
        self.go(after_read(len(self.src), self.cursor[:2], w))
        return 0, v

    def told(self, e, v):
        return "%x %x %x %x" % (e, v, self.cursor[0], self.cursor[1])

    def wrote(self, e):
        return "%x %x %x" % (e, self.writer[0], self.writer[1])

    # n bits v behind those written: the list of all bits, cut into bytes again
    def put(self, bits):
        written, held, number = self.writer
        have = [number >> (i if self.little else held - 1 - i) & 1 for i in range(held)]
        have += bits
        while len(have) >= 8:
            self.out[written] = sum(b << (i if self.little else 7 - i) for i, b in enumerate(have[:8]))
            written, have = written + 1, have[8:]
        number = sum(b << (i if self.little else len(have) - 1 - i) for i, b in enumerate(have))
        self.writer = (written, len(have), number)

    def bits_of(self, w, v):
        return [v >> (i if self.little else w - 1 - i) & 1 for i in range(w)]

    def room(self, n):
        return 8 if 8 * self.writer[0] + self.writer[1] + n > 8 * len(self.out) else 0

    def write(self, w, v):
        e = self.of_writer() or (3 if w > 64 else 0) or (4 if 1 <= w <= 63 and v >= 1 << w else 0) or self.room(w)
        if not e:
            self.put(self.bits_of(w, v))
        return self.wrote(e)

    def write_signed(self, w, z):
        e = self.of_writer() or (3 if w > 64 else 0) or self.room(w)
        if not e:
            self.put(self.bits_of(w, z % (1 << w)))
        return self.wrote(e)

    # a single is written no more: 16 behind what refuses its 32 bits
    def write_single(self):
        return self.wrote(self.of_writer() or self.room(32) or 16)

    def answer(self, line):
        letter, words = line[0], line[1:].strip(" ").split(" ")
        if letter not in "LBSOCEDnbsfqhpcrymlkgNwxFYuzoKed":
            return None
        number = lambda i: int(words[i], 16) if i < len(words) and words[i] else 0
        a, b, c = number(0) if letter not in "SY" else 0, number(1), number(2)
        narrow = lambda n: min(n, 0xFFFFFFFF)
        if letter in "LB":
            self.little = letter == "L"
        elif letter == "S":
            self.src = bytes.fromhex(words[0])
        elif letter == "O":
            self.out = bytearray([b % 256]) * a
        elif letter == "C":
            self.cursor = (a, b % (1 << 32), c, 8 * len(self.src))
        elif letter == "E":
            self.cursor = (*self.cursor[:3], a)
        elif letter == "D":
            self.writer = (a, b % (1 << 32), c)
        elif letter == "n":
            e = 1 if len(self.src) > LIMIT else 0
            self.cursor = (0, 0, 0, 0 if e else 8 * len(self.src))
            return self.told(e, 0)
        elif letter == "b":
            return self.told(*self.read(narrow(a)))
        elif letter == "s":
            e, v = self.read(narrow(a))
            return self.told(e, 0 if e else pattern(signed(a, v)))
        elif letter == "f":
            w = WIDTHS[min(a, 10)]
            e, v = self.read(w)
            return self.told(e, pattern(signed(w, v)) if a in (2, 4, 6, 9) else v)
        elif letter == "q":
            e = self.of_cursor()
            if e:
                return self.told(e, 0)
            left, unfetched = self.left(), self.cursor[3] // 8 - self.cursor[0]
            v = [left // 8, max(0, unfetched), left, left == 0, self.place() % 8 == 0, self.ahead()][min(a, 5)]
            return self.told(0, int(v))
        elif letter == "h":
            e = self.of_cursor()
            return self.told(e, 0 if e else int(a <= self.left()))
        elif letter in "pc":
            a = narrow(a)
            e = self.of_cursor() or (10 if a > self.ahead() else 0)
            if e:
                return self.told(e, 0)
            v = field(self.little, self.src, self.place(), a) if letter == "p" else 0
            if letter == "c":
                self.go((self.cursor[0], self.cursor[1] - a))
            return self.told(0, v)
        elif letter == "r":
            e = self.of_cursor()
            if not e:
                self.go(refill(len(self.src), self.cursor[:2]))
            return self.told(e, 0)
        elif letter == "y":
            buf = b"\xee" * a
            e = (1 if a > LIMIT else 0) or self.of_cursor() or (9 if 8 * a > self.left() else 0)
            if not e:
                buf = bytes(field(self.little, self.src, self.place() + 8 * i, 8) for i in range(a))
                self.go(after_bytes(len(self.src), self.cursor[:2], a))
            return self.told(e, 0 if e else a) + " " + buf.hex()
        elif letter == "m":
            end = self.cursor[3]
            e = self.of_cursor() or (14 if end % 8 else 0)
            if e:
                return self.told(e, 0) + " "
            part = -self.place() % 8
            v = 16 * field(self.little, self.src, self.place(), part) + part
            return self.told(0, v) + " " + self.src[(self.place() + part) // 8:end // 8].hex()
        elif letter == "l":
            e = self.of_cursor() or (0 if self.place() <= a <= self.cursor[3] else 13)
            if not e:
                self.cursor = (*self.cursor[:3], a)
            return self.told(e, 0)
        elif letter == "k":
            return "%x %x %x" % self.cursor[:3]
        elif letter == "g":
            return "%x" % self.cursor[3]
        elif letter == "N":
            self.writer = (0, 0, 0)
            return self.wrote(1 if len(self.out) > LIMIT else 0)
        elif letter == "w":
            return self.write(narrow(a), b)
        elif letter == "x":
            return self.write_signed(narrow(a), signed(64, b))
        elif letter == "F":
            if a == 7:
                return self.write_single()
            w = WIDTHS[min(a, 10)]
            return self.write(w, int(b == 1) if a == 0 else b % (1 << w))
        elif letter == "Y":
            data = bytes.fromhex(words[0])
            e = (1 if len(data) > LIMIT else 0) or self.of_writer() or self.room(8 * len(data))
            if not e:
                for x in data:
                    self.put(self.bits_of(8, x))
            return self.wrote(e)
        elif letter == "u":
            e = self.of_writer()
            return "%x %x" % (e, 0 if e else self.writer[1])
        elif letter == "z":
            e = self.of_writer()
            if not e:
                self.put([0] * ((8 - self.writer[1]) % 8))
            return self.wrote(e)
        elif letter == "o":
            return "=" + self.out.hex()
        elif letter == "K":
            return "%x %x %x" % self.writer
        elif letter == "e":
            e = (3 if b > 64 else 0) or (4 if a >= 1 << b else 0)
            return "%x %x" % (e, 0 if e else pattern(signed(b, a)))
        elif letter == "d":
            return "0 %x" % widened(a % (1 << 32))
        return None


def answers(script):
    m = Machine()
    for line in script.splitlines():
        if line:
            told = m.answer(line)
            if told is not None:
                yield told


# ---- the script of refusals

def reads():
    """every call on the cursor that can refuse, with the arguments on both sides of its own line"""
    for w in (0, 1, 56, 57, 64, 65, 0xFFFFFFFF):
        yield "b %x" % w
        yield "s %x" % w
    for k in range(11):
        yield "f %x" % k
    for k in range(6):
        yield "q %x" % k
    for n in (0, 1, 8, 16, 17, 63, 64):
        yield "p %x" % n
        yield "c %x" % n
        yield "h %x" % n
        yield "y %x" % n
    yield "r"
    yield "m"


def cursors(little, src, rng):
    """legal cursors, and each way of not belonging"""
    n = len(src)
    for offset, r in ((0, 0), (1, 0), (1, 8), (n, 0), (n, min(63, 8 * n)), (n // 2, min(63, 8 * (n // 2)))):
        if r <= 8 * offset and offset <= n:
            good = register(little, src, offset, r)
            yield offset, r, good
            yield offset, r, good ^ 1 << rng.randrange(64)
            yield offset, r, good ^ (1 << 63 if little else 1)
    yield n + 1, 0, 0
    yield 0, 1, 0
    yield (n, 8 * n + 1, 0)
    yield (n, 64, 0)
    yield ((1 << 64) - 1, 0, 0)
    yield (n, (1 << 32) - 1, 0)


def refusals():
    rng = random.Random(20261115)
    for n in (0, 2, 17):
        src = bytes(rng.randrange(256) for _ in range(n))
        for little in (True, False):
            yield "LB"[not little]
            yield "S " + src.hex()
            for c in cursors(little, src, rng):
                for call in reads():
                    yield "C %x %x %x" % c
                    yield call
                yield "C %x %x %x" % c
                yield rng.choice(["b 41", "c 40", "y 64"])
                yield "k"
                # an end within the last byte, the slice's, and one behind it; the script of ends has more
                for end in (15, 16, 17) if n == 2 else ():
                    yield from ("E %x" % end, "m", "l %x" % (end + 1), "l %x" % end, "l 0", "g")
    # writers: each way of not belonging, each side of room, of widths and of values
    for size in (0, 9):
        for little in (True, False):
            yield "LB"[not little]
            for written, held, number in ((0, 0, 0), (0, 1, 1), (0, 7, 127), (size, 0, 0), (size, 1, 0), (size, 0, 1), (size + 1, 0, 0),
                                          (0, 8, 0), (0, 3, 8), (0, 3, 7), ((1 << 61), 0, 0), ((1 << 64) - 1, 7, 0), (0, (1 << 32) - 1, 0),
                                          (max(size, 1) - 1, 7, 1)):
                start = ["O %x a5" % size, "D %x %x %x" % (written, held, number)]
                free = max(0, 8 * size - 8 * written - held)
                calls = ["N", "u", "z"] + ["F %x %x" % (k, rng.randrange(1 << 64)) for k in range(11)]
                for w in sorted({0, 1, 63, 64, 65, min(64, free), min(65, free + 1)}):
                    most = (1 << w) - 1 if w <= 64 else 0
                    for v in sorted({most, most + 1 if w < 64 else most, (1 << 64) - 1}):
                        calls.append("w %x %x" % (w, v))
                    calls.append("x %x %x" % (w, rng.randrange(1 << 64)))
                for k in sorted({0, free // 8, free // 8 + 1}):
                    calls.append("Y " + bytes(rng.randrange(256) for _ in range(k)).hex())
                for call in calls:
                    yield from start
                    yield call
                    yield "o"
                    yield "K"
    # singles, and 32 bits that are none, where there is room for 31, 32 and 33 bits
    for little in (True, False):
        yield "LB"[not little]
        for written, held in ((1, 1), (1, 0), (0, 7)):
            for call in ("F 7 3f800000", "F 7 7fa00001", "F 5 3f800000", "w 20 3f800000"):
                yield from ("O 5 a5", "D %x %x 0" % (written, held), call, "o", "K")
    for w in (0, 1, 2, 4, 63, 64, 65, 1000, (1 << 32) - 1):
        for v in sorted({0, 1, 7, 8, 15, 16, (1 << min(w, 64)) - 1, min(1 << min(w, 64), (1 << 64) - 1), 1 << 63, (1 << 64) - 1}):
            yield "e %x %x" % (v, w)


# ---- the script of ends

def at(little, src, counts, end):
    """the lines that set the cursor of a slice with these counts and this end"""
    return ["C %x %x %x" % (*counts, register(little, src, *counts)), "E %x" % end]


def staying(left, ahead):
    """calls that leave a cursor with so many bits left and ahead as it is: those that tell, and those that ask one too many"""
    yield from ("q %x" % k for k in range(6))
    yield from ("h %x" % n for n in (left, left + 1))
    yield from ("p %x" % n for n in (0, ahead, ahead + 1))
    yield from ("c %x" % (ahead + 1), "b %x" % (left + 1), "s %x" % (left + 1), "b 41", "y %x" % (left // 8 + 1), "m")
    yield from ("f %x" % k for k, w in enumerate(WIDTHS) if w > left)


def going(left, ahead):
    """calls that such a cursor allows, and goes on by"""
    yield from ("b %x" % w for w in sorted({0, 1, left // 2, left}))
    yield from ("s %x" % left, "c %x" % ahead, "c %x" % (ahead // 2), "r", "y %x" % (left // 8))
    yield from ("f %x" % k for k, w in enumerate(WIDTHS) if w <= left)


def every_call(little, src, counts, end):
    """every call on the cursor with these counts and this end"""
    most = 8 * len(src)
    start, place = at(little, src, counts, end), 8 * counts[0] - counts[1]
    good = place <= end <= most
    left = (end if good else most) - place
    ahead = min(counts[1], left)
    yield from start
    yield from staying(left, ahead)
    lower = {0, max(0, place - 1), place, (place + end) // 2, end, min(end + 1, MOST), most}
    if most <= 8 or end == most:
        lower = {*range(most + 2), MOST}
    for e in sorted(lower):
        yield from ("l %x" % e, "g")
        if place <= e <= end:
            yield start[1]
    # of a cursor whose end is not good these are refused too, and it stays
    for call in going(left, ahead):
        yield from (*start, call, "k", "g") if good else (call,)
    yield from ("k", "g")


def to_the_end(little, src):
    """reads of wide fields and of bytes that stop at an end within the slice, and one bit past it"""
    calls = [(w, "bs"[w % 2] + " %x" % w) for w in (1, 31, *range(56, 65))] + [(64, "f 8"), (64, "f 9"), (64, "f a")]
    calls += [(8 * n, "y %x" % n) for n in (1, 2, 7, 8, 9, 15)]
    for counts in ((0, 0), (1, 3), (8, 63), (9, 9), (9, 63)):
        place = 8 * counts[0] - counts[1]
        for width, call in calls:
            for end in (place + width, place + width - 1):
                if end <= 8 * len(src):
                    yield from (*at(little, src, counts, end), call, "k", "g")


def eight_before_the_end(little, src):
    """narrow reads with eight bytes before the offset, and about eight before the end, up to ends behind the slice"""
    for counts in ((8, 0), (8, 63), (9, 1)):
        first = 8 * counts[0] + 62
        for end in (*range(first, first + 4), *range(8 * len(src) - 1, 8 * len(src) + 3), MOST):
            for w in (1, 56):
                yield from (*at(little, src, counts, end), "b %x" % w, "k", "g")


def past_the_end(little, src):
    """peeks and consumes behind a refill, which fetches bytes past the end, at every end"""
    for end in range(8 * len(src) + 1):
        ahead = min(56, end)
        yield from (*at(little, src, (0, 0), end), "r", "q 5", "p %x" % ahead, "p %x" % (ahead + 1), "c %x" % (ahead + 1))
        yield from ("h %x" % MOST, "c %x" % ahead, "q 1", "q 2", "q 5", "r", "q 5", "k", "g")


def remainders(little, src):
    """the remainder at every end"""
    for counts in ((0, 0), (1, 8), (2, 1), (3, 12), (8, 59)):
        yield at(little, src, counts, 0)[0]
        for end in (*range(8 * len(src) + 2), MOST):
            yield from ("E %x" % end, "m")


def foreign(little, src, rng):
    """cursors of another slice with ends that are good, within a byte, and behind the slice: 2 before 13 and 14"""
    most = 8 * len(src)
    for c in cursors(little, src, rng):
        yield from ("C %x %x %x" % c, "g")
        for end in (0, most - 1, most, most + 1, MOST):
            yield from ("E %x" % end, "m", "q 2", "l %x" % (most + 2), "l %x" % most, "l 0", "g")


def walk(little, src, rng):
    """calls one after the other from a fresh cursor, its end lowered now and then"""
    m = Machine()
    start = ["LB"[not little], "S " + src.hex(), "g", "n", "g"]
    for line in start:
        m.answer(line)
    yield from start
    for _ in range(rng.randrange(40)):
        left, ahead = m.left(), m.ahead()
        few = rng.choice((left, left + 1, rng.randrange(left + 1), rng.randrange(65)))
        end = m.place() + rng.choice((left, left + 1, left - left // 4, left - left // 8, -1))
        call = rng.choice(("b %x" % min(few, 64), "b %x" % rng.randrange(20), "s %x" % min(few, 64), "f %x" % rng.randrange(11),
                           "q %x" % rng.randrange(6), "h %x" % few, "p %x" % rng.randrange(ahead + 2), "c %x" % rng.randrange(ahead + 2),
                           "r", "r", "y %x" % rng.randrange(left // 8 + 2), "m", "k", "l %x" % max(0, end)))
        m.answer(call)
        yield call
        if call[0] == "l":
            yield "g"


def ends():
    yield "# Cursors that stop early: at every bit of short slices with every call. Made by oracle/model.py, as are the answers."
    rng = random.Random(20261116)
    some = lambda n: bytes(rng.randrange(256) for _ in range(n))
    for n in (0, 1, 2):
        src = some(n)
        counts = [(offset, r) for offset in range(n + 1) for r in range(8 * offset + 1)]
        if n == 2:
            counts = [(0, 0), (1, 0), (1, 5), (1, 8), (2, 3), (2, 10), (2, 16)]
        for little in (True, False):
            yield from ("LB"[not little], "S " + src.hex())
            for c in counts:
                for end in (*range(8 * n + 2), MOST):
                    yield from every_call(little, src, c, end)
    for n in (9, 17):
        src = some(n)
        for little in (True, False):
            yield from ("LB"[not little], "S " + src.hex())
            yield from to_the_end(little, src)
            if n == 9:
                yield from past_the_end(little, src)
                yield from remainders(little, src)
            else:
                yield from eight_before_the_end(little, src)
    src = some(2)
    for little in (True, False):
        yield from ("LB"[not little], "S " + src.hex())
        yield from foreign(little, src, rng)
    for n in range(40):
        for little in (True, False):
            yield from walk(little, some(n), rng)


if __name__ == "__main__":
    if sys.argv[1:] == ["answer"]:
        for told in answers(sys.stdin.read()):
            print(told)
    elif sys.argv[1:] == ["refusals"]:
        for line in refusals():
            print(line)
    elif sys.argv[1:] == ["ends"]:
        for line in ends():
            print(line)
    else:
        sys.exit(__doc__)
