"""A load: what the program `load` writes for a text, in whole numbers, written from docs/PINE.md, "A load", alone.

Also texts of loads, good and damaged, and the cases `load BYTES` of `replay`.
"""

import math
import re

from common import BAD, INPUTS, P, TOP, WIDE, Case, Inputs, Kind, Later, below, first_rule, lent, octets, refused, sizes
from reports import bits, results_of

NEWLINE = b"\n"
LINE = rb"(0|[1-9][0-9]*)\n"
MOST = (TOP,) * 8 + (2**16 - 1,) * 2 + (1,) * 2
MAX_D, MAX_T = 1024, 16


# The state and what is drawn from it

def step(x):
    x ^= x << 13 & TOP
    x ^= x >> 7
    return x ^ x << 17 & TOP


def states(x):
    """The states after x."""
    while True:
        x = step(x)
        yield x


assert next(states(1)) == 1082269761


def drawn(seed, inputs):
    """The floors of the gradient's coordinates, scaled, and the stream."""
    after = states(seed)
    floors = [(next(after) % 65536 - 32768) * 2**inputs.f // 65536 for _ in range(inputs.d)]
    return floors, bytes(next(after) % 256 for _ in range(sizes(inputs).stream))


# What is written

def numbers_in(text):
    """The numbers of the twelve lines, None for other text."""
    if not re.fullmatch(LINE * len(MOST), text):
        return None
    numbers = [int(line) for line in text.split(NEWLINE)[:-1]]
    return numbers if all(x <= most for x, most in zip(numbers, MOST)) else None


def early_rule(seed, inputs):
    """The first of rules 1 to 6, 19 and 22, 0 for none. d and T have narrower limits than in a call."""
    narrow = inputs._replace(d=inputs.d if inputs.d <= MAX_D else 0)
    rule = first_rule(narrow)
    if rule in (0, 19) and inputs.T > MAX_T:
        return 6
    return rule or (0 if seed else 22)


def encoding(inputs, floors, stream):
    """What encoding answers, number and place, and its measurement with the results."""
    size, later = sizes(inputs), inputs.setting
    length = sum(y * y for y in floors)
    if later.switch and length > size.bound:
        return (21, 0), []
    v = length % P
    if v > size.bound:
        return (10, 0), []
    results = list(results_of(floors, stream, size.per_test))
    in_range = [size.in_range(r) for r in results]
    if later.rule and sum(in_range) < inputs.K:
        return (20, sum(in_range)), []
    if not later.rule and not all(in_range):
        return (11, in_range.index(False)), []
    words = [y % P for y in floors] + bits(v, size.bits) + bits(size.bound - v, size.bits)
    left = inputs.K
    for r, hit in zip(results, in_range):
        words += bits(r + size.test_bound - 1 if hit else 0, size.test_bits) + [int(hit and left > 0)]
        left -= hit
    return (0, 0), words + [r % P for r in results]


def inputs_of(numbers):
    return Inputs(*numbers[1:8], Later(*numbers[8:]))


def words_of(numbers):
    seed, inputs = numbers[0], inputs_of(numbers)
    rule = early_rule(seed, inputs)
    if rule:
        return [rule, 0]
    answer, words = encoding(inputs, *drawn(seed, inputs))
    return list(answer) if answer[0] else words


def report(text):
    """What the program writes."""
    numbers = numbers_in(text)
    return b"".join(word.to_bytes(8, "little") for word in words_of(numbers)) if numbers else b""


# Texts

def text_of(numbers):
    return b"".join(b"%d\n" % x for x in numbers)


SEEDS = (1, 2, 3, 2**32, 2**63, TOP - 1, TOP, 0x9e3779b97f4a7c15)


def norm_near(rng, seed, inputs):
    """A norm bound at which the gradient is just refused or just accepted, by v or by the true length."""
    floors, _ = drawn(seed, inputs)
    length = sum(y * y for y in floors)
    return max(1, math.isqrt(rng.choice((length, length % P))) + below(rng, 3) - 1)


def draw_numbers(rng, most_d=MAX_D):
    """The twelve numbers of a load that is accepted, or refused by what is drawn."""
    seed = rng.choice((*SEEDS, *(rng.getrandbits(1 + below(rng, 64)) or 1 for _ in range(8))))
    d = rng.choice((1, 2, 3, 4, 5, 8, 9, most_d - 1, most_d, rng.randint(1, most_d)))
    f = rng.choice((0, 1, 8, 15, 16, 17, 29, 30, below(rng, 31)))
    t = rng.choice((1, 2, 3, 15, 16, rng.randint(1, MAX_T)))
    k = rng.choice((0, 1, t - 1, t, below(rng, t + 1)))
    num, den = rng.choice(((87, 10), (1, 1), (1, 2), (1, 8), (1, 40), (3, 2), (65535, 1), (1, 65535), (65535, 65535)))
    inputs = Inputs(1, d, f, rng.choice((1, 7, 65536)), rng.choice((1, 9, 65536)), t, k, Later(num, den, below(rng, 2), below(rng, 2)))
    n = norm_near(rng, seed, inputs) if rng.getrandbits(1) else rng.choice((2**f * 40, 3037000499, 10, rng.getrandbits(31) + 1))
    return [seed, min(n, 3037000499), *inputs[1:7], *inputs.later]


# Numbers that break a rule, or are the last that do not, by their line.
EDGES = (
    (0, 1, TOP), (0, 1, 3037000499, 3037000500, TOP), (0, 1, 1024, 1025, 65536, 65537, TOP), (0, 30, 31, TOP),
    (0, 1, 65536, 65537, TOP), (0, 1, 65536, 65537, TOP), (0, 1, 16, 17, 256, 257, TOP), (0, 16, 17, TOP),
    (0, 1, 65535), (0, 1, 65535), (0, 1), (0, 1),
)


def with_faults(rng, numbers, many):
    numbers = list(numbers)
    for _ in range(many):
        at = below(rng, len(numbers))
        numbers[at] = rng.choice(EDGES[at])
    return numbers


def too_wide(rng, at):
    most = MOST[at]
    return rng.choice((most + 1, most + 2, 2 * most + 1, 2 * (most + 1), most + 2**64, 10**19 * 2, 10**20, 10**30))


# What is put where a number is to stand, in its place, or before or after it.
STRANGE = (b"", b" ", b"\t", b"\r", b"\x0b", b"\x0c", b"\0", b"+", b"-", b"_", b",", b".", b"/", b":", b"a", b"x", b"e3",
           b"\xff", b"\xb2", "٣".encode(), "１".encode(), b"0x1", b"\n", b"\r\n", b"\n\n", b"\xef\xbb\xbf")


def damaged(rng, numbers):
    """A text with one damage or two. It may be that the text is a good one still."""
    lines = [b"%d" % x for x in numbers]
    ends = [NEWLINE] * len(lines)
    for _ in range(1 + below(rng, 2)):
        at, way = below(rng, len(lines)), below(rng, 14)
        if way == 0:
            lines[at] = b"0" * (1 + below(rng, 3)) + lines[at]
        elif way == 1:
            lines[at] = b"%d" % too_wide(rng, min(at, 11))
        elif way == 2:
            lines[at] = rng.choice(STRANGE)
        elif way == 3:
            lines[at] = rng.choice(STRANGE) + lines[at]
        elif way == 4:
            lines[at] += rng.choice(STRANGE)
        elif way == 5:
            ends[at] = rng.choice((b"", b"\r\n", b"\r", b" ", b"\n\n", b"\0"))
        elif way == 6:
            ends[-1] = rng.choice((b"", b"\r\n", b"\n\n", b"\n0\n", b"\n1", b"\n \n", b"\n\0", b"\n" + b"\0" * 300))
        elif way == 7:
            del lines[at], ends[at]
        elif way == 8:
            lines.insert(at, b"%d" % rng.choice((0, 1, rng.getrandbits(64)))), ends.insert(at, NEWLINE)
        elif way == 9 and lines[at]:
            i = below(rng, len(lines[at]))
            lines[at] = lines[at][:i] + bytes([below(rng, 256)]) + lines[at][i + below(rng, 2):]
        elif way == 10:
            lines[at] = b"%d" % rng.getrandbits(1 + below(rng, 80))
        elif way == 11:
            lines[at] = bytes(48 + below(rng, 10) for _ in range(1 + below(rng, 400)))
        elif way == 12:
            lines[at] = b""
        else:
            lines[at] += b"0"
    return b"".join(line + end for line, end in zip(lines, ends))


def draw_text(rng, most_d=MAX_D):
    numbers = draw_numbers(rng, most_d)
    way = below(rng, 4)
    if way == 0:
        return damaged(rng, numbers)
    return text_of(with_faults(rng, numbers, 0 if way > 1 else 1 + below(rng, 3)))


# Fixed texts

PLAIN = (1, 20, 4, 4, 1, 1, 2, 2, 87, 10, 0, 0)


def put(numbers, **changes):
    """Changed numbers, by the letters of INPUTS, and seed, num, den, rule, switch."""
    names = ("seed", *INPUTS, "num", "den", "rule", "switch")
    return [changes.get(name, x) for name, x in zip(names, numbers)]


def every_limit():
    """Each number at its limits and beside them, alone; each rule with the next."""
    yield text_of(PLAIN)
    for at, edges in enumerate(EDGES):
        for x in (*edges, *WIDE, MOST[at], MOST[at] + 1):
            numbers = list(PLAIN)
            numbers[at] = x
            yield text_of(numbers)
    pairs = ({"K": 17}, {"n": 0}, {"d": 1025}, {"f": 31}, {"c": 0}, {"e": 65537}, {"T": 17}, {"num": 0}, {"den": 0}, {"seed": 0},
             {"n": 1, "f": 8, "switch": 1}, {"n": 1, "f": 8}, {"num": 1, "den": 65535, "n": 100000, "f": 8})
    for i, one in enumerate(pairs):
        for other in pairs[i:]:
            yield text_of(put(PLAIN, **{**other, **one}))
    for numbers in ((1, 3037000499, 1024, 30, 1, 1, 16, 16, 65535, 1, 1, 1), (TOP, 3037000499, 1024, 16, 1, 1, 16, 16, 87, 10, 0, 0),
                    (1, 1, 1, 0, 1, 1, 1, 0, 1, 1, 0, 0), (5, 1, 1, 0, 1, 1, 1, 1, 1, 65535, 0, 0)):
        yield text_of(numbers)


def every_damage():
    """A good text, with each damage at each line."""
    lines = text_of(PLAIN).splitlines(keepends=True)
    for at, line in enumerate(lines):
        number = line[:-1]
        for other in (b"0" + line, b"00\n", b"\n", b"", number, number + b"\r\n", b" " + line, number + b" \n", b"+" + line, b"-" + line,
                      number + b"\0\n", b"\n" + line, line + b"\n", line + line, number + b"x\n", b"x\n", b"%d\n" % (MOST[at] + 1),
                      b"%d\n" % (MOST[at] + 2**64), number + b"0" * 400 + b"\n"):
            yield b"".join([*lines[:at], other, *lines[at + 1:]])
    whole = b"".join(lines)
    yield from (b"", b"\n", b"\n" * 12, whole[:-1], whole + b"0\n", whole + b"\n", whole + b"x", whole * 2, whole + b"\0" * 200,
                whole.replace(b"\n", b"\r\n"), whole.replace(b"\n", b" "), b"0\n" * 12, b"1\n" * 12, b"0\n" * 13, b"1" * 256, b"9" * 1000)


# The cases of `replay`

def load(text, out=()):
    written = report(text)
    want = f"ok {octets(written)}" if not out or out[0] == len(written) else refused(7, 2)
    return Case("load", f"load {octets(text)}{lent(out)}", want)


def draw(rng):
    return load(draw_text(rng, 20))


def limits():
    for text in (*every_limit(), *every_damage()):
        yield load(text)
    for text in (text_of(PLAIN), text_of(put(PLAIN, seed=0)), b"x"):
        for more in (-1, 0, 1):
            if len(report(text)) + more >= 0:
                yield load(text, (len(report(text)) + more,))
    for line in ("load", "load 3", "load 0g", "load - -", "load - out 15745"):
        yield Case("load", line, BAD)


KINDS = {"load": Kind(draw, limits, drawn=60, worked_out=True)}
