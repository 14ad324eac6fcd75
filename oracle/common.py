"""What the kinds of case share: docs/PINE.md's limits, lengths and rules, and ways to draw numbers and rows.

Lengths, and what rules 10, 11, 17, 20 and 21 ask, are worked out here from docs/PINE.md alone.
"""

import functools
import itertools
import math
import random
import struct
from typing import Callable, Iterable, NamedTuple

P = 2**64 - 2**32 + 1
HALF = (P - 1) // 2
TOP = 2**64 - 1
P128 = 2**128 - 28 * 2**64 + 1

OK = "ok"
BAD = "bad"
NONE = ""


class Case(NamedTuple):
    kind: str
    line: str
    want: str
    plain: str = ""     # with later inputs that change nothing: the line without them, which the original is asked


class Kind(NamedTuple):
    draw: Callable[[random.Random], Case]
    limits: Callable[[], Iterable[Case]] = lambda: ()
    sweep: Callable[[], Iterable[Case]] = lambda: ()
    drawn: int = 80     # so many in the gate's list
    malformed: int = 25     # and so many malformed ones
    worked_out: bool = False    # whether the original has no such call, and an accepted case says what it gives


# Whole numbers and their limits

INPUTS = "ndfceTK"
LIMITS = {"n": (1, 3037000499), "d": (1, 65536), "f": (0, 30), "c": (1, 65536), "e": (1, 65536), "T": (1, 256)}


class Field(NamedTuple):
    """What depends on the field that a call is over."""
    name: str           # what the names of its kinds end in
    p: int
    words: int          # of an element in a row
    most_n: int
    floor: int          # the greatest size of a floor, by rule 17
    centred: int        # the greatest size of a number that is decoded, by rule 23
    elements: tuple     # where a sum, a word, the digits of a double or the field turn
    not_elements: tuple

    def limits(self, name):
        return (1, self.most_n) if name == "n" else LIMITS[name]

    def centre(self, y):
        return y if y <= self.p // 2 else y - self.p


FIELD64 = Field("", P, 1, LIMITS["n"][1], HALF, HALF,
                (0, 1, 2, P - 1, P - 2, HALF - 1, HALF, HALF + 1, 2**31, 2**32 - 1, 2**32, 2**32 + 1,
                 2**53 - 1, 2**53, 2**53 + 1, 2**63 - 1, 2**63),
                (P, P + 1, P + 2**31, TOP - 1, TOP))

HALF128 = (P128 - 1) // 2
FIELD128 = Field("128", P128, 2, 2**32 - 1, TOP, TOP,
                 (0, 1, 2, P128 - 1, P128 - 2, HALF128 - 1, HALF128, HALF128 + 1, 2**53 - 1, 2**53, 2**53 + 1, TOP - 1, TOP,
                  TOP + 1, TOP + 2, P128 - TOP - 2, P128 - TOP - 1, P128 - TOP, P128 - TOP + 1, 2**64 - 29 << 64, 2**127),
                 (P128, P128 + 1, P128 + TOP, 2**64 - 27 << 64, TOP << 64, 2**128 - 2, 2**128 - 1))

# Where a narrower or a signed number would go wrong, or the original's shift does.
WIDE = (127, 128, 255, 256, 2**16, 2**31 - 1, 2**31, 2**32 - 1, 2**32, 2**32 + 1, 2**53 - 1, 2**53, 2**53 + 1,
        HALF, HALF + 1, 2**63 - 1, 2**63, 2**63 + 1, P - 1, P, TOP - 1, TOP)


def within(name, x, field=FIELD64):
    low, high = field.limits(name)
    return low <= x <= high


def clamp(x, low, high):
    return min(max(x, low), high)


def below(rng, n):
    """A random number below a small n: several times as fast as randrange."""
    return int(rng.random() * n)


def near(rng, x):
    return clamp(x + below(rng, 5) - 2, 0, TOP)


def allowed(rng, name, field=FIELD64):
    """A number within its limits: an edge, by a power of two, of any length, or any."""
    low, high = field.limits(name)
    way = below(rng, 4)
    if way == 0:
        return rng.choice((low, low + 1, high - 1, high))
    if way == 1:
        return clamp(near(rng, 1 << below(rng, high.bit_length())), low, high)
    if way == 2:
        return clamp(rng.getrandbits(1 + below(rng, high.bit_length())), low, high)
    return rng.randint(low, high)


def broken(rng, name, field=FIELD64):
    """A number outside its limits: just outside, one that looks right in its low half, by a wide one, or any."""
    low, high = field.limits(name)
    while True:
        way = below(rng, 5)
        if way == 0:
            x = rng.choice((max(low - 1, 0), high + 1, high + 2, 2 * high))
        elif way == 1:
            x = (rng.getrandbits(32) << 32) + rng.randint(low, high)
        elif way == 2:
            x = near(rng, rng.choice(WIDE))
        elif way == 3:
            x = near(rng, 1 << below(rng, 64))
        else:
            x = rng.getrandbits(1 + below(rng, 64))
        if not within(name, x, field):
            return x


# The inputs, and what is derived from them

class Later(NamedTuple):
    """The later inputs, written before a case: the multiplier, the test rule, the switch for the true length."""
    num: int = 87
    den: int = 10
    rule: int = 0
    switch: int = 0

    def __str__(self):
        return "with " + " ".join(map(str, self))


RUST = Later()


class Inputs(NamedTuple):
    n: int
    d: int
    f: int
    c: int
    e: int
    T: int
    K: int
    later: Later | None = None      # the Rust's, where none are written
    field: Field = FIELD64

    @property
    def setting(self):
        return self.later or RUST

    def __str__(self):
        """The seven of docs/PINE.md."""
        return " ".join(map(str, self[:7]))


class Sizes(NamedTuple):
    bound: int          # B
    bits: int           # q
    test_bound: int     # b
    test_bits: int      # w
    checked: int        # L
    per_test: int       # bytes of the stream
    stream: int
    measurement: int
    full: int

    def in_range(self, result):
        """Of a test's result, centred."""
        return -self.test_bound < result <= self.test_bound


def sizes(inputs):
    n, d, t = inputs.n, inputs.d, inputs.T
    later = inputs.setting
    bits = (n * n).bit_length()
    test_bound = 1 << (-(-later.num * n // max(later.den, 1))).bit_length()
    test_bits = (2 * test_bound - 1).bit_length()
    checked = 2 * bits + (1 + test_bits) * t
    per_test = -(-d // 4)
    return Sizes(n * n, bits, test_bound, test_bits, checked, per_test, t * per_test, d + checked, d + checked + t)


@functools.lru_cache
def steps(later, field=FIELD64):
    """The last n before n x n gets one more binary digit or the test bound doubles, and the first n after."""
    num, den = max(later.num, 1), later.den
    return sorted({n for k in range(64) for last in (math.isqrt(2**k - 1), den * (2**k - 1) // num)
                   for n in (last, last + 1) if within("n", n, field)})


STEPS = steps(RUST)


def chunk(rng, length):
    """A chunk length: any, or near a part of the row that it cuts."""
    if rng.getrandbits(1):
        return allowed(rng, "c")
    return clamp(near(rng, length // (1 + below(rng, 69))), *LIMITS["c"])


def successes(rng, t, wrong):
    if wrong:
        k = rng.choice((t + 1, t + 2, 2 * t + 1, t + 2**32, TOP, t + 1 + rng.getrandbits(rng.randrange(1, 64))))
    else:
        k = clamp(rng.choice((0, 1, t - 1, t, rng.randint(0, t))), 0, t)
    return min(k, TOP)


def draw_inputs(rng, wrong="", later=None, field=FIELD64):
    """Seven inputs, of which those named in `wrong` break their rule, and the later ones given."""
    def pick(name):
        return broken(rng, name, field) if name in wrong else allowed(rng, name, field)
    n = rng.choice(steps(later or RUST, field)) if "n" not in wrong and below(rng, 3) == 0 else pick("n")
    d, f, t = pick("d"), pick("f"), pick("T")
    length = sizes(Inputs(n, d, f, 1, 1, t, 0, later)).checked if rng.getrandbits(1) else t
    c = broken(rng, "c") if "c" in wrong else chunk(rng, length)
    e = broken(rng, "e") if "e" in wrong else chunk(rng, d)
    return Inputs(n, d, f, c, e, t, successes(rng, t, "K" in wrong), later, field)


# Outside the limits, and still no more than the original can find memory for; of n, such as are.
OUTSIDE = {"n": (0, 3037000500, 2**32 - 1, 2**32, 2**63, TOP), "d": (0, 0, 0, 65537), "f": (31, 32, 33, 64, 127, 128, TOP),
           "c": (0, 0, 65537), "e": (0, 0, 65537), "T": (0, 0, 257)}


def draw_small(rng, wrong=(), later=None, d=0, field=FIELD64):
    """As draw_inputs, with few coordinates and tests, for a call that has rows; d may be given."""
    if "n" in wrong:
        n = rng.choice([n for n in OUTSIDE["n"] if not within("n", n, field)])
    else:
        n = rng.choice(steps(later or RUST, field)) if rng.getrandbits(1) else allowed(rng, "n", field)
    if "d" in wrong:
        d = rng.choice(OUTSIDE["d"])
    elif not d:
        d = 1 + below(rng, 9 if below(rng, 4) else 24)
    f = rng.choice(OUTSIDE["f"]) if "f" in wrong else below(rng, 31) if rng.getrandbits(1) else 0
    t = rng.choice(OUTSIDE["T"]) if "T" in wrong else 1 + below(rng, 3 if below(rng, 4) else 9)
    checked = sizes(Inputs(n, d, f, 1, 1, t, 0, later)).checked
    c = rng.choice(OUTSIDE["c"]) if "c" in wrong else small_chunk(rng, (checked, checked, t))
    e = rng.choice(OUTSIDE["e"]) if "e" in wrong else small_chunk(rng, (d,))
    return Inputs(n, d, f, c, e, t, successes(rng, t, "K" in wrong), later, field)


def small_chunk(rng, lengths):
    """A chunk length by the lengths that it cuts: 1, all, one more, a part that leaves a short chunk; rarely a long one."""
    length = rng.choice(lengths)
    way = below(rng, 64)
    if way == 0:
        return rng.choice((65535, 65536))
    if way < 12:
        return 1
    if way < 24:
        return clamp(near(rng, length), *LIMITS["c"])
    return clamp(near(rng, length // (1 + below(rng, 9))), *LIMITS["c"])


# Rules

# Each of rules 1 to 6 broken by one input, or two for rule 5.
BROKEN = ({"K": 300}, {"n": 0}, {"d": 0}, {"f": 31}, {"c": 0}, {"e": 65537}, {"T": 257})


def refused(rule, place=0):
    return f"refused {rule} {place}" if rule else OK


def first_rule(inputs):
    """The first of rules 1 to 6 and 19 that the inputs break, 0 for none."""
    n, d, f, c, e, t, k, later, field = inputs
    if k > t:
        return 1
    if not within("n", n, field):
        return 2
    if not within("d", d):
        return 3
    if not within("f", f):
        return 4
    if not (within("c", c) and within("e", e)):
        return 5
    if not within("T", t):
        return 6
    if later and 0 in later[:2]:
        return 19
    return 0


def rule_7(*rows):
    """From the length that each row has and the one it must have, which is None for the gradient of doubles."""
    for place, (length, derived) in enumerate(rows, 1):
        if derived is not None and length != derived:
            return refused(7, place)
    return OK


def rule_12(*rows, field=FIELD64):
    at = 0
    for row in rows:
        for x in row:
            if x >= field.p:
                return refused(12, at)
            at += 1
    return OK


def rule_23(row, field):
    """Of numbers that are decoded."""
    return next((refused(23, at) for at, y in enumerate(row) if abs(field.centre(y)) > field.centred), OK)


def rule_13(num_shares):
    return OK if 0 < num_shares < 256 else refused(13)


def first(*answers):
    return next((answer for answer in answers if answer != OK), OK)


# Words

class Words(list):
    """A row given word by word, of which there may be an odd number; the original takes no such row."""


def length(row):
    """In elements: over Field128 there can be half of one."""
    return len(row) / FIELD128.words if isinstance(row, Words) else len(row)


def vec(row):
    return " ".join([*["words"] * isinstance(row, Words), str(len(row)), *map("{:x}".format, row)])


def patterns(row):
    return " ".join([str(len(row)), *map("{:016x}".format, row)])


def octets(stream):
    return stream.hex() or "-"


def lent(out, field=FIELD64):
    """The lengths of lent rows, where a case names them: in elements here, in words there."""
    return " out " + " ".join(str(int(n * field.words)) for n in out) if out else ""


def case_of(kind, inputs, rest, want, given, worked_out=False):
    """A case of the inputs. What `given` works out, an accepted one must give where the original has no such call and
    where later inputs are written; it is held to the original too, if it has the call and the multiplier is the Rust's."""
    kind += inputs.field.name
    plain = f"{kind} {inputs}{rest}"
    if want == OK and (worked_out or inputs.later):
        want = f"{OK} {given()}"
    if inputs.later is None:
        return Case(kind, plain, want)
    return Case("with", f"{inputs.later} {plain}", want, plain if inputs.later[:2] == RUST[:2] and not worked_out else "")


# Doubles

EXPONENT = 0x7ff << 52
SIGN = 1 << 63


def bits_of(x):
    return struct.unpack("<Q", struct.pack("<d", x))[0]


def usable(bits):
    """Whether a double is a zero or normal."""
    return 0 < bits & EXPONENT < EXPONENT or bits in (0, SIGN)


def floor_of(bits, f):
    """floor(x 2^f) of a double that is usable."""
    exponent = (bits & EXPONENT) >> 52
    if exponent == 0:
        return 0
    digits = 2**52 + (bits & 2**52 - 1)
    shift = exponent - 1075 + f
    if bits & SIGN:
        digits = -digits
    return digits << shift if shift >= 0 else digits >> -shift


def coordinate_rule(bits, f, field=FIELD64):
    """Which of rules 8 and 17 refuses a coordinate, 0 for none."""
    if not usable(bits):
        return 8
    return 0 if abs(floor_of(bits, f)) <= field.floor else 17


# Elements

def element(rng, field=FIELD64):
    way = below(rng, 4)
    if way == 0:
        return rng.choice(field.elements)
    if way == 1:
        return (below(rng, 2001) - 1000) % field.p
    if way == 2:
        return rng.getrandbits(1 + below(rng, 64 * field.words)) % field.p
    return rng.randrange(field.p)


def elements(rng, length, field=FIELD64):
    return [element(rng, field) for _ in range(length)]


def damage(rng, row, field=FIELD64):
    """The row with one element, or a few, that are not below p; one with an odd number of words as it is."""
    if isinstance(row, Words):
        return row
    row = list(row)
    for _ in range(1 + below(rng, 2) if row else 0):
        row[below(rng, len(row))] = rng.choice(field.not_elements)
    return row


def other_row(rng, row, field=FIELD64):
    """The row with another length; over Field128 also with an odd number of words."""
    if field.words == 2 and below(rng, 3) == 0:
        return odd(row, rng.choice((-1, 1)))
    return resized(rng, row, lambda rng: element(rng, field))


def odd(row, more):
    """A row of elements with a word more, or a word less."""
    words = Words(itertools.chain.from_iterable((x & TOP, x >> 64) for x in row))
    return Words((words + [0])[:len(words) + more]) if words else Words([0])


def resized(rng, row, more):
    """The row with another length; `more` draws what it lacks."""
    row, length = list(row), len(row)
    other = rng.choice((0, length - 1, length - 1, length + 1, length + 1, length + 4, 2 * length + 1))
    other = other if 0 <= other != length else length + 1
    return (row + [more(rng) for _ in range(other - length)])[:other]


def combined(faulty):
    """The changes for each fault alone, for each two of them, and for all at once."""
    for many in (1, 2, len(faulty)):
        for chosen in itertools.combinations(faulty, many):
            yield dict(itertools.chain.from_iterable(fault.items() for fault in chosen))


def changed(inputs, changes):
    """The inputs with those changes that are of inputs."""
    return inputs._replace(**{name: x for name, x in changes.items() if name in Inputs._fields})


def faults(rng, names):
    """Which faults a drawn case has: none, one, two or three of these."""
    return rng.sample(names, rng.choice((0, 0, 0, 0, 0, 0, 1, 1, 2, 3)))
