"""Cases with another multiplier than 8.7, written `with NUM DEN 0 0` before any case (changes/g.md).

The Rust has 87 and 10 alone. What other numbers give is worked out, by the same functions that are held to the original
where the numbers written are the Rust's.
"""

import itertools

import aggregates
import circuits
import cuts
import parts
import reports
import seeds
import singles
from aggregates import ROW, TAKING, adding, aggregate, long_rows, unshard
from circuits import PLAIN, RANDOM, valid, valideq
from common import BROKEN, LIMITS, P, RUST, TOP, Case, Inputs, Kind, Later, below, changed, sizes, steps, within
from cuts import FIVE, NONCE, cut
from parts import ENDS, part
from reports import NAN, draw_fixed, encode, full_vector, row, wrtests
from seeds import SEED, encodeseed, wrtestsseed
from singles import coord, decode, params

MULTIPLIERS = tuple(Later(*both) for both in ((1, 1), (1, 65535), (65535, 1), (65535, 65535), (2, 3), (87, 10), (7, 2)))

# Rule 19.
ZERO = tuple(Later(*both) for both in ((0, 10), (87, 0), (0, 0)))


def prefixed(later, case):
    """A case of one number. Such a call takes f alone, and tests no later input."""
    return Case("with", f"{later} {case.line}", case.want, case.line)


# Drawn

ALONE = ("coord", "decode")
DRAWN = {**singles.KINDS, **reports.KINDS, **seeds.KINDS, **cuts.KINDS, **circuits.KINDS, **parts.KINDS, **aggregates.KINDS}


def number(rng):
    """From 1 to 65535: an edge, of any length, or any."""
    return max(rng.choice((1, 2, 65534, 65535, rng.getrandbits(1 + below(rng, 16)), rng.getrandbits(16))), 1)


def draw_later(rng):
    way = below(rng, 8)
    if way < 2:
        return RUST
    if way < 4:
        return rng.choice(MULTIPLIERS)
    num, den = number(rng), number(rng)
    return rng.choice((Later(0, den), Later(num, 0), Later(0, 0))) if way == 4 else Later(num, den)


def drawn(rng, kind, later):
    if kind in ALONE:
        return prefixed(later, DRAWN[kind].draw(rng))
    return DRAWN[kind].draw(rng, later)


def draw(rng):
    return drawn(rng, rng.choice(list(DRAWN)), draw_later(rng))


# Fixed cases

# For PLAIN, and within the least test bound.
NUMBERS = [1, 0, -1]
STREAM = b"\x07\x1c"


def of_every_kind(inputs, fits, more=0):
    """A case of each kind that has rows. These fit other inputs, or the same, and one has an element more, or one less."""
    size, full = sizes(fits), full_vector(fits, NUMBERS, STREAM)
    full, other = (full + [0])[:size.full + more], (ROW + [0])[:len(ROW) + more]
    yield encode(inputs, row(*NUMBERS), STREAM, (size.measurement + more, fits.T))
    yield wrtests(inputs, [y % P for y in NUMBERS], (STREAM + b"\0")[:len(STREAM) + more])
    seed = (SEED + b"\0")[:len(SEED) + more]
    yield encodeseed(inputs, row(*NUMBERS), seed, (size.measurement, fits.T))
    yield wrtestsseed(inputs, [y % P for y in NUMBERS], seed)
    yield cut(inputs, row(*NUMBERS), NONCE, (FIVE + b"\0")[:len(FIVE) + more])
    yield valid(inputs, 1, full, RANDOM)
    yield valideq(inputs, 1, full)
    yield from (part(kind, inputs, full) for kind in ENDS)
    yield from (adding(kind, inputs, other, ROW) for kind in ("merge", "accumulate", *TAKING))
    yield aggregate(inputs, [ROW, other])
    yield unshard(inputs, ROW, other)


def rule_19():
    """Alone, with each rule on the inputs, and with those after it."""
    for later in (*ZERO, *(Later(*both) for both in ((0, 1), (0, 65535), (1, 0), (65535, 0)))):
        yield params(*PLAIN._replace(later=later))
        for broken in BROKEN:
            yield params(*changed(PLAIN, broken)._replace(later=later))
        yield prefixed(later, coord(0, *row(1.5)))
        yield prefixed(later, decode(1, P - 1))
    for later in ZERO:
        inputs = PLAIN._replace(later=later)
        yield from of_every_kind(inputs, PLAIN)
        yield from of_every_kind(inputs._replace(T=257), PLAIN)
        yield from of_every_kind(inputs, PLAIN, 1)
        yield valid(inputs, 0, [P] * sizes(PLAIN).full, [TOP] * 3)
        yield encode(inputs, [NAN], b"", (0, 0))
        yield unshard(inputs, [P] * 3, [TOP] * 3)


def factored(product):
    """A numerator and an n with this product, if there are."""
    least = -(-product // LIMITS["n"][1])
    return next(((num, product // num) for num in range(max(least, 1), 65536) if product % num == 0), None)


def at_powers(exponents):
    """The multiplier and n, their product divided by the denominator being near a power of two, or the power itself."""
    for k, off, den in itertools.product(exponents, (-1, 0, 1), (1, 3, 65535)):
        for remainder in (0, 1, den - 1) if den > 1 else (0,):
            both = factored((2**k + off) * den + remainder)
            if both:
                yield Later(both[0], den), both[1]


def at_test_bound():
    """Results at -b, -b + 1, b, b + 1 and beside them; at the largest bound by a v that wraps."""
    for both, n, half in (((1, 65535), 1000, 1), ((2, 3), 1024, 2**9), ((1, 1), 1023, 2**9), ((65535, 65535), 1023, 2**9),
                          ((1, 3), 3037000499, 2**29)):
        for other, byte in itertools.product((half - 1, half, half + 1), (0x0f, 0x00)):
            yield encode(Inputs(n, 2, 0, 3, 1, 1, 1, Later(*both)), row(half, other), bytes([byte]))
    for byte in (0x0f, 0x07, 0x03, 0x00, 0x04, 0x0c):
        yield encode(Inputs(3037000499, 2, 0, 3, 1, 1, 1, Later(65535, 1)), row(2**48, 1), bytes([byte]))


def of_reports():
    """Reports of every multiplier and of n small and large, put to the circuits as they are, changed and shared."""
    for later, n in itertools.product(MULTIPLIERS, (1, 2, 1000, 3037000499)):
        inputs = Inputs(n, 2, 0, 9, 1, 1, 1, later)
        report, share = full_vector(inputs, [-1, 0], b"\x03"), long_rows(sizes(inputs).full)[1]
        yield params(*inputs)
        yield encode(inputs, row(-1, 0), b"\x03")
        yield valid(inputs, 1, report, RANDOM)
        yield valid(inputs, 1, report[:-1] + [(report[-1] + 1) % P], RANDOM)
        yield valid(inputs, 2, share, RANDOM)
        yield valideq(inputs, 1, report)
        yield part("checked_part", inputs, share)


def limits():
    yield from rule_19()
    for later in MULTIPLIERS:
        inputs = PLAIN._replace(later=later)
        for more in (-1, 0, 1):
            yield from of_every_kind(inputs, inputs, more)
        yield from of_every_kind(inputs, PLAIN)
    yield from of_reports()
    yield from at_test_bound()
    for later, n in at_powers((1, 2, 3, 10, 31, 32, 40, 46, 47)):
        yield params(*PLAIN._replace(n=n, later=later))


def sweep():
    for later, n in at_powers(range(48)):
        inputs = PLAIN._replace(n=n, later=later)
        yield params(*inputs)
        yield from of_every_kind(inputs, inputs)
    for later in MULTIPLIERS:
        for n, j in itertools.product(steps(later), (-1, 0, 1)):
            if within("n", n + j):
                yield params(*PLAIN._replace(n=n + j, later=later))
        # with the largest bound the full vector is about the longest that replay takes
        inputs = Inputs(3037000499, 3200, 20, 100, 100, 255, 254, later)
        yield encode(inputs, row(*((i * 37 % 101 - 50) / 7 for i in range(3200))), draw_fixed(sizes(inputs).stream))
        yield valid(inputs, 2, long_rows(sizes(inputs).full)[1], RANDOM)


KINDS = {"with": Kind(draw, limits, sweep, worked_out=True)}
