"""Cases with the switch for the true squared length on, written `with NUM DEN RULE 1` before any case.

The Rust has the length modulo p alone. Where the true one is within B the switch changes nothing, and the original is
held to.
"""

import itertools

from circuits import PLAIN
from common import BAD, HALF, P, RUST, STEPS, Case, Inputs, Kind, Later, sizes
from multiplier import NUMBERS, STREAM, of_every_kind, prefixed
from reports import FAULTS, WRAPPING, around, draw_fixed, encode, faulty_encodings, row
from reports import PLAIN as FAULTLESS
from singles import coord, decode, params
from test_rule import NOT_A_BIT, drawn_with, of_one, of_reports

ON = Later(switch=1)
BOTH = Later(rule=1, switch=1)


def draw(rng):
    return drawn_with(rng, rule=rng.getrandbits(1), switch=1)


# n, and numbers whose squares add up to B, to one less or to one more, or to the next square.
AT_BOUND = (
    (1, (0,)), (1, (-1,)), (1, (1, -1)), (1, (2,)), (3, (1,) * 9), (3, (-1,) * 10), (5, (3, -4)), (5, (-5, 0, 0)),
    (5, (2, -4, -2)), (5, (-5, 1)), (5, (3, -4, -1)), (65536, (-65536,)), (65536, (1, 65536)), (65536, (-65537,)),
    (3037000499, (-3037000499,)), (3037000499, (0, 3037000499, -1)), (3037000499, (3037000500,)),
)

# n, numbers of which v is within B and the true length is not, and a stream with which their tests are in range. The
# lengths are 2^64, the same beside zeros, 2^96 + 1, p, p + 25, 4 and 8 times that of (p - 1)/2, and 2^128 + 2^32.
WRAPPED = (
    (65536, (2**32,), b"\x01"),
    (65536, (-2**32,), b"\x02"),
    (65536, (0, 0, 2**32), b"\x1f"),
    (1, (2**48, 1), b"\x0d"),
    (1, (2**32 - 1, -65536), b"\x05"),
    (5, (3, 65536, -4, 1 - 2**32), b"\x77"),
    (1, (HALF,) * 4, b"\x5f"),
    (1, (-HALF,) * 4, b"\x50"),
    (2, (HALF, -HALF) * 4, b"\x5f\x5f"),
    (65536, (2**62,) * 16 + (-65536,), b"\x55\x55\x55\x55\x03"),
)


def of_numbers(n, numbers, later, stream=None):
    inputs = Inputs(n, len(numbers), 0, 3, 1, 1, 1, later)
    return encode(inputs, row(*numbers), stream or draw_fixed(sizes(inputs).stream))


def of_floors():
    """A coordinate counts by its floor."""
    for n, f, gradient in ((1, 0, (-0.25,)), (1, 0, (-0.25, -0.25)), (1, 0, (0.75, -0.0, 0.75)), (2, 2, (-0.3,)),
                           (1, 2, (-0.3,)), (1, 2, (0.3, 0.0))):
        yield encode(Inputs(n, len(gradient), f, 3, 1, 1, 1, ON), row(*gradient), draw_fixed(1))


def limits():
    for n, numbers in AT_BOUND:
        yield of_numbers(n, numbers, ON)
    yield from of_floors()
    for n, numbers, stream in WRAPPED:
        for later in (RUST, BOTH):
            yield of_numbers(n, numbers, later, stream)
    for many in (1, 4, 5):      # beyond B by either length, in 126, 128 and 129 binary digits
        yield of_numbers(3037000499, (-HALF,) * many, ON)
    for later, k in itertools.product((ON, BOTH), (0, 1)):      # with rule 11 or 20
        yield of_one([False], k, later)
    yield from faulty_encodings(FAULTLESS._replace(later=BOTH), FAULTS)
    inputs, size = PLAIN._replace(later=BOTH), sizes(PLAIN)
    yield from of_every_kind(inputs, inputs)
    for stream, measurement, results in ((1, 0, 0), (3, 0, 0), (2, -1, 0), (2, 1, 0), (2, 0, -1), (2, 0, 1)):
        yield encode(inputs, row(*NUMBERS), (STREAM + b"\0")[:stream], (size.measurement + measurement, PLAIN.T + results))
    for later in (RUST, ON, BOTH):
        yield from of_reports(later)
    for later in (ON, BOTH):
        yield params(*PLAIN._replace(later=later))
        yield prefixed(later, coord(0, *row(2**32)))
        yield prefixed(later, decode(1, P - 1))
    for word in NOT_A_BIT:
        yield Case("with", f"with 87 10 0 {word} params {PLAIN}", BAD)


def sweep():
    for n in STEPS:
        for numbers in ((-n, 0), (n, 1), (1 - n, 1), (0, n + 1)):
            yield of_numbers(n, numbers, ON)
    for a, b in itertools.combinations_with_replacement(WRAPPING, 2):
        numbers = a, -b, 1
        for later, byte in itertools.product((ON, BOTH), (0x15, 0x35, 0x0f)):
            yield of_numbers(around(numbers), numbers, later, bytes([byte]))
    for d, n in ((4095, 63), (4095, 64), (4096, 64), (4097, 64), (8192, 90), (8192, 91)):
        yield of_numbers(n, [(-1) ** i for i in range(d)], ON)
    for d in (64, 4096, 8192):
        yield of_numbers(3037000499, (HALF, -HALF) * (d // 2), ON)


KINDS = {"true_length": Kind(draw, limits, sweep, drawn=30)}
