"""Cases with the second test rule, written `with NUM DEN 1 0` before any case: K tests in range are enough.

The Rust has the first rule alone. Where every test is in range the two give the same, and the original is held to; where
one missed, what encoding gives is worked out.
"""

import itertools

from circuits import PLAIN, RANDOM, valid, valideq
from common import BAD, HALF, P, RUST, Case, Inputs, Kind, Later, sizes
from multiplier import DRAWN, draw_later, drawn, of_every_kind, prefixed
from reports import FAULTS, draw_fixed, encode, faulty_encodings, full_vector, results_of, row
from reports import PLAIN as FAULTLESS
from singles import coord, decode, params

SECOND = Later(rule=1)


def drawn_with(rng, **later):
    """A case with these later inputs. Half of them encode, since no other call depends on the test rule or the switch."""
    kind = "encode" if rng.getrandbits(1) else rng.choice(list(DRAWN))
    return drawn(rng, kind, draw_later(rng)._replace(**later))


def draw(rng):
    return drawn_with(rng, rule=1)


def of_one(tests, k, later=SECOND, number=-2**32):
    """A report of one number, whose square wraps: its tests give 0, in range as these say, or the number."""
    stream = bytes(0x01 if in_range else 0x03 for in_range in tests)
    return encode(Inputs(65536, 1, 0, 1, 1, len(tests), k, later), row(number), stream)


def every_miss(most):
    """Each way in which so many tests can miss, and each K; where this is refused, by the first rule too."""
    for t in range(1, most + 1):
        for tests in itertools.product((True, False), repeat=t):
            for k in range(t + 1):
                yield of_one(tests, k)
            if not all(tests):
                yield of_one(tests, sum(tests) + 1, RUST)


def of_many_tests():
    for t, k in ((9, 8), (9, 9), (256, 256)):
        for at in (0, t // 2, t - 1):
            yield of_one([i != at for i in range(t)], k)
    yield of_one([True] * 255 + [False], 255)
    for k in (0, 1, 7, 8, 9):
        yield of_one([i % 2 > 0 for i in range(16)], k, number=2**32)
    for k in (0, 1):
        yield of_one([False] * 16, k)


def at_test_bound():
    """Results at -b, -b + 1, b and b + 1 together, and beside them."""
    for later, n, numbers, stream in (
            (Later(1, 65535, 1), 1000, (1, 1, 1), b"\x10\x14\x1f\x3f\x00\x15"),     # b is 2
            (Later(1, 1, 1), 1023, (512, 512), b"\x0f\x00"),
            (Later(1, 1, 1), 1023, (-512, -513), b"\x00\x0f"),
            (Later(1, 1, 1), 1023, (512, -511), b"\x03\x0c"),
            (Later(65535, 1, 1), 3037000499, (2**48, 1), b"\x0f\x07\x04\x0c\x00"),
            (SECOND, 1, (HALF,) * 4, b"\x57\x5f\x50\xff\x54")):
        inputs = Inputs(n, len(numbers), 0, 3, 1, len(stream), 0, later)
        found = sum(map(sizes(inputs).in_range, results_of(numbers, stream, 1)))
        for k in (found - 1, found, found + 1):
            if 0 <= k <= inputs.T:
                yield encode(inputs._replace(K=k), row(*numbers), stream)


# At the Rust's multiplier, no test of fewer than 76 numbers misses unless their squares wrap. These give 2049 with all
# signs alike, and b is 2048.
NO_WRAP = Inputs(235, 77, 0, 30, 9, 3, 1)
NUMBERS = [26] * 30 + [27] * 47
STREAM = b"\xff" * 20 + draw_fixed(20) + b"\x00" * 20


def with_circuits(inputs, numbers, stream):
    """A report that is accepted, and the circuits on it, which give 0."""
    full = full_vector(inputs, numbers, stream)
    cases = encode(inputs, row(*numbers), stream), valid(inputs, 1, full, RANDOM), valideq(inputs, 1, full)
    assert all(case.want.startswith(start) for case, start in zip(cases, ("ok ", "ok 0 ", "ok 0 ")))
    return cases


def of_reports(later):
    """Reports with every test in range; a length that wraps, and tests that missed, where these are accepted."""
    inputs = PLAIN._replace(later=later)
    for numbers, stream in (([3, -4, 0], b"\x1b\x3f"), ([0, 0, 5], b"\x30\x00")):
        yield from with_circuits(inputs, numbers, stream)
    if not later.switch:
        yield from with_circuits(Inputs(65536, 1, 0, 1, 1, 1, 1, later), [2**32], b"\x01")
    if later.rule:
        yield from with_circuits(NO_WRAP._replace(later=later), NUMBERS, STREAM)
        narrow = Inputs(1000, 3, 0, 4, 2, 4, 2, later._replace(num=1, den=65535))
        for stream in (b"\x3f\x15\x15\x15", b"\x15\x10\x1f\x15", b"\x15\x15\x15\x00", b"\x3f\x14\x00\x1f"):
            yield from with_circuits(narrow, [1, 1, 1], stream)


def falsified():
    """A success for a test that missed; one too many, in range; zeros for a test in range."""
    inputs = Inputs(1000, 3, 0, 4, 2, 4, 2, Later(1, 65535, 1))
    size, report = sizes(inputs), full_vector(inputs, [1, 1, 1], b"\x3f\x15\x15\x15")
    start, width = inputs.d + 2 * size.bits, size.test_bits + 1
    for at, many, x in ((width - 1, 1, 1), (4 * width - 1, 1, 1), (width, width, 0)):
        full = list(report)
        full[start + at:start + at + many] = [x] * many
        yield valid(inputs, 1, full, RANDOM)


# A word that must be 0 or 1.
NOT_A_BIT = (2, 10, 256, 257, 2**32 + 1, 2**64, 2**64 + 1)


def limits():
    yield from every_miss(3)
    yield from of_many_tests()
    yield from at_test_bound()
    yield from faulty_encodings(FAULTLESS._replace(later=SECOND), FAULTS)
    inputs = PLAIN._replace(later=SECOND)
    for more in (-1, 0, 1):
        yield from of_every_kind(inputs, inputs, more)
    yield from of_reports(SECOND)
    yield from falsified()
    yield params(*inputs)
    yield prefixed(SECOND, coord(0, *row(1.5)))
    yield prefixed(SECOND, decode(1, P - 1))
    for word in NOT_A_BIT:
        yield Case("with", f"with 87 10 {word} 0 params {PLAIN}", BAD)


def sweep():
    yield from every_miss(6)
    for k in range(4):
        yield encode(NO_WRAP._replace(K=k, later=SECOND), row(*NUMBERS), STREAM)
    for den, t in itertools.product((1, 7, 65535), (1, 255, 256)):
        inputs = Inputs(100000, 4096, 0, 100, 100, t, t // 2, Later(1, den, 1))
        numbers, stream = [i * 37 % 2049 - 1024 for i in range(4096)], draw_fixed(sizes(inputs).stream)
        yield encode(inputs, row(*numbers), stream)
        yield valid(inputs, 1, full_vector(inputs, numbers, stream), RANDOM)


KINDS = {"test_rule": Kind(draw, limits, sweep, drawn=30)}
