"""Cases of encoding and of the wraparound tests with a seed in the stream's place: encodeseed, wrtestsseed.

The seed's stream is worked out by turboshake.py, for the rules that depend on it. What an accepted case gives comes from
the original, with its own XOF.
"""

import functools
import itertools

from common import BROKEN, P, TOP, Inputs, Kind, first_rule, sizes
from reports import FAULTS, PLAIN, draw_encode, draw_wrtests, encode, faulty_encodings, faulty_tests, row, wrtests
from turboshake import dst, xof_turbo_shake128

SEED_LEN = 16
USAGE_WR_JOINT_RAND = 8
SEED = bytes(range(SEED_LEN))   # with PLAIN both tests take the first number
OTHERS = tuple(bytes((17 * i + 5 * j) % 256 for i in range(SEED_LEN)) for j in range(8))
ENDS = (b"\x00" * SEED_LEN, b"\xff" * SEED_LEN)

# Of other lengths: none, one less, one more, twice as long, and as PLAIN's stream.
NO_SEEDS = tuple((SEED + SEED)[:length] for length in (0, 15, 17, 32, 2))


@functools.lru_cache
def stream_of(seed, length):
    return xof_turbo_shake128(seed, dst(USAGE_WR_JOINT_RAND), b"", length)


def of_seed(make):
    """The call with a seed, from the one with a stream."""
    def made(inputs, gradient, seed, out=()):
        asked = len(seed) == SEED_LEN and not first_rule(inputs)
        return make(inputs, gradient, stream_of(seed, sizes(inputs).stream) if asked else b"", out, seed)
    return made


encodeseed = of_seed(encode)
wrtestsseed = of_seed(wrtests)

# d and T with which a stream has 1 byte or few, ends beside a block of 168 bytes, or beside a buffer of 1024 or 16384; and
# with which these hold no whole number of tests.
LENGTHS = ((1, 1), (1, 2), (4, 1), (5, 1), (4, 167), (4, 168), (4, 169), (7, 84), (16, 255), (16, 256), (17, 204), (17, 205),
           (256, 256), (260, 253), (300, 256))

# The same for rows too long for the gate's list.
LONG = ((660, 1), (672, 1), (676, 1), (1365, 3), (4096, 1), (4100, 1), (260, 252), (4096, 16), (4096, 17), (4096, 256),
        (4093, 255), (8192, 1), (8192, 8), (8192, 9), (8189, 128))


def of_lengths(lengths, seeds):
    for (d, t), seed in itertools.product(lengths, seeds):
        inputs = Inputs(1000 if d < 1000 else 10000, d, 4, 50, 60, t, t // 2)
        yield encodeseed(inputs, row(*((i * 37 % 19 - 9) / 4 for i in range(d))), seed)
        yield wrtestsseed(inputs, [(i * 0x9e3779b97f4a7c15) % P for i in range(d)], seed)


def of_kind(kind, cases):
    return (case for case in cases if case.kind == kind)


def limits_encodeseed():
    one, large = Inputs(1, 4, 0, 1, 1, 2, 2), Inputs(65536, 1, 0, 1, 1, 2, 1)
    for seed in (SEED, *OTHERS, *ENDS):
        yield encodeseed(one, row(1, 0, 0, 0), seed)
        yield encodeseed(large, row(2**32), seed)       # which misses where a test takes it
    for i in range(8 * SEED_LEN):       # each bit of a seed
        yield encodeseed(PLAIN, row(3, -4.5, 0.25), (1 << i).to_bytes(SEED_LEN, "little"))
    yield from of_kind("encodeseed", of_lengths(LENGTHS, [SEED]))
    size = sizes(PLAIN)
    yield from faulty_encodings(PLAIN, (*BROKEN, {"stream": SEED[1:]}, {"out": (size.measurement + 1, 2)},
                                        {"out": (size.measurement, 1)}, *FAULTS), encodeseed, SEED)
    for seed, measurement, results in itertools.product((*NO_SEEDS, SEED), (-1, 0, 1), (1, 2, 3)):
        yield encodeseed(PLAIN, row(1, 2, 3), seed, (size.measurement + measurement, results))


def limits_wrtestsseed():
    for d, seed in itertools.product(range(1, 10), (SEED, *OTHERS, *ENDS)):
        yield wrtestsseed(Inputs(1, d, 0, 1, 1, 2, 0), [(P - 10**i) if i % 2 else 10**i for i in range(d)], seed)
    for i in range(8 * SEED_LEN):
        yield wrtestsseed(PLAIN._replace(d=8), [1 << 8 * j for j in range(8)], (1 << i).to_bytes(SEED_LEN, "big"))
    yield from of_kind("wrtestsseed", of_lengths(LENGTHS, [SEED]))
    yield from faulty_tests(wrtestsseed, SEED, SEED[1:])
    for d, seed, results in itertools.product((2, 3, 4), (*NO_SEEDS, SEED), (1, 2, 3)):
        yield wrtestsseed(PLAIN, [5] * d, seed, (results,))
    for x, at in itertools.product((P - 1, P, TOP), range(5)):
        yield wrtestsseed(PLAIN._replace(d=5), [x if i == at else 2**40 + i for i in range(5)], SEED)


def swept(kind):
    def sweep():
        yield from of_kind(kind, of_lengths(LENGTHS, OTHERS))
        yield from of_kind(kind, of_lengths(LONG, [SEED]))
        yield from of_kind(kind, of_lengths([(d, 3) for d in range(1, 200)], [SEED]))
    return sweep


KINDS = {
    "encodeseed": Kind(functools.partial(draw_encode, make=encodeseed, length=SEED_LEN), limits_encodeseed,
                       swept("encodeseed")),
    "wrtestsseed": Kind(functools.partial(draw_wrtests, make=wrtestsseed, length=SEED_LEN), limits_wrtestsseed,
                        swept("wrtestsseed")),
}
