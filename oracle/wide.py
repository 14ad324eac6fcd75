"""The kinds over Field128: those of the other files with 128 after the name, and such cases with later inputs.

A VEC counts elements, of up to 32 digits. `words` and a VEC of words is a row as well, and the one way to ask for an odd
number of them; the original takes no such row, and rule 7 refuses it. `out N..` counts words, but doubles for the decoded
row of unshard128.
"""

import functools
import itertools

import aggregates
import circuits
import reports
import singles
from aggregates import TAKING, adding, aggregate, sums, unshard
from circuits import chunks, valid, valideq
from common import (FIELD128, LIMITS, P, RUST, SIGN, TOP, Inputs, Kind, Later, below, bits_of, changed, clamp, odd, sizes,
                    steps)
from multiplier import ALONE, MULTIPLIERS, ZERO, draw_later, prefixed
from reports import HUGE, INF, NAN, SMALL, draw_fixed, encode, full_vector, row, squares, wrtests
from singles import MARKS, PLAIN as ANY, TOO_FINE, TOPS, coord, decode, draw_f, over, params, tie
from test_rule import NO_WRAP, NUMBERS, STREAM

P128, HALF128, MOST_N = FIELD128.p, FIELD128.p // 2, FIELD128.most_n


def wide(*inputs, **later):
    """Seven inputs, over Field128."""
    return Inputs(*inputs, field=FIELD128, **later)


# Each of rules 1 to 6 and 19 broken by itself.
BROKEN = ({"K": 300}, {"n": 2**32}, {"d": 0}, {"f": 31}, {"c": 0}, {"e": 65537}, {"T": 257}, {"later": ZERO[0]})


def one_or_two(faulty):
    """The changes for each fault alone, and for it and the next."""
    for i, fault in enumerate(faulty):
        yield fault
        if i + 1 < len(faulty):
            yield fault | faulty[i + 1]


# Single numbers and the inputs

def limits_params():
    plain = wide(*ANY.values())
    for changes in one_or_two(BROKEN):
        yield params(*changed(plain, changes))
    for n in (0, 1, 2, 3037000498, 3037000499, 3037000500, 3037000501, 2**32 - 2, 2**32 - 1, 2**32, 2**32 + 1, 2**33 - 1,
              2**63, 2**63 + 1, TOP - 1, TOP):
        yield params(*plain._replace(n=n))
    for name, (low, high) in list(LIMITS.items())[1:]:
        for x in (low - 1, low, high, high + 1, TOP):
            if x >= 0:
                yield params(*plain._replace(**{name: x, "K": 0}))
    for n in steps(RUST, FIELD128)[-12:]:
        yield params(*plain._replace(n=n))
    yield params(*wide(MOST_N, 65536, 30, 65536, 65536, 256, 256))


def sweep_params():
    for n, j, t in itertools.product(steps(RUST, FIELD128), range(-3, 4), (1, 256)):
        yield params(*wide(max(n + j, 0), 1000, 15, 40, 32, t, 0))
    for later, n in itertools.product(MULTIPLIERS, (1, 3037000499, 3037000500, MOST_N)):
        yield params(*wide(n, 1000, 15, 40, 32, 100, 90, later=later))


# Doubles where a floor reaches 2^53, the limit over Field64, or 2^64.
FLOORS = (*MARKS, 2**64 - 4096, 2**84, 2**128, 2**990)


def limits_coord():
    for f, x in ((0, -0.25), (0, 0.75), (2, -0.3), (0, -0.0), (30, -0.0), (0, 1e300)):
        yield coord(f, bits_of(x), FIELD128)
    for sign, f, ulps in itertools.product((0, SIGN), (0, 15, 30), (-2, -1, 0, 1)):
        yield coord(f, over(2**64, f, ulps) | sign, FIELD128)
    for sign, x in itertools.product((0, SIGN), FLOORS):
        yield coord(0, bits_of(float(x)) | sign, FIELD128)
    for bits in (NAN, NAN | SIGN, INF, INF | SIGN, SMALL, SMALL | SIGN, 1, 2**52, 2**52 | SIGN):
        yield coord(30, bits, FIELD128)
    for f, bits in itertools.product(TOO_FINE[:2], (*row(1.0), INF, HUGE)):
        yield coord(f, bits, FIELD128)


def sweep_coord():
    for sign, f, ulps in itertools.product((0, SIGN), range(31), (-2, -1, 0, 1)):
        yield coord(f, over(2**64, f, ulps) | sign, FIELD128)
    for f, exponent in itertools.product((0, 1, 29, 30), range(2048)):
        for bits in ((exponent << 52) - 1, exponent << 52, (exponent << 52) + 1):
            if bits >= 0:
                yield coord(f, bits, FIELD128)
                yield coord(f, bits | SIGN, FIELD128)
    for f, k, j in itertools.product((0, 15, 30), range(66), range(-8, 9)):
        if 2 ** (k + 1) + j > 0:
            x = over((2 ** (k + 1) + j) / 2, f)
            for bits in (x - 1, x, x + 1):
                yield coord(f, bits, FIELD128)
                yield coord(f, bits | SIGN, FIELD128)


# Where an element's words, its size or p turn.
TURNS = (0, 1, 2, TOP - 1, TOP, TOP + 1, TOP + 2, 2**65, P, HALF128 - 1, HALF128, HALF128 + 1, 2**127, P128 - 2**65,
         P128 - TOP - 2, P128 - TOP - 1, P128 - TOP, P128 - TOP + 1, P128 - 2, P128 - 1, P128, P128 + 1, (2**64 - 28 << 64) + TOP,
         2**64 - 27 << 64, TOP << 64, 2**128 - 1)


def draw_decode(rng):
    """Most of them can be decoded, either way round."""
    way = below(rng, 8)
    if way == 0:
        y = clamp(rng.choice(TURNS) + below(rng, 5) - 2, 0, 2**128 - 1)
    elif way == 1:
        y = rng.getrandbits(1 + below(rng, 128))
    elif way < 4:
        y = tie(rng.randrange(54, 65), rng.choice((*TOPS, 2**52 + rng.getrandbits(52))), below(rng, 3) - 1)
    else:
        y = rng.getrandbits(1 + below(rng, 64))
    return decode(draw_f(rng), (P128 - y) % P128 if rng.getrandbits(1) and y < P128 else y, FIELD128)


def limits_decode():
    for i, y in enumerate(TURNS):
        yield decode(30 * (i % 2), y, FIELD128)
    for length, off in itertools.product((54, 55, 63, 64), (-1, 0, 1)):
        y = tie(length, TOPS[length % 4], off)
        yield decode(length % 31, y, FIELD128)
        yield decode(length % 31, P128 - y, FIELD128)
    for f, y in itertools.product(TOO_FINE[:1], (1, P128, TOP + 1)):
        yield decode(f, y, FIELD128)


def sweep_decode():
    for f, length, top, off in itertools.product(range(32), range(54, 65), TOPS, range(-2, 3)):
        y = tie(length, top, off)
        yield decode(f, y, FIELD128)
        yield decode(f, P128 - y, FIELD128)
    for f, k, j in itertools.product((0, 13, 30), range(129), range(-4, 5)):
        y = clamp(2**k + j, 0, 2**128 - 1)
        yield decode(f, y, FIELD128)
        yield decode(f, (P128 - y) % P128, FIELD128)


# Encoding and the tests

PLAIN = wide(65536, 3, 0, 2, 2, 2, 1)

# n, and numbers of which v is so much and the true squared norm p more.
WRAPPED = tuple((n, squares(P128 + v)) for n, v in ((1, 0), (1, 1), (5, 25), (5, 26), (65536, 2**32 - 1), (MOST_N, MOST_N**2),
                                                    (MOST_N, MOST_N**2 + 1)))


def of_wrapped(later=None):
    """A v that wraps: with tests that pass the large numbers over, and with all of them."""
    for n, numbers in WRAPPED:
        inputs = wide(n, len(numbers), 0, 3, 2, 1, 1, later=later)
        passing = b"".join(bytes([sum((1 if y > 2**16 else 3) << 2 * i for i, y in enumerate(numbers[at:at + 4]))])
                           for at in range(0, len(numbers), 4))
        for stream in (passing, b"\xff" * len(passing)):
            yield encode(inputs, row(*numbers), stream)


def at_bounds():
    """v at B and beside it; floors at the limit of rule 17; a result at b and beside it."""
    for n, numbers in ((1, (1,)), (5, (3, 4)), (3037000500, (3037000500,)), (MOST_N, (-MOST_N,)), (MOST_N, (0, MOST_N)),
                       (MOST_N, (65535, MOST_N - 1))):
        for first, more in ((0, 0), (1, 0), (-1, 0), (0, 1)):
            inputs = wide(n, len(numbers) + 1, 0, 2, 1, 2, 1)
            yield encode(inputs, row(numbers[0] + first, *numbers[1:], more), draw_fixed(sizes(inputs).stream))
    for f, sign, ulps in itertools.product((0, 30), (0, SIGN), (-1, 0)):
        for d, at in ((1, 0), (2, 1)):
            gradient = [*row(1) * at, over(2**64, f, ulps) | sign]
            yield encode(wide(MOST_N, d, f, 1, 1, 1, 1), gradient, b"\x05")
    wide_no_wrap = NO_WRAP._replace(field=FIELD128)
    for first in (-2, -1, 0, 1):
        yield encode(wide_no_wrap, row(NUMBERS[0] + first, *NUMBERS[1:]), STREAM)


def faulty_encodings():
    size = sizes(PLAIN)
    faulty = (*BROKEN, {"stream": b"\x3f"}, {"out": (size.measurement + 0.5, 2)}, {"out": (size.measurement, 1.5)},
              {"bad": NAN}, {"more": 1}, {"third": 65537}, {"huge": HUGE})
    return reports.faulty_encodings(PLAIN, faulty, together=one_or_two)


def limits_encode():
    yield from at_bounds()
    yield from of_wrapped()
    yield from faulty_encodings()
    size = sizes(PLAIN)
    for out in (0, 0.5), (0, -0.5), (0, 1), (0, -1), (0.5, 0), (-0.5, 0), (1, 0), (-1, 0), (0, 0):
        yield encode(PLAIN, row(1, 2, 3), b"\x1b\x3f", (size.measurement + out[0], PLAIN.T + out[1]))
    for stream in (b"\x1b", b"\x1b" * 3):
        yield encode(PLAIN, row(1, 2, 3), stream)
    for d, byte in itertools.product((1, 2, 4, 5, 9), (0x00, 0x1b)):
        inputs = wide(40, d, 1, 3, 2, 2, d % 3)
        yield encode(inputs, row(*((i + 1) * (-1) ** i / 2 for i in range(d))), bytes([byte]) * sizes(inputs).stream)
    for pair in itertools.product((NAN, SMALL, over(2**64, 0)), repeat=2):
        yield encode(PLAIN, [*row(1), *pair], b"\x1b\x3f")


def sweep_encode():
    for d, byte in itertools.product(range(1, 41), range(0, 256, 17)):
        inputs = wide(100, d, 3, 5, 4, 3, 2)
        yield encode(inputs, row(*((i * 37 % 19 - 9) / 8 for i in range(d))), bytes([byte]) * sizes(inputs).stream)
    for n, by in itertools.product(steps(RUST, FIELD128), (-1, 0, 1)):
        yield encode(wide(n, 2, 0, 3, 1, 2, 1), row(max(n + by, 0), 0), b"\x03\x04")
    for byte in range(256):
        yield encode(wide(100, 4, 0, 3, 1, 1, 1), row(1, 10, -20, 50), bytes([byte]))
    for d, t in ((4096, 256), (4093, 255), (8192, 1)):
        inputs = wide(MOST_N, d, 20, 100, 100, t, t - 1)
        yield encode(inputs, row(*((i * 37 % 101 - 50) / 7 for i in range(d))), draw_fixed(sizes(inputs).stream))


def limits_wrtests():
    for d, byte in itertools.product((1, 2, 4, 5, 9), (0x00, 0xff, 0x1b)):
        inputs = wide(1, d, 0, 1, 1, 2, 0)
        yield wrtests(inputs, [(P128 - 10**4 * 7**i) if i % 2 else 2**100 + i for i in range(d)],
                      bytes([byte]) * sizes(inputs).stream)
    values = [1, P128 - 1, 2**127]
    faulty = (*BROKEN, {"gradient": odd(values, 1)}, {"stream": b"\x1b"}, {"out": (2.5,)}, {"gradient": [1, P128, TOP]})
    for changes in one_or_two(faulty):
        yield wrtests(changed(PLAIN, changes), changes.get("gradient", values), changes.get("stream", b"\x3f\x1b"),
                      changes.get("out", ()))
    for gradient in (odd(values, -1), odd(values, 1), values[:2], values + [0], []):
        yield wrtests(PLAIN, gradient, b"\x1b\x3f")
    for results in (0, 0.5, 1, 1.5, 2, 2.5, 3, 4):
        yield wrtests(PLAIN, values, b"\x1b\x3f", (results,))
    for at, x in enumerate(TURNS):
        yield wrtests(PLAIN._replace(d=5), [x if i == at % 5 else 2**64 + i for i in range(5)], b"\x1b\x03\x00\xff")
    for byte in (0x00, 0xff):   # sums that wrap
        yield wrtests(PLAIN._replace(d=5), [P128 - 1] * 5, bytes([byte]) * 4)
        yield wrtests(PLAIN._replace(d=5), [HALF128] * 5, bytes([byte]) * 4)


def long_row(length):
    return [(i + 1) * 0x9e3779b97f4a7c15f39cc0605cedc835 % P128 for i in range(length)]


def sweep_wrtests():
    for byte, d in itertools.product(range(256), (4, 7)):
        yield wrtests(wide(1, d, 0, 1, 1, 2, 0), [1 << 16 * i for i in range(d)], bytes([byte, 255 - byte] * -(-d // 4)))
    for d in (*range(1, 100), 4095, 4096, 8192):
        inputs = wide(1, d, 0, 1, 1, 3, 0)
        yield wrtests(inputs, long_row(d), draw_fixed(sizes(inputs).stream))
    inputs = wide(1, 1021, 0, 1, 1, 256, 0)
    yield wrtests(inputs, long_row(1021), draw_fixed(sizes(inputs).stream))


# The circuits

SMALLEST = wide(5, 3, 0, 4, 2, 2, 1)
REPORT = full_vector(SMALLEST, [3, -4, 0], b"\x1b\x3f")
RANDOM = [2**64 + 2, P128 - 3, 2**127 + 5]


def circuit_cases():
    """Inputs, num_shares and full vectors for both circuits."""
    size = sizes(SMALLEST)
    for shares in (1, 2, 3, 128, 255, 0, 256, TOP):
        yield SMALLEST, shares, REPORT
    for i in (0, 2, 3, 8, 15, size.measurement - 1, size.measurement, size.full - 1):
        for x in (P128 - 1, TOP + 1, P128):
            yield SMALLEST, 1 + i % 2, REPORT[:i] + [x] + REPORT[i + 1:]
    for c, e in itertools.zip_longest(chunks(size.checked), chunks(SMALLEST.d), fillvalue=1):
        yield SMALLEST._replace(c=c, e=e), 3, long_row(size.full)
    for full in (odd(REPORT, -1), odd(REPORT, 1), REPORT[:-1], REPORT + [0], []):
        yield SMALLEST, 1, full
    for n in (1, 65536, 3037000500, MOST_N, 2**32):
        inputs = wide(n, 1, 0, 9, 1, 1, 1)
        yield inputs, 1, full_vector(inputs, [n], b"\x03")
        yield inputs, 255, [P128 - 1] * sizes(inputs).full


def faulty_circuits():
    over_p = REPORT[:1] + [P128, 2**128 - 1] + REPORT[3:]
    faulty = (*BROKEN, {"full": odd(REPORT, 1)}, {"joint": odd(RANDOM, -1)}, {"shares": 256}, {"full": over_p})
    for changes in one_or_two(faulty):
        yield (changed(SMALLEST, changes), changes.get("shares", 1), changes.get("full", REPORT)), changes.get("joint", RANDOM)


def limits_valid():
    for parts in circuit_cases():
        yield valid(*parts, RANDOM)
    for parts, joint_rand in faulty_circuits():
        yield valid(*parts, joint_rand)
    other = [(x + 1) % P128 for x in REPORT]
    for joint_rand in itertools.product((0, P128 - 1), repeat=3):
        yield valid(SMALLEST, 2, other, joint_rand)
    for joint_rand in (odd(RANDOM, -1), odd(RANDOM, 1), RANDOM[:2], RANDOM + [1], [], [P128, 2, 3], [1, 2, 2**128 - 1]):
        yield valid(SMALLEST, 1, REPORT, joint_rand)


def limits_valideq():
    for parts in circuit_cases():
        yield valideq(*parts)
    for parts, joint_rand in faulty_circuits():
        if joint_rand is RANDOM:
            yield valideq(*parts)


def sweep_circuit(ask):
    for shares in range(258):
        yield ask(SMALLEST, shares, [(x + 1) % P128 for x in REPORT])
    length = sizes(SMALLEST._replace(T=5)).checked
    for c in range(1, length + 2):
        inputs = SMALLEST._replace(T=5, c=c)
        yield ask(inputs, 2, long_row(sizes(inputs).full))
    for d, e in itertools.product(range(1, 13), range(1, 14)):
        inputs = SMALLEST._replace(d=d, e=e)
        yield ask(inputs, 2, long_row(sizes(inputs).full))
    for n in steps(RUST, FIELD128):
        inputs = SMALLEST._replace(n=n)
        yield ask(inputs, 1, full_vector(inputs, [n, 0, 0], b"\x1b\x3f"))
    for c, e in ((1, 1), (97, 64), (65536, 65536)):
        inputs = wide(MOST_N, 4096, 0, c, e, 64, 63)
        yield ask(inputs, 1, full_vector(inputs, [i % 201 - 100 for i in range(4096)], draw_fixed(sizes(inputs).stream)))
        yield ask(inputs, 2, long_row(sizes(inputs).full))


# Aggregates

BATCH = wide(5, 3, 2, 2, 2, 2, 1)
ROW = [1, P128 - 1, 2**127]

# Beside each other in words, in value and in sign.
ADDENDS = (0, 1, TOP, HALF128 + 1, P128 - 1, P128)


def limits_adding(kind):
    over_p = [5, P128, 2**128 - 1]
    faulty = (*BROKEN, {"agg": odd(ROW, -1)}, {"share": odd(ROW, 1)}, {"agg": over_p})
    for changes in one_or_two(faulty):
        yield adding(kind, changed(BATCH, changes), changes.get("agg", ROW), changes.get("share", ROW))
    for both in ((ROW, over_p), (over_p, over_p), (ROW, odd(ROW, -1)), (odd(ROW, 1), ROW), (ROW[:2], ROW), (ROW, ROW[:2]),
                 (ROW + [0], ROW), (ROW, ROW + [0]), ([], ROW), (ROW, [])):
        yield adding(kind, BATCH, *both)
    for a, b in itertools.product(ADDENDS, repeat=2):
        yield adding(kind, BATCH._replace(d=1), [a], [b])


def few_adding(kind):
    """For the second name of the same adding."""
    return itertools.islice(limits_adding(kind), 0, None, 6)


def limits_aggregate():
    faulty = (*BROKEN, {"out": (2.5,)}, {"row": odd(ROW, 1)}, {"row": [1, 2**128 - 1, P128]})
    for changes in one_or_two(faulty):
        yield aggregate(changed(BATCH, changes), [ROW, changes.get("row", ROW)], changes.get("out", ()))
    for many, d in itertools.product(range(4), (1, 4)):
        yield aggregate(BATCH._replace(d=d), [[P128 - 1 - i for i in range(d)]] * many)
    for length in (0, 0.5, 1.5, 2, 2.5, 3, 3.5, 4, 6):
        yield aggregate(BATCH, [], (length,))
    for other in (odd(ROW, -1), ROW[:2], ROW + [0]):
        yield aggregate(BATCH, [ROW, other])
    yield aggregate(BATCH._replace(d=65536), [[1]], (1,))


def limits_unshard():
    faulty = (*BROKEN, {"left": odd(ROW, -1)}, {"right": odd(ROW, 1)}, {"out": (4,)}, {"left": [1, P128, 2**128 - 1]},
              {"right": [0, TOP + 2, 0]})
    for changes in one_or_two(faulty):
        yield unshard(changed(BATCH, changes), changes.get("left", ROW), changes.get("right", [1, TOP, P128 - 2**127]),
                      changes.get("out", ()))
    for i, total in enumerate(sums(FIELD128)):
        f, left = ((0, 0), (30, HALF128))[i % 2]
        yield unshard(BATCH._replace(d=1, f=f), [left], [(total - left) % P128])
    for at in range(3):     # rule 23 at each coordinate, at the first of two, and after 12
        large = [TOP + 1 if i == at else TOP for i in range(3)]
        yield unshard(BATCH, large, [0] * 3)
        yield unshard(BATCH, [P128 - x for x in large], [0] * 3)
        yield unshard(BATCH, large[:2] + [HALF128], [0] * 3)
        yield unshard(BATCH, large, [0, 0, P128])
    for lengths in ((2, 3, 3), (4, 3, 3), (3, 2, 3), (3, 4, 3), (3, 3, 2), (3, 3, 4), (3, 3, 6), (3, 3, 0), (3, 3, 3)):
        yield unshard(BATCH, [1] * lengths[0], [2] * lengths[1], lengths[2:])
    for other in (odd(ROW, -1), odd(ROW, 1), []):
        yield unshard(BATCH, ROW, other)


def sweep_adding(kind):
    def cases():
        yield from limits_adding(kind)
        for a, b in itertools.product(TURNS, repeat=2):
            yield adding(kind, BATCH._replace(d=1), [a], [b])
        for d in (4095, 4096, 8192):
            yield adding(kind, BATCH._replace(d=d), long_row(d), long_row(d)[::-1])
    return cases


def sweep_unshard():
    for f, total, left in itertools.product(range(31), sums(FIELD128), (0, 1, TOP, HALF128, P128 - 1)):
        yield unshard(BATCH._replace(d=1, f=f), [left], [(total - left) % P128])
    for f, length, top, off in itertools.product((0, 7, 30), range(54, 65), TOPS, (-1, 0, 1)):
        for total in (tie(length, top, off), -tie(length, top, off)):
            yield unshard(BATCH._replace(d=2, f=f), [HALF128, P128 - 1], [(total - HALF128) % P128, (total + 1) % P128])
    for d in (4095, 4096, 8192):
        left = long_row(d)
        yield unshard(BATCH._replace(d=d), left, [(i * 0x9e3779b97f4a7c15 % 2**64 - x) % P128 for i, x in enumerate(left)])


# Later inputs

OF_FIELD64 = {**singles.KINDS, **reports.KINDS, **circuits.KINDS, **aggregates.KINDS}
DRAW = {name: functools.partial(kind.draw, field=FIELD128) for name, kind in OF_FIELD64.items() if name != "decode"}
DRAW["decode"] = draw_decode


def draw_with(rng):
    later = draw_later(rng)._replace(rule=rng.getrandbits(1), switch=rng.getrandbits(1))
    kind = "encode" if rng.getrandbits(1) else rng.choice(list(DRAW))
    return prefixed(later, DRAW[kind](rng)) if kind in ALONE else DRAW[kind](rng, later=later)


def limits_with():
    for later in (Later(rule=1), Later(switch=1)):
        yield from of_wrapped(later)
    for k in range(4):
        yield encode(NO_WRAP._replace(K=k, later=Later(rule=1), field=FIELD128), row(*NUMBERS), STREAM)
    for later, n in itertools.product((*MULTIPLIERS[:4], ZERO[0]), (1, MOST_N)):
        inputs = wide(n, 2, 0, 9, 1, 1, 1, later=later)
        report = full_vector(inputs, [-1, 0], b"\x03") if later not in ZERO else REPORT
        yield params(*inputs)
        yield encode(inputs, row(-1, 0), b"\x03")
        yield valid(inputs, 1, report, RANDOM)
        yield valideq(inputs, 2, report)
        yield unshard(inputs, [1, TOP], [P128 - 2, 1])
    for later in (Later(2, 3, 1, 1), ZERO[1]):
        yield prefixed(later, coord(0, *row(1.5), FIELD128))
        yield prefixed(later, decode(1, P128 - 1, FIELD128))
        yield wrtests(PLAIN._replace(later=later), [1, P128 - 1, 5], b"\x1b\x3f")
        yield aggregate(BATCH._replace(later=later), [ROW, ROW])
        yield from (adding(kind, BATCH._replace(later=later), ROW, ROW) for kind in ("merge", "accumulate", *TAKING))


def kind(name, limits, sweep=lambda: (), worked_out=False):
    return Kind(DRAW[name], limits, sweep, drawn=10, malformed=5, worked_out=worked_out)


KINDS = {
    "params128": kind("params", limits_params, sweep_params),
    "coord128": kind("coord", limits_coord, sweep_coord),
    "decode128": kind("decode", limits_decode, sweep_decode),
    "encode128": kind("encode", limits_encode, sweep_encode),
    "wrtests128": kind("wrtests", limits_wrtests, sweep_wrtests),
    "valid128": kind("valid", limits_valid, lambda: sweep_circuit(lambda *parts: valid(*parts, RANDOM))),
    "valideq128": kind("valideq", limits_valideq, lambda: sweep_circuit(valideq)),
    "merge128": kind("merge", functools.partial(few_adding, "merge"), sweep_adding("merge")),
    "accumulate128": kind("accumulate", functools.partial(limits_adding, "accumulate"), sweep_adding("accumulate")),
    "subtract128": kind("subtract", functools.partial(limits_adding, "subtract"), sweep_adding("subtract"), True),
    "unmerge128": kind("unmerge", functools.partial(few_adding, "unmerge"), sweep_adding("unmerge"), True),
    "aggregate128": kind("aggregate", limits_aggregate),
    "unshard128": kind("unshard", limits_unshard, sweep_unshard),
    "later128": Kind(draw_with, limits_with, drawn=30, malformed=8),
}
