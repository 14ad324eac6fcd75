"""Cases of one number or of the seven inputs: params, coord, decode."""

import itertools
import math

from common import (EXPONENT, FIELD64, HALF, INPUTS, LIMITS, P, SIGN, STEPS, TOP, Case, Inputs, Kind, allowed, below, bits_of,
                    broken, case_of, clamp, coordinate_rule, draw_inputs, first, first_rule, near, refused, rule_12, rule_23,
                    sizes, within)

# params

def circuit_lengths(arity, calls, joint_rand):
    """Of a circuit whose one gadget, of degree 2, is called so often."""
    points = 1 << calls.bit_length()
    return (f"gadget_calls {calls} proof_len {arity + 2 * (points - 1) + 1} verifier_len {arity + 2} "
            f"joint_rand_len {joint_rand} prove_rand_len {arity} query_rand_len 1")


def record(inputs):
    size = sizes(inputs)
    main = circuit_lengths(2 * inputs.c, -(-size.checked // inputs.c) - (-inputs.T // inputs.c), 3)
    norm = circuit_lengths(inputs.e, -(-inputs.d // inputs.e), 0)
    return (f"sq_norm_bound {size.bound:x} sq_norm_bits {size.bits} wr_test_bound {size.test_bound:x} "
            f"wr_test_bits {size.test_bits} bit_checked_len {size.checked} encoded_input_len {size.measurement} "
            f"input_len {size.full} main {main} eq {norm}")


def params(*inputs):
    inputs = Inputs(*inputs)
    return case_of("params", inputs, "", refused(first_rule(inputs)), lambda: record(inputs))


def draw_params(rng, later=None, field=FIELD64):
    return params(*draw_inputs(rng, rng.sample(INPUTS, rng.choice((0, 0, 0, 0, 0, 1, 1, 2, 3))), later, field))


PLAIN = {"n": 65536, "d": 1000, "f": 15, "c": 40, "e": 32, "T": 100, "K": 90}
FAULT = {"n": 0, "d": 0, "f": 31, "c": 0, "e": 65537, "T": 257, "K": 300}


def plain_but(**changes):
    return params(*(PLAIN | changes).values())


def limits_params():
    for name, (low, high) in LIMITS.items():
        for x in (low - 1, low, low + 1, high - 1, high, high + 1, PLAIN[name] + 2**32):
            if x >= 0:
                yield plain_but(**{name: x, "K": 0})
    for name in INPUTS:
        for x in (2**31, 2**32 - 1, 2**32, 2**53, 2**63, TOP):
            yield plain_but(**{name: x})
    for k in (0, 1, 99, 100, 101):
        yield plain_but(K=k)
    lowest, highest = zip(*LIMITS.values())
    for edge in (lowest, highest):
        for k in (0, edge[5], edge[5] + 1):
            yield params(*edge, k)
    for many in (2, 3, 7):
        for names in itertools.combinations(INPUTS, many):
            yield plain_but(**{name: FAULT[name] for name in names})
            if many == 2:
                yield plain_but(**{name: TOP for name in names})
    for n in STEPS:
        yield plain_but(n=n)
    for k in range(17):
        yield plain_but(d=2**k, e=2**k - 1 or 1)
        yield plain_but(d=2**k, e=min(2**k + 1, 65536))
    length = sizes(Inputs(**PLAIN)).checked
    for x in (length, PLAIN["T"]):
        for parts in (1, 2, 3, 4, 7, 8, 15, 16):
            for c in (x // parts - 1, x // parts, x // parts + 1):
                yield plain_but(c=c)


def sweep_params():
    for n, j, t in itertools.product(STEPS, range(-3, 4), (1, 2, 255, 256)):
        yield plain_but(n=max(n + j, 0), T=t, K=0)
    for t in range(258):
        for k in (0, t - 1, t, t + 1):
            for c in (1, 2, 3, 64, 65536):
                yield plain_but(n=3037000499, T=t, K=max(k, 0), c=c)
    around = sorted({clamp(2**k + j, 0, 65537) for k in range(17) for j in (-1, 0, 1)})
    for d, e in itertools.product(around, around):
        yield plain_but(d=d, e=e)
    for n in (1, 1000, 3037000499):
        for c in range(1, sizes(Inputs(**PLAIN | {"n": n, "T": 256})).checked + 2):
            yield plain_but(n=n, T=256, c=c)


# coord

def coord(f, bits, field=FIELD64):
    rule = coordinate_rule(bits, f, field) if within("f", f) else 4
    kind = "coord" + field.name
    return Case(kind, f"{kind} {f} {bits:016x}", refused(rule))


def over(x, f, ulps=0):
    """x / 2^f, some steps up or down, for an x above 0; an f that is not allowed counts modulo 32."""
    return clamp(bits_of(float(x)) - ((f & 31) << 52) + ulps, 0, SIGN - 1)


def draw_f(rng):
    return broken(rng, "f") if below(rng, 16) == 0 else allowed(rng, "f")


TOO_FINE = (31, 32, 33, 63, 64, 127, 128, 2**31, 2**32, 2**32 + 15, 2**53, 2**63, TOP)

# Numbers that matter after scaling: where the floor, the digits of a double, the field or the limit of a floor turn.
MARKS = (0.5, 1, 2, 3, 2**31, 2**32, 2**52, 2**53, 2**62, HALF, 2**63, P, 2**64 - 2048, 2**64, 2**65)


def draw_coord(rng, field=FIELD64):
    f = draw_f(rng)
    way = below(rng, 8)
    if way == 0:    # the edge of a binade
        bits = clamp((below(rng, 2049) << 52) + below(rng, 3) - 1, 0, SIGN - 1)
    elif way == 1:  # a whole number or a half after scaling, or next to one
        bits = over(max(rng.getrandbits(1 + below(rng, 65)), 1) / 2, f, below(rng, 3) - 1)
    elif way == 2:  # near a number that matters, after scaling
        bits = over(rng.choice(MARKS), f, below(rng, 7) - 3)
    elif way == 3:  # large enough for the product to overflow, or nearly
        bits = (rng.randrange(2014, 2047) << 52) + rng.getrandbits(52)
    elif way == 4:  # zero, subnormal, infinite, NaN
        bits = rng.choice((0, EXPONENT)) + rng.choice((0, 1, rng.getrandbits(52), 2**51, 2**52 - 1))
    elif way == 5:
        bits = rng.getrandbits(63)
    else:           # as a gradient has them
        x = abs(rng.gauss(0, 1)) * 10 ** rng.randrange(-6, 7)
        bits = bits_of(round(x, 2) if way == 6 else x)
    return coord(f, bits | rng.getrandbits(1) << 63, field)


def limits_coord():
    for f, x in ((0, -0.25), (0, 0.75), (2, 0.75), (2, -0.3), (0, -0.0), (30, -0.0), (0, 0.0), (0, 1e300)):
        yield coord(f, bits_of(x))
    for sign, f in itertools.product((0, SIGN), (0, 15, 30)):
        for x in MARKS:
            for ulps in (-1, 0, 1):
                yield coord(f, over(x, f, ulps) | sign)
    for sign, f, ulps in itertools.product((0, SIGN), range(31), (-1, 0, 1)):
        yield coord(f, over(HALF, f, ulps) | sign)
    for sign, f in itertools.product((0, SIGN), (0, 30)):
        for bits in (1, 2**51, 2**52 - 1, 2**52, 2**52 + 1, EXPONENT - 1, EXPONENT, EXPONENT + 1, 0xfff << 51,
                     SIGN - 1, 2016 << 52, (2017 << 52) - 1, 2017 << 52):
            yield coord(f, bits | sign)
    for f in TOO_FINE:
        yield coord(f, bits_of(1.0))
        yield coord(f, bits_of(math.inf))
    yield from (Case("coord", f"coord 0 {word}", refused(0)) for word in ("0x3ff8000000000000", "0xBFF8000000000000", "0x0"))


def sweep_coord():
    for f, exponent in itertools.product(range(32), range(2048)):
        for bits in ((exponent << 52) - 1, exponent << 52, (exponent << 52) + 1):
            if bits >= 0:
                yield coord(f, bits)
                yield coord(f, bits | SIGN)
    for f, k in itertools.product(range(31), range(66)):
        for j in range(-8, 9):
            if 2 ** (k + 1) + j > 0:
                x = over((2 ** (k + 1) + j) / 2, f)
                for bits in (x - 1, x, x + 1):
                    yield coord(f, bits)
                    yield coord(f, bits | SIGN)


# decode

def decode(f, y, field=FIELD64):
    kind = "decode" + field.name
    want = first(refused(0 if within("f", f) else 4), rule_12([y], field=field), rule_23([y], field))
    return Case(kind, f"{kind} {f} {y:x}", want)


def tie(length, top, off=0):
    """A number of `length` binary digits, 54 at least: the 53 of `top`, then half a unit and a little more or less."""
    return (top << length - 53) + (1 << length - 54) + off


TOPS = (2**52, 2**52 + 1, 2**53 - 2, 2**53 - 1)


def draw_decode(rng):
    f = draw_f(rng)
    way = below(rng, 8)
    if way == 0:
        y = near(rng, rng.choice((0, HALF, P, TOP, 2**32, 2**53, 2**54)))
    elif way == 1:
        top = rng.choice(TOPS) if rng.getrandbits(1) else 2**52 + rng.getrandbits(52)
        y = tie(rng.randrange(54, 65), top, below(rng, 3) - 1)
    elif way == 2:
        y = near(rng, 1 << below(rng, 65))
    elif way == 3:
        y = rng.getrandbits(rng.randrange(1, 54))
    elif way == 4:
        y = rng.randint(P, TOP)
    elif way == 5:
        y = rng.getrandbits(64)
    else:
        y = rng.randrange(P)
    return decode(f, (P - y) % P if rng.getrandbits(1) and y < P else y)


def limits_decode():
    for f, y in ((2, P - 1), (0, HALF), (0, HALF + 1), (0, 2**53 + 1), (0, 2**53 + 3)):
        yield decode(f, y)
    for f in (0, 1, 15, 30):
        for y in (0, 1, 2, 3, HALF - 1, HALF, HALF + 1, HALF + 2, P - 3, P - 2, P - 1, P, P + 1, 2**63 - 1, 2**63, TOP):
            yield decode(f, y)
    for j in range(-2, 6):
        yield decode(0, 2**53 + j)
        yield decode(30, P - 2**53 - j)
    for length in range(54, 64):
        for top in TOPS:
            for off in (-1, 0, 1):
                yield decode(length % 31, tie(length, top, off))
            yield decode(length % 31, P - tie(length, top))
    for f in TOO_FINE:
        yield decode(f, 1)
        yield decode(f, P)


def sweep_decode():
    for f in range(32):
        for length, top in itertools.product(range(54, 65), TOPS):
            for off in range(-3, 4):
                y = clamp(tie(length, top, off), 0, TOP)
                yield decode(f, y)
                yield decode(f, (P - y) % P)
        for k, j in itertools.product(range(65), range(-4, 5)):
            y = clamp(2**k + j, 0, TOP)
            yield decode(f, y)
            yield decode(f, (P - y) % P)


KINDS = {
    "params": Kind(draw_params, limits_params, sweep_params),
    "coord": Kind(draw_coord, limits_coord, sweep_coord),
    "decode": Kind(draw_decode, limits_decode, sweep_decode),
}
