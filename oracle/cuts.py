"""Cases of cutting a report in two, and of the sampler alone: cut, sample.

Shares, parts and seeds are worked out here from docs/PINE.md alone, with turboshake.py: for the rules that depend on them,
for the streams to ask about, and for what is given with later inputs. What any other accepted case gives comes from the
original. It draws on where rule 18 refuses.
"""

import functools
import itertools

from aggregates import draw_out
from common import (BROKEN, INPUTS, OK, P, RUST, TOP, Inputs, Kind, Later, below, case_of, changed, combined, draw_small,
                    faults, first, first_rule, floor_of, lent, octets, patterns, refused, resized, rule_7, sizes, vec, within)
from reports import FAULTS, PLAIN, draw_encode, faulty_encodings, full_vector, gradient_rules, row, tests_rule
from seeds import SEED_LEN, stream_of
from turboshake import dst, xof_turbo_shake128

USAGE_MEAS_SHARE = 1
USAGE_VF_JOINT_RAND_SEED, USAGE_VF_JOINT_RAND_PART = 6, 7
USAGE_WR_JOINT_RAND_SEED, USAGE_WR_JOINT_RAND_PART = 9, 10

NONCE_LEN, FIVE_LEN, GIVEN_LEN = 16, 5 * SEED_LEN, 2 * SEED_LEN
MORE_DRAWS = 64


# The sampler

def draws(inputs):
    return sizes(inputs).measurement + MORE_DRAWS


def sampled(stream, length):
    """The first values below p, or fewer."""
    values = (int.from_bytes(stream[i:i + 8], "little") for i in range(0, len(stream), 8))
    return list(itertools.islice((x for x in values if x < P), length))


def sample(inputs, stream, out=()):
    length = sizes(inputs).measurement
    want = first(refused(first_rule(inputs)), rule_7((len(stream), 8 * draws(inputs)), (out[0] if out else length, length)))
    if want == OK and len(sampled(stream, length)) < length:
        want = refused(18)
    return case_of("sample", inputs, f" {octets(stream)}{lent(out)}", want, lambda: vec(sampled(stream, length)))


# The report

@functools.lru_cache
def helper_share(seed, length):
    """As far as the drawing limit."""
    stream = xof_turbo_shake128(seed, dst(USAGE_MEAS_SHARE), b"\x01", 8 * length)
    found = sampled(stream, length)
    if len(found) < length:
        stream = xof_turbo_shake128(seed, dst(USAGE_MEAS_SHARE), b"\x01", 8 * (length + MORE_DRAWS))
        found = sampled(stream, length)
    return found


def joint_rand_part(agg_id, blind, nonce, share, usage):
    words = b"".join(x.to_bytes(8, "little") for x in share)
    return xof_turbo_shake128(blind, dst(usage), bytes([agg_id]) + nonce + words, SEED_LEN)


def joint_rand_seed(parts, usage):
    return xof_turbo_shake128(bytes(SEED_LEN), dst(usage), b"".join(parts), SEED_LEN)


def difference(row, helper):
    return [(x - y) % P for x, y in zip(row, helper)]


def seeds_of(five):
    return [five[i:i + SEED_LEN] for i in range(0, FIVE_LEN, SEED_LEN)]


def wr_seed_of(inputs, numbers, nonce, five):
    meas_share_seed_1, wr_blind_1, _, wr_blind_0, _ = seeds_of(five)
    first_part = full_vector(inputs, numbers, b"")
    helper = helper_share(meas_share_seed_1, sizes(inputs).measurement)[:len(first_part)]
    return joint_rand_seed([joint_rand_part(0, wr_blind_0, nonce, difference(first_part, helper), USAGE_WR_JOINT_RAND_PART),
                            joint_rand_part(1, wr_blind_1, nonce, helper, USAGE_WR_JOINT_RAND_PART)], USAGE_WR_JOINT_RAND_SEED)


def cut_in_two(inputs, gradient, nonce, five):
    """Both shares and the two seeds, joined."""
    size, numbers = sizes(inputs), [floor_of(bits, inputs.f) for bits in gradient]
    meas_share_seed_1, _, vf_blind_1, _, vf_blind_0 = seeds_of(five)
    wr_seed = wr_seed_of(inputs, numbers, nonce, five)
    whole = full_vector(inputs, numbers, stream_of(wr_seed, size.stream))[:size.measurement]
    helper = helper_share(meas_share_seed_1, size.measurement)
    leader = difference(whole, helper)
    parts = [joint_rand_part(0, vf_blind_0, nonce, leader, USAGE_VF_JOINT_RAND_PART),
             joint_rand_part(1, vf_blind_1, nonce, helper, USAGE_VF_JOINT_RAND_PART)]
    return leader, helper, wr_seed + joint_rand_seed(parts, USAGE_VF_JOINT_RAND_SEED)


def lengths_lent(inputs):
    size = sizes(inputs)
    return size.measurement, size.measurement, GIVEN_LEN


def cutting_rules(inputs, gradient, nonce, five, out):
    lengths = lengths_lent(inputs)
    want = first(refused(first_rule(inputs)),
                 rule_7((len(gradient), None), (len(nonce), NONCE_LEN), (len(five), FIVE_LEN), *zip(out or lengths, lengths)))
    if want == OK:
        want = gradient_rules(inputs, gradient)
    if want != OK:
        return want
    if len(helper_share(five[:SEED_LEN], lengths[0])) < lengths[0]:
        return refused(18)
    numbers, size = [floor_of(bits, inputs.f) for bits in gradient], sizes(inputs)
    if sum(map(abs, numbers)) < size.test_bound:    # no test can miss
        return OK
    return tests_rule(inputs, gradient, stream_of(wr_seed_of(inputs, numbers, nonce, five), size.stream))


def cut(inputs, gradient, nonce, five, out=()):
    def rules(inputs):
        return cutting_rules(inputs, gradient, nonce, five, out)

    def given():
        leader, helper, both = cut_in_two(inputs, gradient, nonce, five)
        return f"{vec(leader)} {vec(helper)} {octets(both)}"

    by_second_rule = inputs.setting.rule and rules(inputs._replace(later=None)) != OK   # which the original has not
    return case_of("cut", inputs, f" {patterns(gradient)} {octets(nonce)} {octets(five)}{lent(out)}", rules(inputs), given,
                   by_second_rule)


# Drawn

def of_one_row(inputs, gradient, both, out=()):
    """The nonce and the five seeds joined. Where this row has another length, one of the two has."""
    nonce = NONCE_LEN if len(both) % 2 else max(len(both) - FIVE_LEN, 0)
    return cut(inputs, gradient, both[:nonce], both[nonce:], out)


draw_cut = functools.partial(draw_encode, make=of_one_row, length=NONCE_LEN + FIVE_LEN, rows=lengths_lent)


def value(rng):
    return rng.choice((0, 1, P - 1, P, P + 1, TOP, rng.getrandbits(64), rng.getrandbits(64))).to_bytes(8, "little")


def draw_values(rng, length):
    """A stream of length + 64 values. About as many are skipped as may be, or few, or any."""
    stream = [rng.randrange(P).to_bytes(8, "little") for _ in range(length + MORE_DRAWS)]
    way = below(rng, 4)
    if way == 0:
        stream = [value(rng) for _ in stream]
    skipped = MORE_DRAWS - 1 + below(rng, 3) if way == 1 else below(rng, 4)
    for i in rng.sample(range(len(stream)), min(skipped, len(stream))):
        stream[i] = rng.choice((P, P, P + 1, TOP, rng.randint(P, TOP))).to_bytes(8, "little")
    return b"".join(stream)


def draw_sample(rng, later=None):
    wrong = faults(rng, [*INPUTS, "stream", "stream", "out"])
    inputs = draw_small(rng, wrong, later)
    if within("n", inputs.n) and below(rng, 4):     # few elements
        inputs = inputs._replace(n=1 + below(rng, 3), d=min(inputs.d, 6), T=min(inputs.T, 2), K=below(rng, 2))
    length = sizes(inputs).measurement
    stream = draw_values(rng, length if length <= 700 else 3)
    if "stream" in wrong:
        stream = bytes(resized(rng, stream, lambda rng: below(rng, 256)))
    return sample(inputs, stream, draw_out(rng, inputs, (length,), "out" in wrong))


# Fixed cases

NONCE = bytes(range(NONCE_LEN))
FIVE = bytes(range(NONCE_LEN, NONCE_LEN + FIVE_LEN))    # with PLAIN the first test takes the first number
SMALL = Inputs(1, 4, 0, 1, 1, 2, 2)
UNIT = row(1, 0, 0, 0)


def flipped(row):
    """The row with one bit of each byte changed."""
    return (row[:i] + bytes([row[i] ^ 1 << i % 8]) + row[i + 1:] for i in range(len(row)))


def others(row):
    """None, one less, one more, twice as long."""
    return (row + row)[:0], row[1:], row + b"\0", row + row


# d and T with which the elements of a part, 8 bytes each after 41, end beside a block of 168, those of the first part of a
# measurement being d + 2 and of the whole d + 2 + 6 T; and with which the helper's elements fill a block.
LENGTHS = ((1, 1), (12, 1), (13, 1), (14, 1), (15, 1), (13, 3), (14, 3), (33, 2), (34, 2), (35, 2), (36, 4), (3, 6), (4, 6))


def of_lengths(lengths):
    for d, t in lengths:
        yield cut(Inputs(1, d, 0, 5, 4, t, t // 2), row(*(0,) * (d - 1), -1), NONCE, FIVE)


def of_rules(later=None, faulty=()):
    def make(inputs, gradient, both, out):
        return cut(inputs, gradient, *both, out)
    return faulty_encodings(PLAIN._replace(later=later), (*faulty, *FAULTS), make, (NONCE, FIVE))


def limits_cut():
    yield cut(SMALL, UNIT, NONCE, FIVE)
    yield from (cut(SMALL, UNIT, nonce, FIVE) for nonce in (*flipped(NONCE), bytes(NONCE_LEN), b"\xff" * NONCE_LEN))
    yield from (cut(SMALL, UNIT, NONCE, five) for five in (*flipped(FIVE), bytes(FIVE_LEN), b"\xff" * FIVE_LEN))
    for i, j in itertools.combinations(range(5), 2):    # two of the five seeds exchanged
        five = seeds_of(FIVE)
        five[i], five[j] = five[j], five[i]
        yield cut(SMALL, UNIT, NONCE, b"".join(five))
    yield from of_lengths(LENGTHS)
    size = sizes(PLAIN)
    yield from of_rules(None, (*BROKEN, {"out": (size.measurement - 1, size.measurement, GIVEN_LEN)}))
    for later in (Later(rule=1), Later(switch=1), Later(1, 65535, 1, 1)):
        yield from of_rules(later)
    for k in range(3):      # each number of tests that miss, by both rules
        for five in (FIVE, *itertools.islice(flipped(FIVE), 6)):
            for later in (None, Later(rule=1)):
                yield cut(Inputs(65536, 1, 0, 1, 1, 2, k, later), row(2**32), NONCE, five)
    length = sizes(SMALL).measurement
    for nonce in others(NONCE):
        yield cut(SMALL, UNIT, nonce, FIVE)
        yield cut(SMALL, UNIT, nonce, FIVE[1:], (length + 1, length - 1, 0))
    for five in others(FIVE):
        yield cut(SMALL, UNIT, NONCE, five)
        yield cut(SMALL, UNIT[1:], NONCE, five, (length - 1, length + 1, 33))
    for leader, helper, given in itertools.product((-1, 0, 1), (-1, 0, 1), (31, 32, 33)):
        yield cut(SMALL, UNIT, NONCE, FIVE, (length + leader, length + helper, given))


def sweep_cut():
    yield from of_lengths([(d, t) for d in range(1, 60) for t in range(1, 5)])
    for d, t in ((300, 256), (1000, 10), (4096, 3), (4093, 100), (8192, 1)):
        inputs = Inputs(10000, d, 4, 50, 60, t, t // 2)
        yield cut(inputs, row(*((i * 37 % 19 - 9) / 4 for i in range(d))), NONCE, FIVE)
    for n in (1, 2, 3, 1000, 65536, 2**31, 3037000499):
        for later in (None, RUST, Later(1, 65535), Later(65535, 1), Later(2, 3, 1, 1)):
            yield cut(Inputs(n, 5, 0, 3, 2, 3, 2, later), row(1, 0, 0, 0, 0), NONCE, FIVE)


def values(*xs):
    return b"".join(x.to_bytes(8, "little") for x in xs)


def limits_sample():
    length, limit = sizes(SMALL).measurement, draws(SMALL)
    counted = [0x0102030405060708 * (1 + i % 31) + i for i in range(limit)]

    def with_skipped(places, x=P):
        return values(*(x if i in places else counted[i] for i in range(limit)))

    for x in (0, 1, P - 2, P - 1, P, P + 1, 2**63, TOP - 1, TOP):
        for at in (0, 1, length - 1, length, limit - 1):
            yield sample(SMALL, with_skipped({at}, x))
    for many in (63, 64, 65):       # at the front, before the last, at the end, every second, and all that may be left out
        yield sample(SMALL, with_skipped(range(many)))
        yield sample(SMALL, with_skipped(range(length - 1, length - 1 + many)))
        yield sample(SMALL, with_skipped(range(limit - many, limit)))
        yield sample(SMALL, with_skipped({i * 79 % limit for i in range(many)}, TOP))
        yield sample(SMALL, with_skipped(set(range(many - 1)) | {limit - 1}, P + 1))
        yield sample(SMALL, with_skipped(set(range(many - 1)) | {limit - 1 - many}, P + 1))
    yield sample(SMALL, values(*[TOP] * limit))
    yield sample(SMALL, values(*[P - 1] * limit))
    stream, refused_stream = with_skipped({3}), with_skipped(range(65))
    for other in (stream[:-1], stream + b"\0", stream[8:], stream + stream[:8], b"", refused_stream[1:], stream[:8 * length]):
        for out in (length - 1, length, length + 1):
            yield sample(SMALL, other, (out,))
    for out in (0, length - 1, length + 1):
        yield sample(SMALL, stream, (out,))
        yield sample(SMALL, refused_stream, (out,))
    for changes in combined(BROKEN):
        yield sample(changed(SMALL, changes), refused_stream[len(changes) % 2:])
    for later in (RUST, Later(rule=1, switch=1), Later(0, 1), Later(1, 65535)):
        inputs = SMALL._replace(later=later)
        yield sample(inputs, stream[:8 * draws(inputs)])
        yield sample(inputs, refused_stream[:8 * draws(inputs)])


def sweep_sample():
    for d, t in itertools.product((1, 2, 5, 12, 40, 300), (1, 2, 9)):
        inputs = Inputs(3, d, 0, 1, 1, t, t)
        limit = draws(inputs)
        for many in range(60, 68):
            for start in {0, 1, limit // 2, limit - many}:
                row = [i * 0x9e3779b97f4a7c15 % P for i in range(limit)]
                row[start:start + many] = [P + i % 3 for i in range(many)]
                yield sample(inputs, values(*row))
    inputs = Inputs(10000, 4096, 4, 50, 60, 100, 50)
    yield sample(inputs, values(*(i * 0x9e3779b97f4a7c15 % 2**64 for i in range(draws(inputs)))))


KINDS = {
    "cut": Kind(draw_cut, limits_cut, sweep_cut),
    "sample": Kind(draw_sample, limits_sample, sweep_sample, drawn=40),
}
