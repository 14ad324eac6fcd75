"""Cases on aggregates: merge, accumulate, subtract, unmerge, aggregate, unshard; and lists of such calls.

What they give is worked out here, in whole numbers: for subtract and unmerge, since the original takes nothing out of an
aggregate, and for all of them with later inputs.
"""

import functools
import itertools
import math
from typing import Callable, NamedTuple

from common import (BROKEN, FIELD64, HALF, INPUTS, OK, P, TOP, Case, Inputs, Kind, below, bits_of, case_of, changed,
                    combined, damage, draw_small, element, elements, faults, first, first_rule, length, lent, other_row,
                    patterns, refused, rule_7, rule_12, rule_23, vec)
from singles import TOPS, tie


TAKING = ("subtract", "unmerge")


def added(agg, share, sign=1, field=FIELD64):
    return [(a + sign * b) % field.p for a, b in zip(agg, share)]


def adding(kind, inputs, agg, share):
    """merge, accumulate, subtract or unmerge. The aggregate is argument and result, so no other row is lent."""
    want = first(refused(first_rule(inputs)), adding_rules(inputs, agg, share))
    sign = -1 if kind in TAKING else 1
    return case_of(kind, inputs, f" {vec(agg)} {vec(share)}", want, lambda: vec(added(agg, share, sign, inputs.field)),
                   kind in TAKING)


def adding_rules(inputs, agg, share):
    """Rules 7 and 12."""
    return first(rule_7((length(agg), inputs.d), (length(share), inputs.d)), rule_12(agg, share, field=inputs.field))


def aggregate(inputs, rows, out=()):
    """The empty aggregate, then each row added to it: what the first refused call says."""
    row = out[0] if out else inputs.d
    want = first(refused(first_rule(inputs)), rule_7((row, inputs.d)))
    agg = [0] * inputs.d if want == OK else []
    want = first(want, *(adding_rules(inputs, agg, share) for share in rows))
    return case_of("aggregate", inputs, f" {' '.join([str(len(rows)), *map(vec, rows)])}{lent(out, inputs.field)}", want,
                   lambda: vec(functools.reduce(functools.partial(added, field=inputs.field), rows, agg)))


def decoded_to(y, f, field=FIELD64):
    """The bits of the nearest double to the centred y, divided by 2^f."""
    return bits_of(math.ldexp(float(field.centre(y)), -f))


def unshard(inputs, left, right, out=()):
    decoded, field = out[0] if out else inputs.d, inputs.field
    want = first(refused(first_rule(inputs)), rule_7(*((n, inputs.d) for n in (length(left), length(right), decoded))),
                 rule_12(left, right, field=field), rule_23(added(left, right, field=field), field))
    return case_of("unshard", inputs, f" {vec(left)} {vec(right)}{lent(out)}", want,
                   lambda: patterns([decoded_to(y, inputs.f, field) for y in added(left, right, field=field)]))


def sums(field):
    """Where the sign, the digits of a double, the field or what can be decoded turn."""
    p, half, most = field.p, field.p // 2, field.centred
    at_most = () if most == half else (most - 1, most, most + 1, p - most - 1, p - most, p - most + 1)
    return (0, 1, half - 1, half, half + 1, half + 2, 2**53 - 1, 2**53, 2**53 + 1, 2**53 + 2, 2**53 + 3, 2**54 + 2, 2**54 + 6,
            p - 2**53 - 3, p - 2**53 - 1, p - 2**53, p - 2, p - 1, *at_most)


SUMS = sums(FIELD64)


def completed(rng, left, field):
    """An element whose sum with the first is one that matters, or any. Most of the sums can be decoded."""
    way = below(rng, 4 if field is FIELD64 else 80)
    if way == 0:
        return (max(rng.choice(sums(field)) + below(rng, 5) - 2, 0) - left) % field.p
    if way == 1 or 4 <= way < 30:
        total = tie(54 + below(rng, 10), rng.choice(TOPS), below(rng, 3) - 1)
        return (rng.choice((total, -total)) - left) % field.p
    if way < 4:
        return element(rng, field)
    return (rng.randint(-field.centred, field.centred) - left) % field.p


def two_rows(rng, inputs, wrong, sign=1):
    """Two rows of d elements, with the faults named; for the sign -1 it is their difference that matters."""
    field = inputs.field
    left = elements(rng, inputs.d if inputs.d <= 64 else 3, field)
    rows = [left, [sign * completed(rng, x, field) % field.p for x in left]]
    for name in wrong:
        if name in ("left", "right"):
            i = ("left", "right").index(name)
            rows[i] = other_row(rng, rows[i], field)
        elif name == "element":
            i = below(rng, 2)
            rows[i] = damage(rng, rows[i], field)
    return rows


def other_len(rng, length, halves):
    lengths = (0, length - 1, length + 1, length + 4, 2 * length, *(length - 0.5, length + 0.5) * halves)
    return rng.choice([n for n in lengths if 0 <= n != length])


def draw_out(rng, inputs, lengths, wrong, halves=None):
    """The lent rows' lengths: derived, and most often not named; wrong; or any, where the inputs are refused anyway."""
    lengths, halves = list(lengths), inputs.field.words == 2 if halves is None else halves
    if first_rule(inputs):
        return [below(rng, 13) for _ in lengths] if rng.getrandbits(1) else []
    if wrong:
        i = below(rng, len(lengths))
        lengths[i] = other_len(rng, lengths[i], halves)
        return lengths
    return lengths if below(rng, 8) == 0 else []


def draw_adding(kind):
    def draw(rng, later=None, field=FIELD64):
        wrong = faults(rng, [*INPUTS, "left", "right", "element", "element"])
        inputs = draw_small(rng, wrong, later, field=field)
        return adding(kind, inputs, *two_rows(rng, inputs, wrong, -1 if kind in TAKING else 1))
    return draw


def draw_aggregate(rng, later=None, field=FIELD64):
    wrong = faults(rng, [*INPUTS, "row", "row", "element", "element", "out"])
    inputs = draw_small(rng, wrong, later, field=field)
    rows = [elements(rng, inputs.d if inputs.d <= 64 else 3, field) for _ in range(below(rng, 6))]
    for name in wrong:
        if name == "row" and rows:
            i = below(rng, len(rows))
            rows[i] = other_row(rng, rows[i], field)
        elif name == "element" and rows:
            i = below(rng, len(rows))
            rows[i] = damage(rng, rows[i], field)
    return aggregate(inputs, rows, draw_out(rng, inputs, (inputs.d,), "out" in wrong))


def draw_unshard(rng, later=None, field=FIELD64):
    wrong = faults(rng, [*INPUTS, "left", "right", "element", "element", "out"])
    inputs = draw_small(rng, wrong, later, field=field)
    return unshard(inputs, *two_rows(rng, inputs, wrong), draw_out(rng, inputs, (inputs.d,), "out" in wrong, halves=False))


# Lists of calls

class Call(NamedTuple):
    case: Callable[[list], Case]    # of the aggregates as they stand before the call
    writes: int | None              # which of them an accepted call makes anew


def draw_share(rng, field, d):
    """Over Field128 most often one that can be decoded with a hundred others."""
    if field is FIELD64 or below(rng, 8) == 0:
        return elements(rng, d, field)
    return [rng.randint(-2**57, 2**57) % field.p for _ in range(d)]


def begin(rng, field, d, i):
    inputs = draw_small(rng, d=d, field=field)
    return Call(lambda rows: aggregate(inputs, []), i)


def draw_call(rng, field, d, many, shares):
    """A call on so many aggregates of d elements of a field. The shares are those drawn before: one of them may be drawn again."""
    wrong = faults(rng, [*INPUTS, "dimension", "share", "element"]) if below(rng, 3) == 0 else []
    inputs = draw_small(rng, wrong, d=d + 1 + below(rng, 3) if "dimension" in wrong else d, field=field)
    i = below(rng, many)
    j = (i + 1 + below(rng, many - 1)) % many
    way = below(rng, 24)
    if way == 0:
        out = (d + 1,) if "share" in wrong else (d,)
        return Call(lambda rows: aggregate(inputs, [], out), i)
    if way < 5:
        return Call(lambda rows: adding("merge", inputs, rows[i], rows[j]), i)
    if way < 7:
        j = j if rng.getrandbits(1) else i
        return Call(lambda rows: unshard(inputs, rows[i], rows[j], (d,)), None)
    if way < 9:
        return Call(lambda rows: adding("unmerge", inputs, rows[i], rows[j]), i)
    kind = "subtract" if way < 15 else "accumulate"
    if kind == "subtract" and shares and below(rng, 4):
        share = rng.choice(shares)
    else:
        share = draw_share(rng, field, d)
        shares.append(share)
    if "share" in wrong:
        share = other_row(rng, share, field)
    if "element" in wrong:
        share = damage(rng, share, field)
    return Call(lambda rows: adding(kind, inputs, rows[i], share), i)


# Fixed cases

PLAIN = Inputs(5, 3, 2, 2, 2, 2, 1)
ROW = [1, P - 1, 2**53]


def limits_adding(kind):
    def limits():
        short, long, over = ROW[:2], ROW + [7], [5, P, TOP]
        for changes in combined((*BROKEN, {"agg": short}, {"share": long}, {"over": True})):
            inputs = changed(PLAIN, changes)
            agg, share = changes.get("agg", ROW), changes.get("share", ROW)
            yield adding(kind, inputs, agg, share)
            if "over" in changes:
                yield adding(kind, inputs, agg, over + share[3:])
                yield adding(kind, inputs, over[:len(agg)], share)
        for a, b in itertools.product((0, 1, HALF, HALF + 1, P - 1, P, TOP), repeat=2):
            yield adding(kind, PLAIN._replace(d=1), [a], [b])
        for d in range(1, 10):
            yield adding(kind, PLAIN._replace(d=d), [P - 1 - i for i in range(d)], [i for i in range(d)])
        for m, k in itertools.product((0, 2, 3, 4), repeat=2):
            yield adding(kind, PLAIN, [1] * m, [2] * k)
    return limits


def limits_aggregate():
    for changes in combined((*BROKEN, {"out": (2,)}, {"row": 1}, {"over": True})):
        inputs = changed(PLAIN, changes)
        rows = [ROW, ROW + [7] if "row" in changes else ROW, [1, TOP, P] if "over" in changes else ROW]
        yield aggregate(inputs, rows, changes.get("out", ()))
        yield aggregate(inputs, rows[::-1], changes.get("out", ()))
    for many, d in itertools.product(range(6), (1, 2, 4, 9)):
        yield aggregate(PLAIN._replace(d=d), [[P - 1 - i for i in range(d)]] * many)
    for length in (0, 1, 2, 4, 8):
        yield aggregate(PLAIN, [], (length,))
    for x in (P - 1, P, TOP):
        for i in range(3):
            yield aggregate(PLAIN, [ROW, [x if i == j else 0 for j in range(3)]], (3,))
    yield aggregate(PLAIN._replace(d=65536), [[1]], (1,))
    yield aggregate(PLAIN._replace(d=300), [[P - 1] * 300] * 2)


def limits_unshard():
    for changes in combined((*BROKEN, {"left": ROW[:2]}, {"right": ROW + [7]}, {"out": (4,)}, {"over": True})):
        inputs = changed(PLAIN, changes)
        left, right, out = changes.get("left", ROW), changes.get("right", ROW), changes.get("out", ())
        yield unshard(inputs, left, right, out)
        if "over" in changes:
            yield unshard(inputs, left, [0, P, TOP] + right[3:], out)
            yield unshard(inputs, [0, TOP, P][:len(left)], right, out)
    for f in (0, 1, 15, 30):
        for total in SUMS:
            for left in (0, 1, HALF, P - 1):
                yield unshard(PLAIN._replace(d=1, f=f), [left], [(total - left) % P])
    for a, b in itertools.product((0, 1, P - 1, P, TOP), repeat=2):
        yield unshard(PLAIN._replace(d=1), [a], [b], (1,))
    for d in range(1, 10):
        yield unshard(PLAIN._replace(d=d), [HALF - i for i in range(d)], [2 * i for i in range(d)])
    for lengths in itertools.product((2, 3, 4), repeat=3):
        yield unshard(PLAIN, [1] * lengths[0], [2] * lengths[1], lengths[2:])
    yield unshard(PLAIN._replace(d=65536), [1], [2], (3,))
    yield unshard(PLAIN._replace(d=300), [P - 1] * 300, [1] * 300)


def long_rows(d):
    return [[(k + i) * 0x9e3779b97f4a7c15 % P for i in range(d)] for k in range(3)]


def sweep_adding(kind):
    return lambda: (adding(kind, PLAIN._replace(d=d), *long_rows(d)[:2]) for d in (4095, 4096, 8192))


def sweep_aggregate():
    for d in (4095, 4096, 8192):
        yield aggregate(PLAIN._replace(d=d), long_rows(d))


def sweep_unshard():
    for d in (4095, 4096, 8192):
        yield unshard(PLAIN._replace(d=d), *long_rows(d)[:2])
    for f, total in itertools.product(range(31), SUMS):
        for left in (0, 1, 2**63, HALF, P - 1):
            yield unshard(PLAIN._replace(d=1, f=f), [left], [(total - left) % P])
    for f, length, top, off in itertools.product((0, 7, 30), range(54, 64), TOPS, (-1, 0, 1)):
        for total in (tie(length, top, off), -tie(length, top, off)):
            yield unshard(PLAIN._replace(d=2, f=f), [HALF, P - 1], [(total - HALF) % P, (total + 1) % P])


KINDS = {
    "merge": Kind(draw_adding("merge"), limits_adding("merge"), sweep_adding("merge"), drawn=30),
    "accumulate": Kind(draw_adding("accumulate"), limits_adding("accumulate"), sweep_adding("accumulate"), drawn=30),
    **{kind: Kind(draw_adding(kind), limits_adding(kind), sweep_adding(kind), drawn=30, worked_out=True) for kind in TAKING},
    "aggregate": Kind(draw_aggregate, limits_aggregate, sweep_aggregate, drawn=60),
    "unshard": Kind(draw_unshard, limits_unshard, sweep_unshard, drawn=60),
}
