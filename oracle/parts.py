"""Cases of the parts of a full vector: gradient_part, checked_part, results_part.

The original has no such call. What an accepted case gives is cut here, by the derived lengths.
"""

from common import (BROKEN, INPUTS, P, STEPS, TOP, Inputs, Kind, case_of, changed, combined, faults, first, first_rule,
                    refused, rule_7, rule_12, sizes, vec)
from circuits import draw_parts

# Where each part begins and ends.
ENDS = {
    "gradient_part": lambda inputs, size: (0, inputs.d),
    "checked_part": lambda inputs, size: (inputs.d, size.measurement),
    "results_part": lambda inputs, size: (size.measurement, size.full),
}


def part(kind, inputs, full):
    size = sizes(inputs)
    want = first(refused(first_rule(inputs)), rule_7((len(full), size.full)), rule_12(full))
    start, end = ENDS[kind](inputs, size)
    return case_of(kind, inputs, f" {vec(full)}", want, lambda: vec(full[start:end]), worked_out=True)


def counted(inputs):
    """A full vector of which no two elements are equal."""
    return list(range(1, sizes(inputs).full + 1))


PLAIN = Inputs(5, 3, 0, 4, 2, 2, 1)
FULL = counted(PLAIN)


def limits(kind):
    def cases():
        size = sizes(PLAIN)
        for changes in combined((*BROKEN, {"full": FULL + [0]}, {"over": [P, TOP]})):
            full = list(changes.get("full", FULL))
            full[1:3] = changes.get("over", full[1:3])
            yield part(kind, changed(PLAIN, changes), full)
        for length in (0, 1, PLAIN.d, size.measurement, size.full - 1, size.full, size.full + 1, size.full + 2):
            yield part(kind, PLAIN, (FULL + [1, 2])[:length])
        for i in (0, PLAIN.d - 1, PLAIN.d, size.measurement - 1, size.measurement, size.full - 1):
            for x in (0, P - 1, P, TOP):
                yield part(kind, PLAIN, FULL[:i] + [x] + FULL[i + 1:])
            yield part(kind, PLAIN, FULL[:i] + [P] + FULL[i + 1:-1] + [TOP])
        for d in range(1, 10):
            inputs = PLAIN._replace(d=d)
            yield part(kind, inputs, counted(inputs))
        for t in range(1, 7):
            for k in (0, t):
                inputs = PLAIN._replace(T=t, K=k)
                yield part(kind, inputs, counted(inputs))
        for n in (1, 2, 3, 65535, 65536, 3037000499, 3037000500):
            inputs = PLAIN._replace(n=n)
            yield part(kind, inputs, counted(inputs))
        for f, c, e in ((30, 1, 1), (0, 65536, 65536), (31, 1, 1), (0, 65537, 1), (0, 1, 65537)):
            yield part(kind, PLAIN._replace(f=f, c=c, e=e), FULL)
    return cases


def sweep(kind):
    def cases():
        for n in STEPS:
            inputs = PLAIN._replace(n=n)
            yield part(kind, inputs, counted(inputs))
        for d, t in ((1, 256), (4096, 1), (4096, 256), (6000, 256)):
            inputs = Inputs(3037000499, d, 0, 1, 1, t, 0)
            yield part(kind, inputs, [x * 0x9e3779b97f4a7c15 % P for x in counted(inputs)])
    return cases


def draw(kind):
    def case(rng, later=None):
        inputs, _, full = draw_parts(rng, faults(rng, [*INPUTS, "full", "full", "element", "element"]), later)
        return part(kind, inputs, full)
    return case


KINDS = {kind: Kind(draw(kind), limits(kind), sweep(kind), drawn=30, worked_out=True) for kind in ENDS}
