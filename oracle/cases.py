"""Cases for the runs against the original Rust, drawn from a seed or taken from fixed lists.

A case is a line to ask, and what must be answered to it:

    OK                       it is accepted: the original's own `ok ..` line, whatever that is
    ok ..                    the same, worked out here: of subtract, unmerge, a part of a full vector, a load and the day's
                             file, which the original has no call for, and of a case with later inputs
    refused NUMBER PLACE     it is refused, by the first rule broken
    bad                      the line is malformed
    nothing                  a blank line or a comment, which has no answer

What any other accepted case gives is known to the original alone.

A kind of case is one entry of KINDS: `draw(rng)` gives one random case; `limits()`, if there is one, lists the
few hundred that belong in the gate's list; `sweep()` the many that are run only when all edges are asked for.
Lines are written one plain way: single spaces, no signs, lower case.
"""

import itertools
import random

import aggregates
import circuits
import cuts
import files
import load
import multiplier
import parts
import reports
import seeds
import singles
import test_rule
import true_length
import wide
from common import BAD, NONE, OK, TOP, Case, below

KINDS = {**singles.KINDS, **reports.KINDS, **seeds.KINDS, **cuts.KINDS, **circuits.KINDS, **parts.KINDS,
         **aggregates.KINDS, **multiplier.KINDS, **test_rule.KINDS, **true_length.KINDS, **load.KINDS, **files.KINDS,
         **wide.KINDS}


# Malformed lines, and lines without an answer

NONSENSE = ("-1", "-", "x", "1x", "x1", "1.0", "1_0", "1,0", "1e+3", "NaN", "inf", "0x", "zz")
NOT_DECIMAL = ("a", "ff", "1f", "0x1")

# The word after the seven inputs is a count.
COUNTED = ("merge", "accumulate", "aggregate", "unshard", "encode", "wrtests", *seeds.KINDS, "cut", *aggregates.TAKING,
           *parts.KINDS)

# The second word is hexadecimal, of so many bits.
SINGLE = {"coord": 64, "decode": 64, "coord128": 64, "decode128": 128}


def spoil_later(rng, words):
    """The words of the later inputs with one damage."""
    way = below(rng, 3)
    at = 1 + below(rng, 2 if way == 0 else 4)
    if way == 0:    # the multiplier's numbers have 16 bits
        more = [str(int(words[at]) + (1 << rng.choice((16, 17, 32, 64, 128))))]
    elif way == 1:
        more = [rng.choice(NONSENSE + NOT_DECIMAL)]
    else:
        more = []
    return [*words[:at], *more, *words[at + 1:]]


def spoil(rng, case):
    """The case with one damage, so that its line is malformed."""
    words = case.line.partition(" out ")[0].split(" ")
    if words[0] != "with":
        words = spoil_words(rng, words)
    elif rng.getrandbits(1):
        words = [*spoil_later(rng, words[:5]), *words[5:]]
    else:
        words = [*words[:5], *spoil_words(rng, words[5:])]
    return Case(case.kind, " ".join(words), BAD)


def spoil_words(rng, words):
    kind, way = words[0], below(rng, 7)
    if way == 0:
        words = words[:rng.randrange(1, len(words))]
    elif way == 1:
        words += [str(below(rng, 3))] * rng.randrange(1, 4)
    elif way == 2:
        words[0] = rng.choice((kind[:-1], kind + "s", kind.upper(), kind.capitalize(), "x", "0", "-"))
    elif way == 3:
        at = rng.randrange(1, len(words))
        words[at] = rng.choice([word for word in NONSENSE if word != "-"])     # which stands for no bytes
    elif kind == "load":    # whose word is no number
        words[1] = rng.choice((words[1] + "0", words[1][:-1] + "g", "0x" + words[1]))
    elif way == 4 and len(words) > 8 and kind.removesuffix("128") in COUNTED:
        words[8] = str(rng.choice((2**32, 2**63, TOP)) + below(rng, 2) * below(rng, 9) - 9)
    else:
        at = rng.randrange(1, min(len(words), 8))   # the first seven after the name are numbers in every kind
        hexadecimal = at == 2 and kind in SINGLE
        if way == 5:
            words[at] = rng.choice(NONSENSE if hexadecimal else NONSENSE + NOT_DECIMAL)
        elif hexadecimal:
            words[at] = f"{int(words[at], 16) + (1 << rng.choice((64, 65, 68, 128)) + SINGLE[kind] - 64):x}"
        else:
            words[at] = str(int(words[at]) + (1 << rng.choice((64, 65, 68, 128))))
    return words


def silent(line=""):
    return Case("", line, NONE)


# The streams of cases

def draws(seed, kinds):
    """Cases of these kinds for ever; now and then a malformed one, a blank line or a comment."""
    rng = random.Random(seed)
    kinds = [KINDS[kind] for kind in kinds]
    while True:
        case = rng.choice(kinds).draw(rng)
        way = below(rng, 64)
        if way == 0:
            yield spoil(rng, case)
        elif way == 1:
            yield silent(rng.choice(("", "#", "# " + case.line)))
        else:
            yield case


def edges(kinds):
    """Every fixed case of these kinds, once."""
    for kind in kinds:
        yield from KINDS[kind].limits()
        yield from KINDS[kind].sweep()


# In the gate's list.
LONGEST = 1500


def gate(seed):
    """The gate's list. A kind's part depends on the seed and on that kind alone."""
    for name, kind in KINDS.items():
        rng = random.Random(f"{seed} {name}")
        yield silent(f"# {name}: limits")
        yield from dict.fromkeys(kind.limits())
        yield silent()
        yield silent(f"# {name}: drawn from seed {seed}")
        drawn = (case for case in iter(lambda: kind.draw(rng), None) if len(case.line) <= LONGEST)
        yield from itertools.islice(drawn, kind.drawn)
        yield silent()
        yield silent(f"# {name}: malformed")
        for case in itertools.islice(drawn, kind.malformed):
            yield spoil(rng, case)
        yield silent()
