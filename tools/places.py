#!/usr/bin/env python3
"""usage: tools/places.py [FOLDER]

Counts, in the sources of FOLDER (this repository), the places of docs/DESIGN-PASS.md, point by point. Comment lines
do not count."""
import collections
import pathlib
import re
import sys

root = pathlib.Path(sys.argv[1] if len(sys.argv) > 1 else pathlib.Path(__file__).parent.parent)
sources = {}
for path in sorted(root.glob("crates/*/src/**/*.rt")):
    lines = [l for l in path.read_text().split("\n") if not l.lstrip().startswith(("//", "ghost use"))]
    sources[str(path.relative_to(root))] = lines


def lines_with(pattern):
    return sum(bool(re.search(pattern, l)) for lines in sources.values() for l in lines)


def crate(path):
    return path.split("/")[1]


def functions():
    """of each crate the names of its functions, without what tells the wide field's from the other's"""
    found = collections.defaultdict(set)
    for path, lines in sources.items():
        for l in lines:
            m = re.match(r"\s*(?:pub )?fn (\w+)", l)
            if m:
                found[crate(path)].add(re.sub(r"_?128|_wide|wide_", "", m[1]))
    return found


def twins():
    found = functions()
    pairs = 0
    for name in found:
        other = "field128" if name == "field64" else name + "128"
        pairs += len(found[name] & found.get(other, set()))
    return pairs


def facts():
    """facts that stand in the `requires` of three functions or more, and how often they do"""
    count = collections.Counter()
    for lines in sources.values():
        for l in lines:
            m = re.match(r"\s*requires\s+(?:\w+\s+)?\{(.*)\}\s*$", l)
            if m:
                for part in re.split(r" × ", m[1]):
                    count[part.strip().strip("()")] += 1
    often = [n for n in count.values() if n >= 3]
    return f"{len(often)} facts, {sum(often)} times"


def proofs(pattern):
    files = list(root.glob("crates/*/proofs/**/*.antt"))
    return sum(len(re.findall(pattern, p.read_text(), re.M)) for p in files)


print("1  numbers of rules by name        ", lines_with(r"rules::[A-Z][A-Z_0-9]+\b"))
print("1  tests of an answer's number     ", lines_with(r"\.number (!=|==) 0"))
print("1  answers written out, or joined  ", lines_with(r"\bAnswer \{$|Answer \{ number|answer: Answer \{|\.or\("))
print("1  an answer beside a value        ", lines_with(r"^    (pub )?answer: Answer,"))
print("1  a flag beside a value           ", lines_with(r"^    (pub )?(ok|held|enough|more): bool,"))
print("1  own enums like Option           ", lines_with(r"^(pub )?enum (Read|Appended)\b"))
print("1  a bool that is a kind           ", lines_with(r"\b(wide|seeded|kept): bool"))
print("2  functions of one name, 64 / 128 ", twins())
print("3  loops that count                ", lines_with(r"^\s*while "))
print("4  numbers printed digit by digit  ", lines_with(r"fn (byte|decimal|hex|wide_hex|pairs|quarters|two_places|signed)\b"))
print("4  comparing and copying by hand   ", lines_with(r"fn (copy|copy_bytes|copy_row|begins|is_filled\w*|fill|fill_doubles|zero_row)\("))
print("5  facts asked for by three or more", facts())
print("6  a buffer with a place beside it ", lines_with(r"\bat: usize[,)]"))
print("7  a word that chooses the step    ", lines_with(r'== b"'))
print("8  second names in answers         ", proofs(r"let [a-z_0-9]+ = c in$"))
print("8  lines of proofs                 ", sum(len(p.read_text().split("\n")) - 1 for p in root.glob("crates/*/proofs/**/*.antt")))
print("   lines of sources                ", sum(len(l) for l in sources.values()))
