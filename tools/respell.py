#!/usr/bin/env python3
"""Brings the repository's own definitions and lemmas to the spelling of today's library.

usage: tools/respell.py [--dry]    at the top of the repository, once, after port.py

Words are in snake case: `rowRule` is `row_rule`, `seen-part` is `seen_part`. A dash stays where it joins the names of two
functions, as in `length-add_rows`. What names a value in Rust's source keeps its spelling, and a definition that would
fall together with such a field, constant or parameter takes `_of`. Strings, inputs, outputs and functions of src/ are not
touched. Prints what it renamed and where a new name was in use already.
"""
import collections
import os
import re
import sys

DRY = "--dry" in sys.argv
TOKEN = re.compile(r"[^\s(){}\[\].,;:\"«»⌜⌝|`\\=]+|=|:")
WORDS = {"length", "take", "drop", "get_or", "map", "append", "reverse", "replicate", "set", "concat", "sum", "zip"}
STD = {"getD": "get_or"}


def files(*ends):
    for folder, dirs, names in os.walk("crates"):
        dirs[:] = sorted(d for d in dirs if d != "out")
        for f in sorted(names):
            if f.endswith(ends):
                yield os.path.join(folder, f)


def read(p):
    with open(p, encoding="utf-8") as f:
        return f.read()


DEF = re.compile(r"^(\s*)((?:(?:unfoldable|abbrev|pub|axiom|ruleset) )*)([^\s:(){}.,\"]+)\s*:(?!=)(.*)")
RECORD = re.compile(r"^\s*(?:pub )?(?:data|record) (?:pub )?(\S+)")


def definitions():
    """Each name that a file of specs/ or proofs/ defines, goals of a proof by hand aside, with the files."""
    found, specs = collections.defaultdict(set), set()
    for p in files(".antt"):
        for line in read(p).split("\n"):
            if line.lstrip().startswith("--"):
                continue
            m = DEF.match(line)
            if m and not m.group(4).strip().startswith("tie.") and m.group(3) not in ("λ", "let", "→"):
                found[m.group(3)].add(p)
                if "/specs/" in p and not m.group(1).strip():
                    specs.add(m.group(3))
    return found, specs


def rust_names():
    """Fields, constants and parameters of the sources."""
    names = set()
    for p in files(".rt"):
        t = re.sub(r"//[^\n]*", "", read(p))
        names |= set(re.findall(r"\b([a-z][a-z0-9_]*)\s*:(?!:)", t))
    return names


def snake(w):
    w = STD.get(w, w)
    w = re.sub(r"([a-z0-9₀-₉])([A-Z])", r"\1_\2", w)
    w = re.sub(r"([A-Z])([A-Z][a-z])", r"\1_\2", w)
    return w.lower() if re.match(r"^[a-z]", w) else w


def plan():
    defs, specs = definitions()
    rust = rust_names()
    camel = sorted(n for n in defs if re.match(r"^[a-z][A-Za-z0-9₀-₉']*$", n) and re.search("[A-Z]", n))
    new = {}
    for n in camel:
        s = snake(n)
        new[n] = s + "_of" if s in rust else s
    # a lemma that would have a definition's name takes `_lem`
    for n in camel:
        if new[n] in defs:
            new[new[n]] = new[n] + "_lem"
    functions = WORDS | {new[n] for n in camel if n in specs}
    taken = set(new.values())
    for n in sorted(defs):
        if "-" not in n or not re.match(r"^[A-Za-z][A-Za-z0-9₀-₉'_-]*$", n) or n.startswith("_"):
            continue
        parts = [new.get(w, snake(w) if re.match("^[a-z]", w) else w) for w in n.split("-")]
        if not all(parts):
            continue
        out = parts[0]
        for left, right in zip(parts, parts[1:]):
            joins = left in functions and right in functions and left == parts[0] and parts[-1] != "spec"
            out += ("-" if joins else "_") + right
        if out in defs or out in taken:
            out += "_lem"
        taken.add(out)
        if out != n:
            new[n] = out
    return defs, new


def imported(text):
    """Names that a file takes from a library that is not the repository's."""
    own = set(os.listdir("crates"))
    names = set()
    for m in re.finditer(r"use ([A-Za-z0-9_.'+-]+)\.\{([^}]*)\}", text):
        mod = m.group(1).split(".")
        if not (mod[0] == "Rattle" and len(mod) > 1 and mod[1] in own):
            names |= {n.strip().split(" as ")[-1].strip() for n in m.group(2).split(",")}
    return names


def record_fields():
    """The fields of the repository's own records."""
    names = set()
    for p in files(".antt"):
        inside = False
        for line in read(p).split("\n"):
            if re.match(r"^\s*(?:pub )?record .*\bwhere$", line):
                inside, indent = True, len(line) - len(line.lstrip())
            elif inside and line.strip() and len(line) - len(line.lstrip()) <= indent:
                inside = False
            elif inside:
                m = re.match(r"^\s+(?:pub )?([^\s:(){}.,]+)\s*:(?!=)", line)
                if m:
                    names.add(m.group(1))
    return names


def turned(p, text, new, said, fields):
    theirs = imported(text)
    aliases = set(re.findall(r"use [A-Za-z0-9_.'+-]+ as ([A-Za-z0-9_'-]+)", text)) - {"tie", "code"}
    tokens = set(TOKEN.findall(text))
    done = set()

    def put(m):
        w = m.group(0)
        to = new.get(w)
        if to is None or w in theirs:
            return w
        before = text[: m.start()]
        if p.endswith(".rt") and to == w + "_lem":
            return w
        if not re.search("[A-Z]", w) and before.endswith(".") and w not in fields:
            owner = re.search(r"([^\s(){}\[\].,;:\"]+)\.$", before)
            if not owner or owner.group(1) not in aliases:
                return w
        if p.endswith(".rt"):
            line = before[before.rfind("\n") + 1 :]
            if line.count('"') % 2:
                return w
        done.add(w)
        return to

    out = TOKEN.sub(put, text)
    for w in sorted(done):
        if new[w] in tokens:
            said.append(f"{p}: {w} becomes {new[w]}, which stands there already")
    both = collections.Counter(new[w] for w in done)
    for w, k in both.items():
        if k > 1:
            said.append(f"{p}: {k} names become {w}")
    return out


def main():
    defs, new = plan()
    fields = record_fields()
    said = []
    count = collections.Counter()
    for p in list(files(".antt", ".rt", ".edit")):
        text = read(p)
        out = turned(p, text, new, said, fields)
        if out != text:
            count[p.rsplit(".", 1)[1]] += 1
            if not DRY:
                with open(p, "w", encoding="utf-8") as f:
                    f.write(out)
    back = collections.defaultdict(list)
    for a, b in new.items():
        back[b].append(a)
    for b, names in sorted(back.items()):
        names = names + ([b] if b in defs else [])
        if len(names) > 1:
            print("fall together:", b, "from", ", ".join(names))
    for s in said:
        print(s)
    print(f"{len(new)} names; files: {dict(count)}")
    if DRY:
        with open("/tmp/respell.txt", "w") as f:
            for a, b in sorted(new.items()):
                f.write(f"{a} {b}\n")


main()
