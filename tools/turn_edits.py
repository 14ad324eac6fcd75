#!/usr/bin/env python3
"""Brings must-fail edits to today's spelling, as port.py and respell.py brought the files that they apply to.

usage: tools/turn_edits.py    at the top of the repository; a second run changes nothing

Only an edit whose text no longer stands is touched, and only where the turned text stands exactly once. Prints the rest.
tools/respelled.txt has the old and the new names.
"""
import glob
import os
import re

NAMES = dict(line.split() for line in open("tools/respelled.txt", encoding="utf-8"))
NAMES |= {"getD": "get_or", "bitXor": "bit_xor", "bitAnd": "bit_and", "bitOr": "bit_or", "ofInt": "of_int"}
# what port.py had renamed before respell.py
PORT = {"validOf": "valid_of", "sharesOf": "shares_of", "keysOf": "keys_of", "entryOf": "entry_of", "keyOf": "key_of", "bytesOf": "bytes_of",
        "wordsOf": "words_of", "cutOf": "cut_of", "sizeOf": "size_of", "readOf": "read_of", "maxOf": "max_of", "outOf": "out_of", "upTo": "up_to",
        "endsAt": "ends_at", "partAt": "part_at", "toBytes": "to_bytes", "elementAt": "element_at", "wordsIn": "words_in", "fullShare": "full_share", "inRange": "in_range", "dayShares": "day_shares", "natAbs": "nat_abs"}
TOKEN = re.compile(r"[A-Za-z_][\w'₀-₉-]*")


def turned(t):
    t = re.sub(r"«(\w+)»", r"\1", t)
    t = re.sub(r"\(now \((\w+) \.entry\)\)", r"\1.old", t)
    t = re.sub(r"now \((\w+) \.entry\)", r"\1.old", t)
    t = re.sub(r"\(now (\w+)\)", r"\1.now", t)
    # a projection is tight, and needs no parentheses where it is an argument
    for _ in range(4):
        t = re.sub(r"(?<=[\w)'₀-₉]) \.(?=[A-Za-z0-9_])", ".", t)
    t = re.sub(r"\(([A-Za-z][\w'₀-₉]*(?:\.[\w'-]+)+)\)", r"\1", t)
    names = PORT | NAMES
    t = TOKEN.sub(lambda m: names.get(m.group(0), m.group(0)), t)
    t = re.sub(r"(requires|ensures) \{ (?:λ \w+\. )?⌜ (.*) ⌝ \}", r"\1 { \2 }", t)
    t = t.replace("Rattle·", "Rattle.")
    return t


def stands(pairs, crate):
    texts = {}
    for f, old, new in pairs:
        p = f"crates/{crate}/{f}"
        if p not in texts:
            if not os.path.exists(p):
                return False
            with open(p, encoding="utf-8") as h:
                texts[p] = h.read()
        if texts[p].count(old) != 1:
            return False
        texts[p] = texts[p].replace(old, new)
    return True


def main():
    left = 0
    for e in sorted(glob.glob("crates/*/must-fail/*.edit") + glob.glob("tests/edits/*/*.edit")):
        crate = e.split("/")[1] if e.startswith("crates") else e.split("/")[2]
        with open(e, encoding="utf-8") as h:
            lines = h.read().split("\n")
        def pairs(ls):
            f = old = None
            for l in ls:
                if l.startswith("file: "):
                    f = l[6:].strip()
                elif l.startswith("old: "):
                    old = l[5:]
                elif l.startswith("new: "):
                    yield f, old, l[5:]
        if stands(list(pairs(lines)), crate):
            continue
        out = [turned(l) if l.startswith(("old: ", "new: ")) else l for l in lines]
        if stands(list(pairs(out)), crate):
            with open(e, "w", encoding="utf-8") as h:
                h.write("\n".join(out))
        else:
            left += 1
            print("left:", e)
    print(left, "left")


main()
