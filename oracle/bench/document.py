"""Makes tables of the rows that the driver measured, one a line on standard input.

document.py             prints each row as it comes
document.py --write FILE PROCESSOR
                        writes the document to FILE, and the plot beside it
"""
import re
import sys
from pathlib import Path
from typing import NamedTuple

import plot

HERE = Path(__file__).resolve().parent

# the calls by table
TABLES = (
    ("encode",),
    ("encode, seed",),
    ("tests",),
    ("tests, seed",),
    ("cut",),
    ("sample",),
    ("valid",),
    ("valid_sq_norm_equal",),
    ("gradient_part", "checked_part", "results_part"),
    ("empty_aggregate",),
    ("accumulate", "merge", "subtract"),
    ("unshard",),
    ("f64_to_field", "field_to_f64", "derive"),
)

# the rows that others refer to
HEADLINES = ("encode", "encode, seed", "tests", "tests, seed", "cut", "sample", "valid", "valid_sq_norm_equal",
             "accumulate", "unshard")
HEADLINE_LENGTHS = (1000, 65536)
USUAL_TESTS = 100

# slower than another way: more than so many times its time, by the median of the repetitions
MARGIN = 1.05


class Times(NamedTuple):
    lower: float
    median: float
    upper: float


class Row(NamedTuple):
    kind: str
    name: str
    length: int
    tests: int | None
    note: str
    of: str
    original: Times | None
    ours: Times | None
    by_hand: Times | None
    reading: Times | None
    # of two ways in the same repetition
    to_original: Times | None
    to_by_hand: Times | None
    to_reading: Times | None

    def text(self):
        tests = f", T = {self.tests}" if self.tests else ""
        note = f", {self.note}" if self.note else ""
        return self.name + tests + note


def parse(line):
    kind, name, length, tests, note, of, *times = line.rstrip("\n").split("\t")
    ways = [Times(*map(float, t.split())) if t else None for t in times]
    return Row(kind, name, int(length), int(tests) if tests else None, note, of, *ways)


def short(x):
    """Three digits."""
    return f"{x:.{3 if x < 1 else 2 if x < 10 else 1 if x < 100 else 0}f}"


def spread(times):
    return f"{short(times.median)} ({short(times.lower)} to {short(times.upper)})" if times else ""


def ratio(times):
    return f"{times.median:.2f}" if times else ""


# A column is its heading, whether it stands to the right, and what it says of a row.
LENGTH = ("length", True, lambda r: str(r.length))
DIMENSION = ("d", True, lambda r: str(r.length))
TESTS = ("T", True, lambda r: str(r.tests))
NOTE = ("which", False, lambda r: r.note)
CALL = ("call", False, lambda r: r.name)
NAME = ("row", False, Row.text)
OF = ("ns for each", False, lambda r: r.of)
ORIGINAL = ("original", False, lambda r: spread(r.original))
OURS = ("ours", False, lambda r: spread(r.ours))
BY_HAND = ("by hand", False, lambda r: spread(r.by_hand))
TO_ORIGINAL = ("original / ours", True, lambda r: ratio(r.to_original))
TO_BY_HAND = ("by hand / ours", True, lambda r: ratio(r.to_by_hand))
TO_READING = ("ours / reading", True, lambda r: ratio(r.to_reading))
TIMES = (ORIGINAL, OURS, BY_HAND, TO_ORIGINAL, TO_BY_HAND, TO_READING)


def lines(cells, right):
    widths = [max(map(len, column)) for column in zip(*cells)]
    for row in cells:
        padded = (c.rjust(w) if r else c.ljust(w) for c, w, r in zip(row, widths, right))
        yield "| " + " | ".join(padded) + " |"


def table(columns, rows):
    headings, right, says = zip(*columns)
    rule = ["---:" if r else "---" for r in right]
    return "\n".join(lines([headings, rule, *([say(r) for say in says] for r in rows)], right))


def headlines(rows):
    def is_one(r):
        return r.name in HEADLINES and r.length in HEADLINE_LENGTHS and r.tests in (None, USUAL_TESTS)

    chosen = sorted(filter(is_one, rows), key=lambda r: (r.length, HEADLINES.index(r.name)))
    return table((NAME, DIMENSION, OF, *TIMES), chosen)


def of_calls(names, rows):
    mine = sorted((r for r in rows if r.name in names), key=lambda r: (r.length, r.tests or 0))
    over_rows = mine[0].of != "call"
    columns = [CALL] if len(names) > 1 else []
    columns += [DIMENSION] if over_rows else []
    columns += [TESTS] if mine[0].tests else []
    columns += [NOTE] if any(r.note for r in mine) else []
    times = TIMES if over_rows else TIMES[:-1]
    return f"### {', '.join(names)}\n\nNanoseconds for each {mine[0].of}.\n\n" + table((*columns, *times), mine)


def of_files(rows):
    """The original has no such calls."""
    return table((CALL, NOTE, OF, OURS, BY_HAND, TO_BY_HAND, TO_READING), rows)


def of_memory(rows):
    reads, copies = ([r for r in rows if r.name == name] for name in ("read", "copy"))
    columns = (
        ("bytes of the row", True, lambda r: size(8 * r[0].length)),
        ("reading, ns for each 8 bytes", False, lambda r: spread(r[0].reading)),
        ("GB/s", True, lambda r: gigabytes(r[0])),
        ("copying, ns for each 8 bytes", False, lambda r: spread(r[1].reading)),
        ("GB/s", True, lambda r: gigabytes(r[1])),
    )
    return table(columns, list(zip(reads, copies)))


def gigabytes(row):
    """A second."""
    return f"{8 / row.reading.median:.1f}"


def size(count):
    return f"{count >> 10} KiB" if count < 1 << 20 else f"{count >> 20} MiB"


def slower(rows, way, of_way, to_way):
    """The rows that take more time than another way, in a table, with their causes, or that there are none."""
    compared = [r for r in rows if of_way(r)]
    behind = [r for r in compared if to_way(r).median * MARGIN < 1]
    said = f"{len(behind)} of {len(compared)} rows take more than {MARGIN} times as long as {way}."
    if not behind:
        return said
    columns = (NAME, LENGTH, OF, OURS, (way, False, lambda r: spread(of_way(r))))
    times = (f"{way} / ours", True, lambda r: ratio(to_way(r)))
    return "\n\n".join((said, table((*columns, times), behind), causes(way, [r.text() for r in behind])))


def written(heading):
    """The part of why.md under this heading."""
    parts = re.split(r"^# (.*)\n", (HERE / "why.md").read_text(), flags=re.MULTILINE)
    return dict(zip(parts[1::2], map(str.strip, parts[2::2])))[heading]


def causes(way, behind):
    """The entries of why.md that name one of these rows, by its whole text or its beginning; then the rows without."""
    def names(entry):
        return re.findall("`([^`]*)`", entry.partition(":")[0])

    def of(name):
        return {text for text in behind if text == name or text.startswith(name + ",")}

    entries = [entry.strip() for entry in re.split(r"^- ", written(way), flags=re.MULTILINE) if entry.strip()]
    shown = [entry for entry in entries if any(map(of, names(entry)))]
    known = {text for entry in shown for name in names(entry) for text in of(name)}
    rest = [text for text in dict.fromkeys(behind) if text not in known]
    return "\n".join(f"- {entry}" for entry in (*shown, *(f"`{text}`: the cause was not sought." for text in rest)))


def document(rows, processor, picture):
    kinds = {kind: [r for r in rows if r.kind == kind] for kind in ("call", "call128", "file", "leaf", "memory")}
    calls, calls128, files, leaves = kinds["call"], kinds["call128"], kinds["file"], kinds["leaf"]
    parts = [
        (HERE / "head.md").read_text().strip(),
        f"Processor: {processor}",
        f"![How many times as fast, by the dimension]({picture})",
        "## The calls at d = 1000 and 65536, T = 100",
        headlines(calls),
        "## Each call over all sizes",
        *(of_calls(names, calls) for names in TABLES),
        "## Over Field128",
        table((NAME, DIMENSION, OF, *TIMES), calls128),
        "## The day's file",
        of_files(files),
        "## Leaf functions, in loops over rows",
        table((NAME, LENGTH, *TIMES), leaves),
        "## Memory, in the same run",
        of_memory(kinds["memory"]),
        "## Slower than by hand",
        slower(calls + calls128 + files + leaves, "by hand", lambda r: r.by_hand, lambda r: r.to_by_hand),
        "## Slower than the original",
        slower(calls + calls128 + leaves, "the original", lambda r: r.original, lambda r: r.to_original),
    ]
    return "\n\n".join(parts) + "\n"


def show(row):
    ways = (f"{way} {spread(t)}" for way, t in zip(("original", "ours", "by hand", "reading"), row[6:10]) if t)
    times = f", original / ours {spread(row.to_original)}" if row.to_original else ""
    print(f"{row.text()}, length {row.length}, ns for each {row.of}: " + ", ".join(ways) + times, flush=True)


def main(words):
    if not words:
        for line in sys.stdin:
            show(parse(line))
        return
    _, file, processor = words
    rows = [parse(line) for line in sys.stdin]
    picture = Path(file).with_name("benchmarks.svg")
    picture.write_text(plot.picture(rows, USUAL_TESTS), encoding="utf-8")
    Path(file).write_text(document(rows, processor, picture.name), encoding="utf-8")


if __name__ == "__main__":
    main(sys.argv[1:])
