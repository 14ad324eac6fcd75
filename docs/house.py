#!/usr/bin/env python3
"""Draws house.svg, beside this file, from crates.txt: a crate is a box, by layer, and a line leads down to what it
stands on (what follows from other lines is left out). The crates with public calls are those that the table in
README.md, "The calls", names.

    python3 docs/house.py            writes house.svg
    python3 docs/house.py --check    says whether house.svg is up to date, by its exit status
"""

import re
import sys
from pathlib import Path
from typing import NamedTuple

DOCS = Path(__file__).resolve().parent
ROOT = DOCS.parent
ARCHIVE = "pine_c"
WIDTH, MARGIN, HEAD, BOX, STEP, GAP = 940, 20, 96, 30, 76, 16

STYLE = """<style>
  .card { fill: #ffffff } text { fill: #24292f; font: 13px sans-serif } .title { font-size: 16px; font-weight: bold }
  .line { fill: none; stroke: #8c959f; stroke-width: 1.2 } .box { stroke: #8c959f; fill: #f6f8fa }
  .call { stroke: #0969da; stroke-width: 2; fill: #ddf4ff } .program { stroke: #1a7f37; stroke-width: 2; fill: #dafbe1 }
  .archive { stroke: #8250df; stroke-width: 2; fill: #fbefff }
  @media (prefers-color-scheme: dark) {
    .card { fill: #0d1117 } text { fill: #e6edf3 } .line { stroke: #6e7681 } .box { stroke: #6e7681; fill: #161b22 }
    .call { stroke: #58a6ff; fill: #0c2d6b } .program { stroke: #3fb950; fill: #033a16 }
    .archive { stroke: #bc8cff; fill: #3c1e70 }
  }
</style>"""

LEGEND = [("call", "public calls"), ("archive", "the archive for C"), ("program", "a program"), ("box", "inside")]


class Node(NamedTuple):
    """A crate; or, with no name, where the lines that lead down to `foot` go through a layer."""

    layer: int
    name: str
    foot: str = ""

    def width(self) -> float:
        return 22 + 7.6 * len(self.name) if self.name else 0


def apart(left: Node, right: Node) -> float:
    """How far two neighbours in a row are apart, from middle to middle, at the least."""
    return (left.width() + right.width()) / 2 + GAP


def read_crates() -> dict[str, list[str]]:
    lines = (line.split("#")[0] for line in (ROOT / "crates.txt").read_text().splitlines())
    listed = {name.split()[0]: below for name, below in (line.split(":") for line in lines if ":" in line)}
    return {name.strip(): [d for d in deps.split() if d in listed] for name, deps in listed.items()}


def read_public() -> set[str]:
    calls = (ROOT / "README.md").read_text().split("## The calls")[1].split("\n## ")[0]
    return set(re.findall(r"^\| `(\w+)::", calls, re.MULTILINE))


def kind_of(name: str, public: set[str]) -> str:
    if name == ARCHIVE:
        return "archive"
    if (ROOT / "crates" / name / "src" / "main.rt").exists():
        return "program"
    return "call" if name in public else "box"


def below(crates: dict[str, list[str]]) -> dict[str, set[str]]:
    """All that a crate stands on, directly or not."""
    found: dict[str, set[str]] = {}

    def visit(name: str) -> set[str]:
        if name not in found:
            found[name] = set(crates[name]).union(*(visit(dep) for dep in crates[name]))
        return found[name]

    for name in crates:
        visit(name)
    return found


def layers_of(crates: dict[str, list[str]]) -> dict[str, int]:
    under = below(crates)
    layers: dict[str, int] = {}
    for name in sorted(crates, key=lambda name: len(under[name])):
        layers[name] = max((layers[dep] + 1 for dep in crates[name]), default=0)
    return layers


def drawing(crates: dict[str, list[str]]) -> tuple[list[list[Node]], list[list[Node]]]:
    """The rows of nodes, lowest first, and each line as the nodes that it goes through, from above."""
    under, layers = below(crates), layers_of(crates)
    rows: list[list[Node]] = [[] for _ in range(max(layers.values()) + 1)]
    for name, layer in layers.items():
        rows[layer].append(Node(layer, name))
    lines = []
    for name, deps in crates.items():
        for dep in deps:
            if any(dep in under[other] for other in deps):
                continue
            bends = [Node(layer, "", dep) for layer in range(layers[name] - 1, layers[dep], -1)]
            for bend in bends:
                if bend not in rows[bend.layer]:
                    rows[bend.layer].append(bend)
            lines.append([Node(layers[name], name), *bends, Node(layers[dep], dep)])
    return rows, lines


def width_of(rows: list[list[Node]]) -> float:
    """WIDTH, or more where a row needs it."""
    needed = (sum(node.width() + GAP for node in row) - GAP for row in rows)
    return max(WIDTH, 2 * MARGIN + max(needed))


def place(rows: list[list[Node]], lines: list[list[Node]], width: float) -> dict[Node, float]:
    """The middle of each node: rows ordered by the means of their neighbours, then drawn towards these."""
    near: dict[Node, list[Node]] = {node: [] for row in rows for node in row}
    for line in lines:
        for upper, lower in zip(line, line[1:]):
            near[upper].append(lower)
            near[lower].append(upper)
    x: dict[Node, float] = {}

    def settle(row: list[Node], wanted: dict[Node, float]) -> None:
        """Puts a row's nodes near to where they want to be, in its order and inside the picture."""
        right = [wanted[row[0]]]
        for before, node in zip(row, row[1:]):
            right.append(max(wanted[node], right[-1] + apart(before, node)))
        left = [wanted[row[-1]]]
        for after, node in zip(row[::-1], row[-2::-1]):
            left.append(min(wanted[node], left[-1] - apart(node, after)))
        for node, a, b in zip(row, right, left[::-1]):
            x[node] = (a + b) / 2
        edge = MARGIN + row[0].width() / 2
        for node, after in zip(row, [*row[1:], None]):
            x[node] = max(x[node], edge)
            edge = x[node] + apart(node, after) if after else edge
        edge = width - MARGIN - row[-1].width() / 2
        for node, before in zip(row[::-1], [*row[-2::-1], None]):
            x[node] = min(x[node], edge)
            edge = x[node] - apart(before, node) if before else edge

    for row in rows:
        settle(row, {node: width * (i + 1) / (len(row) + 1) for i, node in enumerate(row)})
    for turn in range(60):
        for row in rows if turn % 2 else reversed(rows):
            side = 1 if turn % 2 else -1
            mean = {}
            for node in row:
                others = [x[n] for n in near[node] if turn >= 40 or (n.layer - node.layer) * side < 0]
                mean[node] = sum(others) / len(others) if others else x[node]
            if turn < 40:
                row.sort(key=lambda node: mean[node])
            settle(row, mean)
    return x


def svg() -> str:
    crates, public = read_crates(), read_public()
    rows, lines = drawing(crates)
    width = width_of(rows)
    x = place(rows, lines, width)
    height = HEAD + STEP * (len(rows) - 1) + BOX + MARGIN

    def top(node: Node) -> float:
        return HEAD + STEP * (len(rows) - 1 - node.layer)

    size = f'viewBox="0 0 {width} {height}" width="{width}" height="{height}"'
    out = [f'<svg xmlns="http://www.w3.org/2000/svg" {size}>']
    out += [STYLE, f'<rect class="card" width="{width}" height="{height}"/>']
    title = "The crates: a line leads down to what a crate stands on"
    out.append(f'<text x="{width / 2}" y="30" text-anchor="middle" class="title">{title}</text>')
    left = 150.0
    for kind, text in LEGEND:
        out.append(f'<rect class="{kind}" x="{left}" y="50" width="26" height="16" rx="4"/>')
        out.append(f'<text x="{left + 34}" y="63">{text}</text>')
        left += 66 + 7.2 * len(text) + 30
    for line in lines:
        path = f"M{x[line[0]]:.1f} {top(line[0]) + BOX}"
        for upper, lower in zip(line, line[1:]):
            start, end = top(upper) + BOX, top(lower)
            mid = (start + end) / 2
            path += f" C{x[upper]:.1f} {mid} {x[lower]:.1f} {mid} {x[lower]:.1f} {end}"
            if not lower.name:
                path += f" V{end + BOX}"
        out.append(f'<path class="line" d="{path}"/>')
    for node in (node for row in rows for node in row if node.name):
        w = node.width()
        kind = kind_of(node.name, public)
        left = x[node] - w / 2
        out.append(f'<rect class="{kind}" x="{left:.1f}" y="{top(node)}" width="{w:.1f}" height="{BOX}" rx="5"/>')
        out.append(f'<text x="{x[node]:.1f}" y="{top(node) + 20}" text-anchor="middle">{node.name}</text>')
    return "\n".join([*out, "</svg>", ""])


def main() -> None:
    target = DOCS / "house.svg"
    if sys.argv[1:] == ["--check"]:
        sys.exit(0 if target.read_text() == svg() else "house.svg is not up to date: python3 docs/house.py")
    target.write_text(svg())


main()
