"""Figures: bench/results/figures.md and the tables of docs/performance.md are what `make figures` would write of this text, and what other
pages quote is there."""

import re

from .harness import holds, same
from .manuals import pages  # noqa: F401  (this sets the path of release)
from .tables import rows

from release import figures  # noqa: E402

PAGE = "docs/performance.md"


def cells(lines):
    """The rows of a table that has these lines, from the first cell to the others."""
    found = [[cell.strip().replace("`", "") for cell in line.strip("|").split("|")] for line in lines if line.startswith("|")]
    return {row[0]: row[1:] for row in found[2:]}


def value(cell):
    return float(cell.replace(",", "") or 0)


def generated(_place):
    """docs/performance.md has just what bench/results has, and figures.md there today's sizes of sources and documents within 5 % (`make figures`)"""
    speed = "\n".join(figures.speed()).strip()
    same("\n".join(figures.section("Tables", figures.SPEED)), speed, "Tables")
    count = len(re.findall(r"^\| [^|]*\d", speed, re.M))
    for heading, lines in (("Size", figures.size()), ("Documents", figures.words())):
        found, wanted = cells(figures.section(heading)), cells(list(lines))
        same(sorted(found), sorted(wanted), f"rows of {heading}: run `make figures`")
        for name, row in wanted.items():
            same(len(found[name]), len(row), name)
            near = all(abs(value(a) - value(b)) <= value(b) // 20 for a, b in zip(found[name], row))
            holds(near, f"{heading}: {name}: {found[name]}, not {row}: run `make figures`")
        count += len(wanted)
    return f"{count} rows"


# How the README's rows begin, and what the loads of docs/performance.md have, in their order.
LOADS = (("a client adds", "1 x 1"), ("64 clients do, a call", "64 x 1"), ("64 clients do, 32 calls", "64 x 32"), ("a hand-off", "hand-off"))


def speeds(_place):
    """each figure of speed in the README's table is one of the same row of docs/performance.md, femem's and Redis'"""
    measured = [[row[0], *row[2:4]] for row in rows(PAGE, "| load, clients x window |")]
    shown = [[cell.removesuffix(" /s") for cell in row] for row in rows("README.md", "| | femem | Redis |")]
    for (begin, load), row, wanted in zip(LOADS, shown, measured, strict=True):
        holds(row[0].startswith(begin) and load in wanted[0], f"README.md has {row[0]} where {PAGE} has {wanted[0]}")
        same(row[1:], wanted[1:], f"README.md: {row[0]}")
    return f"{len(shown)} rows"
