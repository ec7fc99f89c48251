"""The wrong bodies that `rt plant` tries: what it says of a crate, and the rows that scripts/planted.txt explains."""

import hashlib
import os
import re
from pathlib import Path

from . import pages, record

TOP = pages.TOP
OUT = os.path.join(TOP, "out", "plant")
EXPLAINED = os.path.join(TOP, "scripts", "planted.txt")
ROW = re.compile(r"(proves|no-ensures) +src/\S+:\d+ (.*)")
LAST = re.compile(r"plants crate=(\w+) (.*)")


def crates():
    """The crates but those of tests, lowest first."""
    with open(os.path.join(TOP, "crates.txt"), encoding="utf-8") as file:
        return [it for it in re.findall(r"^(\w+)", file.read(), re.M) if not it.startswith("test_")]


def sources(crate):
    """A sum over what a crate's contracts and bodies are."""
    found = []
    for part in ("src", "specs"):
        for folder, _, names in os.walk(os.path.join(TOP, "crates", crate, part)):
            found += [os.path.join(folder, it) for it in names]
    lines = "".join(f"{record.sum_of(it)}  {os.path.relpath(it, TOP)}\n" for it in sorted(found))
    return hashlib.sha256(lines.encode()).hexdigest()


def explained():
    """The explained rows: from crate to a list of `KIND FUNCTION..`, as `rt plant` writes them but for file and line."""
    found = {}
    with open(EXPLAINED, encoding="utf-8") as file:
        lines = [it.rstrip("\n") for it in file if it.strip() and not it.startswith("#")]
    for line, after in zip(lines, [*lines[1:], ""]):
        if line.startswith(" "):
            continue
        crate, row = line.split(" ", 1)
        if not after.startswith("    "):
            raise SystemExit(f"{EXPLAINED}: {line}: there is no reason below it")
        found.setdefault(crate, []).append(row)
    return found


def rows_of(said):
    """The rows `proves` and `no-ensures` in what `rt plant` said, without file and line."""
    return [f"{it[1]} {it[2]}" for it in map(ROW.fullmatch, said.splitlines()) if it]


def counts_of(said):
    """The counts of its last line, or None if it did not come to its end."""
    found = LAST.fullmatch((said.strip().splitlines() or [""])[-1])
    return {name: int(count) for name, count in re.findall(r"([\w-]+)=(\d+)", found[2])} if found else None


def faults_of(crate, said, known):
    """What is wrong with what `rt plant` said of a crate."""
    counts = counts_of(said)
    if counts is None:
        return [f"it did not come to its end: {said.strip()[-500:]}"]
    rows, known = rows_of(said), known.get(crate, [])
    faults = [f"not explained: {it}" for it in sorted(set(rows) - set(known))]
    faults += [f"explained, and it did not come: {it}" for it in sorted(set(known) - set(rows))]
    if counts["planted-in"] and not counts["refused"]:
        faults.append("no body was refused")
    if counts["not-run"]:
        faults.append(f"{counts['not-run']} bodies were not tried")
    return faults


def write(crate, said, before):
    """Keeps what a run found, if the crate has not changed since it began."""
    if counts_of(said) is not None and sources(crate) == before:
        os.makedirs(OUT, exist_ok=True)
        Path(os.path.join(OUT, crate)).write_text(f"{before}\n{said}", "utf-8")


def figures():
    """From crate to the counts of its last run, and whether that was of its present text."""
    found = {}
    for crate in crates():
        path = os.path.join(OUT, crate)
        if os.path.exists(path):
            was, said = Path(path).read_text("utf-8").split("\n", 1)
            found[crate] = (counts_of(said), was == sources(crate))
    return found
