"""Writes bench/results/figures.md, how large the repository is and what the last run of the gate on this machine took, and the tables of
docs/performance.md.

Usage: scripts/figures

The gate leaves its last line, its log and its costs in out/gate, and scripts/plant what it found in out/plant. Where they left nothing,
as in a new clone, the page keeps what it has of them. So do the parts `coverage` and `fuzz` of scripts/check_programs, in out/figures. A text of bench/results has what a bench of that name printed last, with when
and where, and is written anew with each figure that changes. No figure of these two is written by hand.
"""

import glob
import os
import re
import subprocess
from pathlib import Path

from . import pages, planted, record

TOP = pages.TOP
PAGE = os.path.join(TOP, "bench", "results", "figures.md")
SPEED = os.path.join(TOP, "docs", "performance.md")
GATE = os.path.join(TOP, "out", "gate")
BENCHES = ("serve", "beside", "clients", "histories", "hall")


def lines_of(crate, folder):
    """The lines of a crate's `src`, `specs` or `proofs` that are not empty."""
    found = glob.glob(os.path.join(TOP, "crates", crate, folder, "**", "*.[ra]*t*"), recursive=True)
    count = 0
    for path in found:
        with open(path, encoding="utf-8") as file:
            count += sum(1 for line in file if line.strip())
    return count


def text_of(crate):
    """The sources of a crate."""
    text = ""
    for path in sorted(glob.glob(os.path.join(TOP, "crates", crate, "src", "**", "*.rt"), recursive=True)):
        text += Path(path).read_text("utf-8")
    return text


def crates():
    """The crates, in the order of crates.txt."""
    return re.findall(r"^(\w+)", Path(os.path.join(TOP, "crates.txt")).read_text("utf-8"), re.M)


def counts(crate):
    """Lines of `src`, `specs` and `proofs`, functions, clauses, tests, and must-fail edits."""
    text = text_of(crate)
    functions = len(re.findall(r"^\s*(?:pub(?:\([a-z]+\))? )?(?:const )?(?:unsafe )?fn \w+", text, re.M))
    clauses = len(re.findall(r"^\s*(?:ensures|requires)\b", text, re.M))
    tests = len(re.findall(r"#\[test\]", text))
    edits = len(glob.glob(os.path.join(TOP, "crates", crate, "must-fail", "*.edit")))
    return [*(lines_of(crate, it) for it in ("src", "specs", "proofs")), functions, clauses, tests, edits]


def row(cells):
    return "| " + " | ".join(str(it) for it in cells) + " |"


def size():
    """The table of sizes."""
    rows = [(crate, counts(crate)) for crate in crates()]
    total = [sum(column) for column in zip(*(it for _, it in rows))]
    yield row(("crate", "`src`", "`specs`", "`proofs`", "functions", "clauses", "tests", "edits"))
    yield "|---|" + "---|" * 7
    for crate, found in [*((f"`{crate}`", it) for crate, it in rows), ("together", total)]:
        yield row((crate, *(f"{it:,}" if it else "" for it in found)))


def costs(path):
    """The costs of a run: its seconds of the clock, and from crate and kind to seconds of a processor."""
    with open(path, encoding="ascii") as file:
        (_, seconds), *rest = (line.rstrip("\n").split(" ", 1) for line in file)
    found = {}
    for crate, said in rest:
        kind, spent = said.split()
        found[crate, kind] = float(spent)
    return int(seconds), found


def minutes(seconds):
    return f"{seconds / 60:.1f}" if seconds else ""


def of_processes():
    """The processor seconds of the last gate's parts but `rt ci`, with the processes that they started."""
    with open(os.path.join(GATE, "spent"), encoding="ascii") as file:
        so_far = [float(line.split()[0]) for line in file]
    return so_far[-1] - so_far[0]


def chain(found):
    """The dearest chain of crates, each of which stands on the one before: its seconds and its crates. None if the gate did not prove
    all crates in that run."""
    listed = re.findall(r"^(\w+)[^:\n]*:(.*)$", Path(os.path.join(TOP, "crates.txt")).read_text("utf-8"), re.M)
    dearest = {}
    for crate, below in listed:
        if not crate.startswith("test_"):
            if (crate, "proofs") not in found:
                return None
            seconds, names = max([dearest[it] for it in below.split() if it in dearest], default=(0, []))
            dearest[crate] = (seconds + found[crate, "proofs"], [*names, crate])
    return max(dearest.values())


def section(heading, path=PAGE):
    """The lines of a section of a page as it is, without its heading and the empty lines around them."""
    with open(path, encoding="utf-8") as file:
        found = re.search(rf"^## {heading}\n\n(.*?)\n*(?=^## |\Z)", file.read(), re.M | re.S)
    return found[1].split("\n") if found else []


def gate():
    """What the last gate took."""
    if not all(os.path.exists(os.path.join(GATE, it)) for it in ("last", "costs", "commit", "spent")):
        yield from section("The last gate")
        return
    last = Path(os.path.join(GATE, "last")).read_text("utf-8").strip().splitlines()
    seconds, found = costs(os.path.join(GATE, "costs"))
    of_kind = lambda kind: sum(spent for (_, it), spent in found.items() if it == kind)
    commit, processors = Path(os.path.join(GATE, "commit")).read_text("ascii").split()
    yield f"Commit {commit[:12]}, {record.said('rt', 'version')}, {processors} processors:"
    yield ""
    yield from (f"- {it}" for it in last)
    yield (
        f"- {seconds / 60:.0f} minutes of the clock; the prover took {sum(found.values()) / 60:.0f} processor minutes: {of_kind('proofs') / 60:.0f} for"
        f" crates, {of_kind('tests') / 60:.0f} for tests, {of_kind('edits') / 60:.0f} for must-fail edits; the checks of real processes"
        f" took {of_processes() / 60:.0f}"
    )
    if dearest := chain(found):
        yield f"- the dearest chain of crates took {dearest[0] / 60:.1f} processor minutes: {' < '.join(f'`{it}`' for it in dearest[1])}"
    yield ""
    yield "A cell without a figure: nothing is there, or an earlier run on that machine did it, and it was kept."
    yield ""
    yield row(("crate", "proofs, in processor minutes", "tests", "edits"))
    yield "|---|---|---|---|"
    for crate in crates():
        yield row((f"`{crate}`", *(minutes(found.get((crate, kind), 0)) for kind in ("proofs", "tests", "edits"))))


def left(heading, name, *head):
    """A table of what parts of scripts/check_programs left in out/figures, or else the page has, of the files that are there."""
    texts = ["\n".join(section(heading))]
    for path in sorted(glob.glob(os.path.join(TOP, "out", "figures", f"{name}-*"))):
        texts.append(Path(path).read_text("utf-8"))
    found = {name: line for text in texts for line, name in re.findall(r"^(\| `([^`]+)` \|.*)$", text, re.M)}
    yield from (row(head), "|---|" + "---|" * (len(head) - 1))
    yield from (line for name, line in sorted(found.items()) if os.path.exists(os.path.join(TOP, name)))


def wrong_bodies():
    """What scripts/plant found in each crate that it was run in."""
    found = planted.figures()
    if not found:
        yield from section("Wrong bodies")[2:]
        return
    yield row(("crate", "functions", "bodies tried", "refused", "proved, and explained", "without a clause, and explained", "text"))
    yield "|---|" + "---|" * 6
    for crate, (counts, is_present) in found.items():
        tried = sum(counts[it] for it in ("proves", "same", "refused"))
        cells = (counts["planted-in"], tried, counts["refused"], counts["proves"], counts["no-ensures"])
        yield row((f"`{crate}`", *(f"{it:,}" if it else "" for it in cells), "this" if is_present else "an earlier one"))
    absent = [it for it in planted.crates() if it not in found]
    if absent:
        yield ""
        yield f"Not tried: {', '.join(f'`{it}`' for it in absent)}."


def speed():
    """What each bench printed last."""
    for name in BENCHES:
        with open(os.path.join(TOP, "bench", "results", f"{name}.txt"), encoding="utf-8") as file:
            yield from (*file.read().rstrip("\n").split("\n"), "")


def performance():
    """docs/performance.md with the tables of today, its last section."""
    with open(SPEED, encoding="utf-8") as file:
        before = file.read().partition("\n## Tables\n")[0]
    return "\n".join([before, "## Tables", "", *speed()]).rstrip("\n") + "\n"


def words():
    """The words of each document."""
    listed = subprocess.run(["git", "-C", TOP, "ls-files", "*.md"], capture_output=True, text=True, check=True).stdout.split()
    found = {}
    for name in listed:
        if name != os.path.relpath(PAGE, TOP):
            found[name] = len(Path(os.path.join(TOP, name)).read_text("utf-8").split())
    yield row(("document", "words"))
    yield "|---|---|"
    yield from (row((f"`{name}`", f"{count:,}")) for name, count in sorted(found.items(), key=lambda it: -it[1]))
    yield row(("together", f"{sum(found.values()):,}"))


def page():
    """The page, from the sources and from what the last gate left."""
    parts = [
        "# Figures", "",
        "Written by `make figures`. Sizes are of this text, and counts of the last gate of the commit that it names. Times are of one machine and one hour: hosts vary by 1.7 times, so compare"
        " two texts in one hour.", "",
        "## Size", "", "Lines that are not empty.", "", *size(), "",
        "## The last gate", "", *gate(), "",
        "## Wrong bodies", "",
        "What `rt plant` tried and could judge. Tried bodies in no later column give, by the contract, the"
        " same as the right one. `scripts/planted.txt` says why the explained ones do no harm.", "", *wrong_bodies(), "",
        "## Coverage", "",
        "Of the clients, by their tests: gcov and coverage.py, when `scripts/check_programs PROGRAM coverage` was run last. Killed processes leave no counts, and the tries of all"
        " schedules are left out (`scripts/check/coverage.py`), so more is run than is said here.", "",
        *left("Coverage", "coverage", "file", "lines", "run", "branches", "taken", "lines that are never run"), "",
        "## Fuzzing", "", "Of the clients' readers of foreign bytes, when `scripts/check_programs PROGRAM fuzz` was run last.", "", *left("Fuzzing", "fuzz", "fuzzer", "seconds", "runs", "edges", "findings"), "",
        "## Documents", "", *words(),
    ]
    return "\n".join(parts) + "\n"


def main():
    # (the other page counts the words of this one)
    for path, text in ((SPEED, performance), (PAGE, page)):
        made = text()
        Path(path).write_text(made, "utf-8")
        print(os.path.relpath(path, TOP))
