"""How many checks and tests there are, file by file, so that none leaves unseen: counted.txt, which scripts/counts writes.

A line is a kind, a name, and a count for each time that it runs: `c frames 463 463` runs plain, and with the sanitizers. A count with a
plus is the least."""

import importlib
import os
import re
import subprocess
import sys

from .harness import checks_in, checks_of, holds
from .texts import TOP, matching, text_of

FILE = "scripts/check/counted.txt"
PYTHON = os.path.join(TOP, "clients", "python")
LINE_C = re.compile(r"^femem client(?:,| with) (?:a |its |the )?([a-z ]+): (\d+) (?:checks|scenarios), 0 failed$", re.M)
LINE_CLI = re.compile(r"^femem-cli, test_([a-z_]+): (\d+) checks, 0 failed$", re.M)
# How many calls this test stops at depends on the session's number, which is drawn.
AT_LEAST = {"order_of_calls": 2500}


def known(kind):
    """The counts of a kind, by name, as they are written."""
    rows = [line.split(" ", 2) for line in text_of(FILE).splitlines()]
    return {name: counts for its, name, counts in rows if its == kind}


def spelled(counts, name=""):
    """Counts as they are written."""
    least = AT_LEAST.get(name, 0)
    return " ".join(f"{least}+" if 0 < least <= it else str(it) for it in counts)


def compare(kind, found):
    """Whether that many ran. Returns how many."""
    due, ran = known(kind), {name: spelled(counts, name) for name, counts in found.items()}
    wrong = [f"{kind} {it}: {ran.get(it)}, and {FILE} has {due.get(it)}" for it in sorted({*due, *ran}) if ran.get(it) != due.get(it)]
    holds(not wrong, "\n        ".join([*wrong, "if that is meant, let scripts/counts write the file anew"]))
    return sum(map(sum, found.values()))


def printed(line, said):
    """The counts that lines of this form give."""
    found = {}
    for name, count in line.findall(said):
        found.setdefault(name.replace(" ", "_"), []).append(int(count))
    return {name: sorted(counts) for name, counts in found.items()}


def checks():
    """The checks that scripts/check_programs runs, and those that there are, by part and module."""
    programs = text_of("scripts/check_programs")
    parts = re.findall(r'"(\w+)"', re.search(r"^PARTS = \((.*?)^\)", programs, re.M | re.S)[1] + re.search(r"^NAMED = \{(.*?)^\}", programs, re.M | re.S)[1])
    run, there = {}, set()
    for path in matching("scripts/check/*.py"):
        name = os.path.basename(path).removesuffix(".py")
        there |= {f"{name}.{it.__name__}" for it in checks_in(importlib.import_module(f"check.{name}"))}
        if name in parts:
            run[name] = [f"{it.__module__.removeprefix('check.')}.{it.__name__}" for it in checks_of(name)]
    return run, there


def tests_in_python():
    """How many tests each file of the Python client's has, as unittest loads them."""
    script = "import sys, unittest\n" + "".join(f"sys.path.insert(0, {it!r})\n" for it in (PYTHON, os.path.join(PYTHON, "tests")))
    script += "for name in sys.argv[1:]: print(name[5:], unittest.defaultTestLoader.loadTestsFromName(name).countTestCases())"
    names = [os.path.basename(it).removesuffix(".py") for it in matching("clients/python/tests/test_*.py")]
    ran = subprocess.run([sys.executable, "-B", "-c", script, *names], capture_output=True, text=True, check=True)
    return {name: [int(count)] for name, count in (line.split() for line in ran.stdout.splitlines())}


def run_by(folder, line, *words):
    """The counts that `make test` of a client prints."""
    ran = subprocess.run(["make", "-s", "-C", os.path.join(TOP, "clients", folder), "test", *words], capture_output=True, text=True, check=True)
    return printed(line, ran.stdout)


def write(program=None):
    """Writes the file."""
    found = {"checks": {name: [len(it)] for name, it in checks()[0].items()}, "python": tests_in_python()}
    found |= {"c": run_by("c", LINE_C), "cli": run_by("cli", LINE_CLI, f"PROGRAM={program}")} if program else {}
    rows = {kind: {name: spelled(counts, name) for name, counts in its.items()} for kind, its in found.items()}
    rows |= {kind: known(kind) for kind in ("c", "cli") if kind not in rows}
    with open(os.path.join(TOP, FILE), "w", encoding="ascii") as file:
        file.writelines(f"{kind} {name} {counts}\n" for kind, its in sorted(rows.items()) for name, counts in sorted(its.items()))
