"""Which lines and branches of the clients their tests run: in C by gcov, in Python by coverage.py. The rows go into out/figures, from
which `make figures` writes bench/results/figures.md. A process that is killed leaves no counts. The tries of all schedules are left out:
the model of the line, whose own system calls stand where gcov would write, and test_interleavings.py, which would take an hour."""

import glob
import json
import os
import re
import shutil
import subprocess
from collections import defaultdict
from concurrent.futures import ThreadPoolExecutor

from .clients import CLIENTS, output_of
from .harness import Skipped, compiler, holds, within
from .texts import TOP, text_of

FLAGS = ("CFLAGS=-O0 -g --coverage -D_exit=exit", "SANITIZERS=-O0 --coverage -D_exit=exit")  # (gcov writes its counts at `exit`)
PYTHON = "/usr/bin/python3"
# Each Python that a test starts counts too, and counts again once a test has traced by itself.
COUNTS = b"""
import coverage, sys
coverage.process_startup()
own, real = sys.gettrace(), sys.settrace
sys.settrace = lambda function: real(own if function is None else function)
"""


def ranges(lines):
    """Numbers of lines as `3, 5-7`."""
    found = []
    for it in sorted(lines):
        found = [*found[:-1], (found[-1][0], it)] if found and it == found[-1][1] + 1 else [*found, (it, it)]
    return ", ".join(str(a) if a == b else f"{a}-{b}" for a, b in found)


def leave(name, rows):
    """Leaves rows of a table for `make figures`."""
    os.makedirs(os.path.join(TOP, "out", "figures"), exist_ok=True)
    with open(os.path.join(TOP, "out", "figures", name), "w", encoding="utf-8") as file:
        file.writelines(f"| {' | '.join(it)} |\n" for it in rows)


def left(name, found):
    """Leaves the rows of a client, from a file to its lines, with whether each was run, and how many branches it has and of these were taken."""
    rows, ran, count = [], 0, 0
    for file, (lines, branches, taken) in sorted(found.items()):
        its = sum(lines.values())
        ran, count = ran + its, count + len(lines)
        shares = [f"{100 * part // whole} %" if whole else "" for part, whole in ((its, len(lines)), (taken, branches))]
        rows.append((f"`{file}`", f"{len(lines)}", shares[0], f"{branches}", shares[1], ranges(at for at, was in lines.items() if not was)))
    leave(f"coverage-{name}", rows)
    holds(ran >= 0.8 * count, f"{ran} of {count} lines")
    return f"{ran} of {count} lines"


@within(1800)
def c(place):
    """the tests of the C client, those with a real server and with kills too, run most of its lines"""
    compiler()
    top = shutil.copytree(CLIENTS, place.path("clients"), ignore=shutil.ignore_patterns("out"))
    tests = re.search(r"^TESTS := (.*)$", text_of("clients/c/Makefile"), re.M)[1].split()
    words = ["make", "-s", "-k", "-j2", "-C", os.path.join(top, "c"), *FLAGS, f"PROGRAM={place.program}"]
    failed = place.start([*words, *(f"run_test_{it}" for it in tests), "check", "check_kills"], "make", group=True).wait()
    lines, branches = defaultdict(lambda: defaultdict(int)), defaultdict(lambda: defaultdict(int))
    notes = glob.glob(os.path.join(top, "c", "out", "*.gcno"))
    ran = subprocess.run(["gcov", "--json-format", "--branch-probabilities", "--stdout", *notes], cwd=os.path.join(top, "c"), capture_output=True, check=True)
    for report in filter(None, ran.stdout.splitlines()):
        for file in json.loads(report)["files"]:
            if "/" not in file["file"] and not file["file"].startswith(("test_", "check_", "model", "counter", "old")) and file["file"].endswith(".c"):
                for line in file["lines"]:
                    lines[file["file"]][line["line_number"]] += line["count"]
                    for at, branch in enumerate(line["branches"]):
                        branches[file["file"]][line["line_number"], at] += branch["count"]
    found = {}
    for name, its in lines.items():
        found[f"clients/c/{name}"] = ({at: count > 0 for at, count in its.items()}, len(branches[name]), sum(count > 0 for count in branches[name].values()))
    return left("c", found) + ", a test failed" * bool(failed)


@within(5400)
def python(place):
    """the tests of the Python client run most of its lines"""
    if subprocess.run([PYTHON, "-c", "import coverage"], capture_output=True, check=False).returncode:
        raise Skipped("there is no python3-coverage")
    place.write("sitecustomize.py", COUNTS)
    rules = place.write("rules", f"[run]\nbranch = true\nparallel = true\nsource = {CLIENTS}/python/femem\ndata_file = {place.path('data')}\n".encode())
    env = {"COVERAGE_PROCESS_START": rules, "PYTHONPATH": place.folder, "FEMEM_PROGRAM": place.program, "FEMEM_PATIENCE": "10"}
    tests = os.path.join(CLIENTS, "python", "tests")
    names = sorted({os.path.basename(it) for it in glob.glob(os.path.join(tests, "test_*.py"))} - {"test_interleavings.py"})

    def run(name):
        return place.start([PYTHON, "-W", "ignore", "-m", "unittest", "discover", "-s", tests, "-p", name], name, env, group=True).wait()

    with ThreadPoolExecutor(2) as pool:
        failed = [name for name, status in zip(names, pool.map(run, names)) if status]
    for words in (["combine", "-q"], ["json", "-q", "-o", place.path("found")]):
        output_of(place, [PYTHON, "-m", "coverage", words[0], f"--rcfile={rules}", *words[1:]], 300)
    found = {}
    for path, its in json.loads(place.read("found"))["files"].items():
        if lines := {at: True for at in its["executed_lines"]} | {at: False for at in its["missing_lines"]}:
            found[os.path.relpath(path, TOP)] = (lines, its["summary"]["num_branches"], its["summary"]["covered_branches"])
    # (a client that is counted is some times slower, so a test that bounds its time may fail)
    return left("python", found) + "".join(f", {it} failed" for it in failed)
