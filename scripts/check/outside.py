"""What runs outside the gate still works: the benches, on so little work that their figures mean nothing. And the gate runs all checks
that there are."""

import json
import os
import re
import shutil

from . import counted
from .clients import output_of
from .harness import Server, Skipped, compiler, holds, same, within

TOP = os.path.normpath(os.path.join(os.path.dirname(os.path.realpath(__file__)), "..", ".."))
TOOLS = ["growth_tool", "limits", "load", "redis_load", "slow_sync.so", "stand_in"]
# Two connections: each attaches, makes an array, and sends 20,000 times a settle and 32 calls.
MESSAGES = 2 * (2 + 20_000 * 33)


@within(300)
def loads(place):
    """bench/serve compiles without a warning; its load, which checks each value, works with femem and with the stand-in"""
    for folder in ("bench/serve", "clients/c"):
        shutil.copytree(os.path.join(TOP, folder), place.path(folder), ignore=shutil.ignore_patterns("out"))
    same(output_of(place, ["make", "-s", "-C", place.path("bench/serve"), f"CC={compiler()}"], 120), "")
    out = place.path("bench/serve/out")
    same(sorted(os.listdir(out)), TOOLS)
    checked = 0
    for name, program in (("femem", place.program), ("stand_in", os.path.join(out, "stand_in"))):
        place.program = program
        server = Server(place, name).start()
        found = json.loads(output_of(place, [os.path.join(out, "load"), server.socket, "own", "4", "8", "0.5", "0.1"], 60))
        holds(found["valid"] and found["checked"] > 0, f"{name}: {found}")
        checked += found["checked"]
        server.stop()
    return f"{checked} values"


@within(120)
def beside(place):
    """bench/beside compares a counter with a row of SQLite, whose counts it checks, and a lock with flock"""
    for folder in ("clients/c", "clients/cli"):
        shutil.copytree(os.path.join(TOP, folder), place.path(folder), ignore=shutil.ignore_patterns("out"))
    output_of(place, ["make", "-s", "-C", place.path("clients/cli"), f"CC={compiler()}"], 60)
    words = [os.path.join(TOP, "bench", "beside", "run"), place.program, "--folder", place.folder, "--seconds", "0.3"]
    said = output_of(place, [*words, "--cli", place.path("clients/cli/out/femem-cli")], 60)
    rows = re.findall(r"^\| (.*?) \| [\d,.]+ (?:/s|ms).* \| [\d,.]+ (?:/s|ms).*\|$", said, re.M)
    same(rows, ["a client adds to a counter", "8 clients add to one counter", "a lock around `true`"], said)


@within(900)
def competing_threads(place):
    """bench/hall/threads builds a copy of the hall that reads the clock, and times almost every message, mail and entry"""
    if shutil.which("patch") is None:
        raise Skipped("there is no patch")
    said = output_of(place, ["env", f"CC={compiler()}", os.path.join(TOP, "bench", "hall", "threads"), "1"], 900)
    found = re.findall(r"; (\d+) calls,|^take \d+ ns of (\d+)$|^post \d+ ns an entry of (\d+)$", said, re.M)
    counts = [int("".join(it)) for it in found]
    same(len(counts), 3, said)
    # (holds that lost their processor are left out, with up to a batch of entries each)
    holds(all(0.9 * MESSAGES < count <= MESSAGES for count in counts), said)
    return f"{counts[0]} messages"


def all_run(_place):
    """each check in scripts/check is one of its part's, each part is one that scripts/check_programs runs, and they are as many as are counted"""
    by_part, there = counted.checks()
    run = {it for its in by_part.values() for it in its}
    same(sorted(there - run), [], "checks that no part runs")
    same(sorted(run - there), [], "parts of what is no check")
    return f"{counted.compare('checks', {part: [len(its)] for part, its in by_part.items()})} checks"
