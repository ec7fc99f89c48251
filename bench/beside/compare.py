"""Compares femem with a row of SQLite and with flock. Prints a Markdown table.

All keep their files in one folder. SQLite has a write-ahead log and syncs it at each commit (`synchronous=FULL`), as femem does at each
group. Both are called from Python, each client a process of its own, and each counter is checked in the end. A lock is taken around
`true` by a new process each time: `flock FILE true` and `femem-cli lock NAME -- true`. flock stores nothing.
"""

import argparse
import os
import pathlib
import sqlite3
import statistics
import subprocess
import sys
import tempfile
import time

ROOT = pathlib.Path(__file__).resolve().parents[2]
sys.path.insert(0, str(ROOT / "clients" / "python"))

from femem import Client  # noqa: E402
from femem.patterns import Counter  # noqa: E402

CLIENTS = (1, 8)


def adds_to_femem(socket):
    """Adds 1 to a counter of femem."""
    counter = Counter(Client(socket), "hits")
    return counter.add


def adds_to_sqlite(file):
    """Adds 1 to a row of SQLite."""
    base = sqlite3.connect(file, timeout=60, isolation_level=None)
    base.execute("PRAGMA synchronous=FULL")
    return lambda: base.execute("UPDATE counter SET hits = hits + 1")


def work(kind, path, seconds):
    """A client: prints how often it added, and the median time of it in microseconds."""
    add = {"femem": adds_to_femem, "sqlite": adds_to_sqlite}[kind](path)
    took, end = [], time.monotonic() + seconds
    while time.monotonic() < end:
        began = time.perf_counter()
        add()
        took.append(time.perf_counter() - began)
    print(len(took), statistics.median(took) * 1e6)


def measured(kind, path, clients, seconds):
    """How often the clients added in a second, all together, the median time of one in microseconds, and how often in all."""
    words = [sys.executable, __file__, "--work", kind, path, "--seconds", str(seconds)]
    started = [subprocess.Popen(words, stdout=subprocess.PIPE, text=True) for _ in range(clients)]
    said = [it.communicate()[0].split() for it in started]
    counts = [int(it[0]) for it in said]
    return sum(counts) / seconds, statistics.median(float(it[1]) for it in said), sum(counts)


def counters(folder, socket, seconds):
    """The rows of the table on counters. Each count is compared with what is stored."""
    file = os.path.join(folder, "counter.db")
    base = sqlite3.connect(file, isolation_level=None)
    base.execute("PRAGMA journal_mode=WAL")
    base.execute("CREATE TABLE counter (hits INTEGER)")
    base.execute("INSERT INTO counter VALUES (0)")
    total = {"femem": 0, "sqlite": 0}
    for clients in CLIENTS:
        found = {}
        for kind, path in (("femem", socket), ("sqlite", file)):
            rate, median, count = measured(kind, path, clients, seconds)
            found[kind] = f"{rate:,.0f} /s, median {median:,.0f} µs"
            total[kind] += count
        name = "a client adds to a counter" if clients == 1 else f"{clients} clients add to one counter"
        yield f"| {name} | {found['femem']} | {found['sqlite']} (a row of SQLite) |"
    with Client(socket) as client:
        stored = {"femem": Counter(client, "hits").add(0), "sqlite": base.execute("SELECT hits FROM counter").fetchone()[0]}
    if stored != total:
        raise SystemExit(f"the counters have {stored}, and {total} was added")


def lock(words, runs):
    """The median time of a command, in milliseconds."""
    took = []
    for _ in range(runs):
        began = time.perf_counter()
        subprocess.run(words, check=True)
        took.append(time.perf_counter() - began)
    return statistics.median(took) * 1e3


def built():
    """femem-cli, built in this clone."""
    folder = ROOT / "clients" / "cli"
    subprocess.run(["make", "-s", "-C", folder], check=True)
    return folder / "out" / "femem-cli"


def locks(command, folder, socket, runs):
    """The row of the table on locks."""
    ours = lock([command, "--socket", socket, "lock", "bench", "--", "true"], runs)
    theirs = lock(["flock", os.path.join(folder, "lock"), "true"], runs)
    return f"| a lock around `true` | {ours:.1f} ms | {theirs:.1f} ms (`flock`) |"


def compare(program, command, folder, seconds):
    with tempfile.TemporaryDirectory(dir=folder) as room, tempfile.TemporaryDirectory() as near:
        socket, settings = os.path.join(near, "socket"), os.path.join(near, "toml")
        store = os.path.join(room, "store")
        pathlib.Path(settings).write_text(f'socket = "{socket}"\nstore = "{store}"\nformat = true\n', encoding="utf-8")
        server = subprocess.Popen([program, "serve", "--settings", settings])
        try:
            while not os.path.exists(socket):
                if server.poll() is not None:
                    raise SystemExit("the server has ended")
                time.sleep(0.01)
            print(f"### Beside SQLite and flock\n\n{time.strftime('%Y-%m-%d')}, {os.cpu_count()} processors, in {folder}.\n")
            print("| | femem | in its place |\n|---|---|---|")
            for row in counters(room, socket, seconds):
                print(row, flush=True)
            print(locks(command, room, socket, int(20 * seconds)))
        finally:
            server.kill()
            server.wait()


def main():
    parser = argparse.ArgumentParser(usage="bench/beside/run PROGRAM [--folder FOLDER] [--seconds N] [--cli FILE]")
    parser.add_argument("program", nargs="?")
    parser.add_argument("--work", nargs=2, help=argparse.SUPPRESS)
    parser.add_argument("--folder", default=str(ROOT))
    parser.add_argument("--cli", help="femem-cli, if it is not to be built")
    parser.add_argument("--seconds", type=float, default=10)
    asked = parser.parse_args()
    if asked.work:
        work(*asked.work, asked.seconds)
    else:
        compare(os.path.realpath(asked.program), asked.cli or built(), asked.folder, asked.seconds)


main()
