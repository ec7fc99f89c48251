#!/usr/bin/env python3
"""Compares femem with Redis and the C stand-in, in turns on one file system, and with the disk's own limit. A Markdown
table goes to standard output, as bench/results/serve.txt keeps it. Each round's ratio is of runs next to each other; the table has the median, the least
and the greatest of the rounds' ratios. Above 1 femem is ahead. Status 1 if femem gave a wrong answer or none.
"""
import argparse
import os
import platform
import statistics
import sys
import tempfile
import time

from servers import Calm, Femem, Redis, Skip, build, file_system, run_json, tool

# load, clients, window, what is measured, aim of its ratio to Redis (for the first: to the limit)
LOADS = [
    ("own", 1, 1, "p50_us", 1.25),
    ("own", 64, 1, "ops_per_s", 0.75),
    ("own", 64, 32, "ops_per_s", 1.0),
    ("hand-off", 2, 1, "p50_us", 0.8),
]
MORE = [
    ("shared", 64, 32, "ops_per_s", None),
    ("lock", 8, 1, "p50_us", None),
    ("items", 2, 32, "ops_per_s", None),
]


NAMES = {"own": "own counters", "shared": "one counter", "hand-off": "hand-off", "lock": "a lock", "items": "items"}


def limits(folder, slower_us):
    """The p50 of a group of two syncs and of the way through three threads, in microseconds."""
    more = dict(os.environ)
    if slower_us:
        more.update(LD_PRELOAD=tool("slow_sync.so"), SLOW_SYNC_US=str(slower_us))
    file, path = os.path.join(folder, "limits_file"), os.path.join(folder, "limits_socket")
    return {
        "group": run_json([tool("limits"), "group", file, "1", "1"], 30, env=more).get("p50_us", 0),
        "group of 64": run_json([tool("limits"), "group", file, "64", "1"], 30, env=more).get("p50_us", 0),
        "relay": run_json([tool("limits"), "relay", path, "1"], 30).get("p50_us", 0),
    }


def is_good(got):
    return bool(got and got.get("valid") and got.get("ops_per_s"))


def ratio(what, own, other):
    return other[what] / own[what] if what == "p50_us" else own[what] / other[what]


def ratios(rounds, what, other):
    """The median, least and greatest of femem's ratios to the other."""
    both = [got for got in rounds if is_good(got.get("femem")) and is_good(got.get(other))]
    found = [ratio(what, got["femem"], got[other]) for got in both]
    return f"{statistics.median(found):.2f} ({min(found):.2f} to {max(found):.2f})" if found else "-"


def median(rounds, label, what):
    found = [got[label][what] for got in rounds if is_good(got.get(label)) and what in got[label]]
    return statistics.median(found) if found else None


def shown(value, what):
    if value is None:
        return "-"
    return f"{value:,.0f} µs" if what == "p50_us" else f"{value:,.0f}" if what == "ops_per_s" else f"{value:.1f}"


def run(options, loads, slower_us):
    """Runs all rounds. Returns a dict for each load with a list of dicts by server, and the limits of the rounds."""
    base = options.folder
    stand_in = tool("stand_in")
    made = [Femem(base, options.program, slower_us=slower_us), Redis(base, slower_us),
            Femem(base, stand_in, "stand-in", slower_us)]
    servers, results, found, notes = [], {load: [] for load in loads}, [], []
    calm = Calm(base, options.rest)
    try:
        for server in made:
            try:
                servers.append(server.start())
                notes.append(f"{server.label} {server.version}".strip())
            except Skip as skip:
                notes.append(f"without {server.label} ({skip})")
                server.stop()
        for turn in range(options.rounds):
            calm.wait()
            found.append(limits(base, slower_us))
            for load in loads:
                got = {}
                for server in servers[turn % len(servers):] + servers[:turn % len(servers)]:
                    calm.wait()
                    got[server.label] = server.measure(*load[:3], options.seconds)
                    print(f"{turn + 1}: {server.label} {got[server.label]}", file=sys.stderr, flush=True)
                results[load].append(got)
    finally:
        for server in made:
            server.stop()
    return results, found, notes, calm


def table(options, results, found, notes, calm, slower_us):
    kind = f"{platform.machine()}, {os.cpu_count()} processors, {file_system(options.folder)}"
    print(f"### Servers\n\n{time.strftime('%Y-%m-%d')}, {kind}; {', '.join(notes)}; {options.rounds} rounds of {options.seconds} s"
          f"{f', each sync {slower_us} µs slower' if slower_us else ''}; {calm.text()}.\n")
    labels = ("femem", "redis", "stand-in")
    print("| load, clients x window | | femem | Redis | stand-in | ratio to Redis | ratio to the stand-in | "
          "processor µs per operation: femem, Redis, stand-in |")
    print("|---|---|---|---|---|---|---|---|")
    for (work, clients, window, what, _), rounds in results.items():
        values = " | ".join(shown(median(rounds, label, what), what) for label in labels)
        cost = ", ".join(shown(median(rounds, label, "server_us_per_op"), "") for label in labels)
        print(f"| {NAMES[work]}, {clients} x {window} | {'median' if what == 'p50_us' else 'calls/s'} | {values} | "
              f"{ratios(rounds, what, 'redis')} | {ratios(rounds, what, 'stand-in')} | {cost} |")
    aims = ", ".join(f"{aim} for {NAMES[work]}, {clients} x {window}" for work, clients, window, _, aim in results if aim and clients > 1)
    print(f"\nAims of the ratio to Redis: {aims}.")
    first = next(rounds for (work, clients, window, *_), rounds in results.items() if (clients, window) == (1, 1))
    middle = {name: statistics.median(limit[name] for limit in found) for name in found[0]}
    over = [got["femem"]["p50_us"] / (limit["group"] + limit["relay"])
            for got, limit in zip(first, found) if is_good(got.get("femem")) and limit["group"]]
    print(f"\nThe disk's two-sync group, p50: {middle['group']:,.0f} µs with one entry, "
          f"{middle['group of 64']:,.0f} µs with 64; a frame through three threads and back: "
          f"{middle['relay']:,.0f} µs.")
    if over:
        print(f"1 x 1: femem's p50 is {statistics.median(over):.2f} ({min(over):.2f} to {max(over):.2f}) of group and "
              "relay; the aim is 1.25 of it, the goal 1.1.")


def wrong_answers(results):
    return [f"{load[0]} {load[1]} x {load[2]}: {got['femem'].get('why')}"
            for load, rounds in results.items() for got in rounds if not is_good(got.get("femem"))]


def main():
    parser = argparse.ArgumentParser(description=__doc__)
    parser.add_argument("program", help="femem")
    parser.add_argument("--rounds", type=int, default=3)
    parser.add_argument("--seconds", type=float, default=2.0, help="of each load")
    parser.add_argument("--rest", type=float, default=1.0, help="seconds before each load")
    parser.add_argument("--folder", default=tempfile.gettempdir(), help="where stores lie; its file system is measured")
    parser.add_argument("--slower", type=int, nargs="*", default=[0, 1000], help="µs that each sync is slower")
    parser.add_argument("--quick", action="store_true", help="the four loads of the aims, one second each")
    options = parser.parse_args()
    options.program = os.path.abspath(options.program)
    if options.quick:
        options.seconds, options.rest = min(options.seconds, 1.0), min(options.rest, 0.5)
    if file_system(options.folder) == "tmpfs" and 0 in options.slower:
        print("compare: a sync on tmpfs takes no time; give --slower, or another --folder", file=sys.stderr)
    build()
    wrong = []
    for slower_us in options.slower:
        done = run(options, LOADS if options.quick else LOADS + MORE, slower_us)
        table(options, *done, slower_us)
        wrong += wrong_answers(done[0])
    for line in wrong:
        print(f"WRONG: {line}")
    return 1 if wrong else 0


if __name__ == "__main__":
    sys.exit(main())
