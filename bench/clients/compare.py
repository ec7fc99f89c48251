"""Compares the clients of this repository with redis-py and hiredis. Prints two Markdown tables: calls, and patterns.

Both servers run at once, on Unix sockets: femem with a store in /dev/shm, Redis with neither log nor snapshots. It compares
the processor time, user and system, of the client's own process, not what the servers do or promise. The two clients of a
language are in one process and work in short turns. Of patterns it compares the time: of a step, or values per second.
"""

import argparse
import json
import os
import pathlib
import shutil
import statistics
import subprocess
import sys
import tempfile
import time

HERE = pathlib.Path(__file__).resolve().parent
ROOT = HERE.parents[1]

# Of patterns: its name, the unit, and what it is compared with.
PATTERNS = {
    "lock": ("Lock, acquired and released", "ms", "redis-py's Lock"),
    "semaphore": ("Semaphore of 1,000 permits", "ms", ""),
    "calls": ("calls of one client", "/s", ""),
    "queue": ("BoundedQueue, 4 to 4", "/s", "LPUSH, BLMOVE, LREM"),
    "channel": ("Channel, 4 to 4", "/s", "LPUSH, BLMOVE, LREM"),
    "work queue": ("WorkQueue, 4 to 4", "/s", "LPUSH, BLMOVE, LREM"),
}

LOADS = {"call": "a call that waits for its answer", "batch 32": "32 in a batch", "batch 1000": "1,000 in a batch"}

# Of the Python client alone, beside redis-py's calls, Lock, LPUSH and BRPOP, or XADD, XREADGROUP and XACK.
COSTS = {
    "lock": "Lock, acquired and released",
    "read": "ReadWriteLock, a read, beside Lock",
    "write": "ReadWriteLock, a write, beside Lock",
    "semaphore": "Semaphore of 10 permits, beside Lock",
    "queue": "BoundedQueue, a value put and got",
    "channel": "Channel, a value put and got",
    "work queue": "WorkQueue, a job put, taken and done",
    "31 wait": "a call while 31 requests wait, beside a call",
    "asyncio call": "asyncio, a call",
    "asyncio batch": "asyncio, 1,000 in a batch",
}


def started(words, socket):
    """Starts a server, and waits for its socket."""
    process = subprocess.Popen(words, stdin=subprocess.DEVNULL, stdout=subprocess.DEVNULL)
    end = time.monotonic() + 20
    while not os.path.exists(socket):
        if process.poll() is not None or time.monotonic() > end:
            raise SystemExit(f"no server: {words}")
        time.sleep(0.01)
    return process


def python_with_redis():
    for python in (sys.executable, "/usr/bin/python3"):
        if subprocess.run([python, "-c", "import redis"], stderr=subprocess.DEVNULL).returncode == 0:
            return python
    raise SystemExit("no Python here has redis: apt-get install python3-redis")


def c_program(folder):
    library = ROOT / "clients" / "c"
    subprocess.run(["make", "-s", "-C", library, "out/libfemem.a"], check=True)
    made = os.path.join(folder, "calls")
    words = ["cc", "-O2", "-Wall", "-o", made, HERE / "calls.c", f"-I{library}", library / "out" / "libfemem.a", "-lhiredis"]
    subprocess.run(words, check=True)
    return made


def rounds_of(words):
    """The results of each load's rounds: (ours, theirs), in microseconds of processor time for an operation."""
    said = subprocess.run(words, check=True, stdout=subprocess.PIPE, text=True, timeout=600).stdout
    return {name: json.loads(rounds) for name, rounds in (line.split("\t") for line in said.splitlines())}


def print_rows(rounds, language, loads):
    for name, text in loads.items():
        pairs = rounds[name]
        ratios = sorted(mine / other for mine, other in pairs)
        mine, other = (statistics.median(pair[k] for pair in pairs) for k in (0, 1))
        spread = f"{statistics.median(ratios):.2f} ({ratios[0]:.2f} to {ratios[-1]:.2f})"
        print(f"| {language}: {text} | {mine:.1f} | {other:.1f} | {spread} |", flush=True)


def print_patterns(rounds):
    print("| pattern | femem | Redis | |")
    print("|---|---|---|---|")
    for name, (text, unit, other) in PATTERNS.items():
        mine = statistics.median(pair[0] for pair in rounds[name])
        theirs = [pair[1] for pair in rounds[name] if pair[1] is not None]
        digits = 2 if unit == "ms" else 0
        told = f"{statistics.median(theirs):,.{digits}f} {unit}" if theirs else ""
        print(f"| {text} | {mine:,.{digits}f} {unit} | {told} | {other} |", flush=True)


def main():
    parser = argparse.ArgumentParser(usage="bench/clients/run PROGRAM [--rounds N]")
    parser.add_argument("program")
    parser.add_argument("--rounds", type=int, default=25)
    asked = parser.parse_args()
    server = shutil.which("redis-server")
    if server is None:
        raise SystemExit("redis-server is not installed")
    with tempfile.TemporaryDirectory(dir="/dev/shm") as folder:
        femem, redis = os.path.join(folder, "femem.socket"), os.path.join(folder, "redis.socket")
        settings = os.path.join(folder, "femem.toml")
        with open(settings, "w") as file:
            file.write(f'socket = "{femem}"\nstore = "{folder}/femem.store"\nformat = true\n')
        servers = [
            started([os.path.abspath(asked.program), "serve", "--settings", settings], femem),
            started([server, "--port", "0", "--unixsocket", redis, "--save", "", "--appendonly", "no", "--dir", folder], redis),
        ]
        try:
            told = [femem, redis, str(asked.rounds)]
            python = rounds_of([python_with_redis(), HERE / "calls.py", *told])
            costs = rounds_of([python_with_redis(), HERE / "costs.py", *told])
            c = rounds_of([c_program(folder), *told])
            patterns = rounds_of([python_with_redis(), HERE / "patterns.py", femem, redis, str(max(1, asked.rounds // 5))])
        finally:
            for process in servers:
                process.kill()
                process.wait()
    print(f"### The clients beside redis-py and hiredis\n\n{time.strftime('%Y-%m-%d')}, {os.cpu_count()} processors.\n")
    print("| load | femem | Redis | ratio |")
    print("|---|---|---|---|")
    print_rows(python, "Python", LOADS)
    print_rows(costs, "Python", COSTS)
    print_rows(c, "C", LOADS)
    print()
    print_patterns(patterns)


if __name__ == "__main__":
    main()
