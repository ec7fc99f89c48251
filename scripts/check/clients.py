"""The clients: their own tests, and their check programs against a real server."""

import os
import re
import shutil
import subprocess
import sys
import time

from . import counted, promises
from .harness import HERE, Server, Skipped, Wrong, compiler, holds, same, until, within

CLIENTS = os.path.normpath(os.path.join(os.path.dirname(os.path.realpath(__file__)), "..", "..", "clients"))


def environment(place):
    """Temporary files and Python's compiled modules go into the check's folder; femem-cli's tests have the patience."""
    patience = str(place.options.patience)
    return {"PYTHONDONTWRITEBYTECODE": "", "PYTHONPYCACHEPREFIX": place.path("compiled"), "TMPDIR": place.folder, "FEMEM_PATIENCE": patience}


def output_of(place, words, seconds):
    """Runs a program to its end, and returns what it printed. The deadline is multiplied by the patience."""
    seconds *= place.options.patience
    process = place.start(words, "client", environment(place), stderr=subprocess.STDOUT, group=True)
    try:
        process.wait(seconds)
    except subprocess.TimeoutExpired:
        raise Wrong(f"no end within {seconds} seconds: {place.read('client.out')[-1000:].decode(errors='replace')}") from None
    said = place.read("client.out").decode(errors="replace")
    if process.returncode:
        raise Wrong(f"status {process.returncode}: {said[-3000:]}")
    return said


def ran(place, words, seconds):
    """The last line that a client's program prints."""
    return (output_of(place, words, seconds).strip().splitlines() or [""])[-1]


# How many test files run at a time.
AT_ONCE = 4


@within(900)
def tests_in_python(place):
    """the tests of the Python client"""
    tests = os.path.join(CLIENTS, "python", "tests")
    files = [name for name in os.listdir(tests) if name.startswith("test_") and name.endswith(".py")]
    files.sort(reverse=True)  # this puts the long ones early
    env = {**environment(place), "FEMEM_PROGRAM": os.path.abspath(place.program)}
    left, running, counts, skipped, over, done = list(files), {}, {}, [], [], set()
    while left or running:
        while left and len(running) < AT_ONCE:
            name = left.pop(0)
            words = [sys.executable, "-W", "ignore", "-m", "unittest", "discover", "-v", "-s", tests, "-p", name]
            running[name] = place.start(words, name, env, stderr=subprocess.STDOUT, group=True)
        for name, process in list(running.items()):
            if process.poll() is not None:
                del running[name]
                said = place.read(f"{name}.out").decode(errors="replace")
                holds(process.returncode == 0, f"{name}: status {process.returncode}: {said[-3000:]}")
                counts[name[5:-3]] = [int(re.search(r"^Ran (\d+) tests? in", said, re.MULTILINE)[1])]
                done |= set(re.findall(r"^(test_\w+) \(test_\w+\.", said, re.MULTILINE))
                over += re.findall(r"\b(femem(?:_server|\.contrib\.\w+): .+)$", said, re.MULTILINE)
                skipped += re.findall(r" \.\.\. skipped (.+)$", said, re.MULTILINE)
        time.sleep(0.02)
    if skipped:
        raise Skipped(f"{len(skipped)} tests of the Python client: {', '.join(sorted(set(skipped)))}")
    same(sorted(promises.named("clients/python/README.md") - done), [], "tests of promises.txt that did not run")
    same(len(over), 3, f"tests that say over what they ran: {over}")
    return f"{counted.compare('python', counts)} tests; {'; '.join(sorted(over))}"


@within(600)
def python(place):
    """the Python client against a real server: every pattern, kills of both, a server that never comes back"""
    return ran(place, [sys.executable, os.path.join(CLIENTS, "python", "check.py"), place.program], 580)


@within(600)
def tests_in_c(place):
    """the tests of the C client, plain and with the sanitizers"""
    compiler()
    said = output_of(place, ["make", "-s", "-j4", "-C", os.path.join(CLIENTS, "c"), "test"], 590)
    return f"{counted.compare('c', counted.printed(counted.LINE_C, said))} checks"


@within(600)
def c(place):
    """the C client against a real server that is killed and restarted"""
    compiler()
    return ran(place, [os.path.join(CLIENTS, "c", "check"), place.program], 590)


@within(600)
def cli(place):
    """the tests of femem-cli: commands, lists, locks and queues, with kills of their processes and of the server"""
    compiler()
    said = output_of(place, ["make", "-s", "-j2", "-C", os.path.join(CLIENTS, "cli"), "test", f"PROGRAM={place.program}"], 590)
    return f"{counted.compare('cli', counted.printed(counted.LINE_CLI, said))} checks"


# What inherits.c does, in Python.
INHERITS = """
import fcntl, os, sys
sys.path.insert(0, sys.argv[1])
from femem import Client
client = Client(sys.argv[2], session_file=sys.argv[3], reconnect_timeout=1.0)
array = client.create("of_python", 1, full=True)
for file in range(3, 100):
    try:
        print("closed" if fcntl.fcntl(file, fcntl.F_GETFD) & fcntl.FD_CLOEXEC else "inherited")
    except OSError:
        pass
print("ready", flush=True)
sys.stdin.readline()
try:
    client.int_fetch_add(array, 0, 1)
except Exception:
    os._exit(0)
os._exit(3)
"""
# In a second, with a pause of 10 ms at first; a client without a pause tries some ten thousand times.
MOST_ATTEMPTS = 150


@within(120)
def alone(place):
    """both clients' files are closed in a child, their session files are their owner's alone, and they pause before they try a lost server again"""
    made, tried = place.path("inherits"), []
    output_of(place, ["make", "-s", "-C", os.path.join(CLIENTS, "c"), "out/libfemem.a"], 60)
    words = [compiler(), "-std=c11", "-I", os.path.join(CLIENTS, "c"), "-o", made, os.path.join(HERE, "inherits.c")]
    same(output_of(place, [*words, os.path.join(CLIENTS, "c", "out", "libfemem.a")], 60), "")
    if shutil.which("strace") is None:
        raise Skipped("there is no strace")
    server = Server(place)
    for name, words in (("c", [made]), ("python", [sys.executable, "-c", INHERITS, os.path.join(CLIENTS, "python")])):
        server.start()
        trace, file = place.path(f"{name}.trace"), place.path(f"{name}.session")
        words = ["strace", "-f", "-qq", "-e", "trace=connect", "-o", trace, *words, server.socket, file]
        process = place.start(words, name, environment(place), stdin=subprocess.PIPE)
        until(lambda: b"ready\n" in place.read(f"{name}.out") or process.poll() is not None, 20, f"{name}: the client is ready")
        lines = place.read(f"{name}.out").decode().split()
        # (a socket and a session file at least)
        holds(lines.count("closed") >= 2 and lines.count("inherited") == 0, f"{name}: {lines} {place.read(f'{name}.err')}")
        same(os.stat(file).st_mode & 0o777, 0o600, f"{name}: the mode of its session file")
        server.stop()
        process.communicate(b"\n", 30 * place.options.patience)
        same(process.returncode, 0, f"{name}: {place.read(f'{name}.err')}")
        tried.append(place.read(f"{name}.trace").count(b"connect("))
        holds(3 <= tried[-1] <= MOST_ATTEMPTS, f"{name}: {tried[-1]} attempts")
    return f"{tried[0]} and {tried[1]} attempts"
