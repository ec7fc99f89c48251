"""The programs of examples/: each result over kills of its processes and of the server, compared with what is computed here; and the
dashboard and alert rules, compared with the metrics that there are."""

import collections
import fcntl
import json
import os
import random
import re
import shutil
import signal
import struct
import subprocess
import sys
import time

from . import wire
from .harness import Server, compiler, done, holds, same, until, within
from .storetool import PATIENT, ran
from .manuals import pages  # noqa: F401  (this sets the path of release)
from .texts import TOP, matching, text_of

from release import builds  # noqa: E402

EXAMPLES = os.path.join(TOP, "examples")
CLIENT = os.path.join(TOP, "clients", "python")


def installed(place):
    """The C library and femem-cli, built once for all checks of a run. The folder that is their root."""
    compiler()
    root = os.path.join(os.path.dirname(place.folder), "built")
    if not os.path.isdir(root):
        room = place.path("room")
        os.mkdir(room)
        shutil.move(builds.c(builds.sources(room), room), root)
    return root


def environment(place, server):
    root = installed(place)
    return {
        "PATH": f"{root}/usr/bin:{os.environ['PATH']}", "LD_LIBRARY_PATH": root + builds.LIBRARIES, "PYTHONPATH": CLIENT,
        "PYTHONDONTWRITEBYTECODE": "1", "FEMEM_SOCKET": server.socket, "FEMEM_STORE": server.store,
    }


def begun(place, *path):
    """A server, the environment of its examples, and the path of one."""
    server = Server(place).start()
    return server, environment(place, server), os.path.join(EXAMPLES, *path)


class Crew:
    """Processes that are started again until each has ended with status 0. What each life of them printed is kept."""

    def __init__(self, place, env, commands):
        self.place, self.env, self.commands = place, env, commands
        self.lives = [0] * len(commands)
        self.running = [self.begin(who) for who in range(len(commands))]
        self.kills = 0

    def begin(self, who):
        self.lives[who] += 1
        return self.place.start(self.commands[who], f"crew{who}_{self.lives[who]}", self.env, group=True)

    def kill(self, who=None):
        """Kills one that runs, or the given one, and starts it again."""
        there = [who for who, process in enumerate(self.running) if process.poll() is None]
        if there and who in (None, *there):
            who = random.choice(there) if who is None else who
            os.killpg(self.running[who].pid, signal.SIGKILL)
            self.kills += self.running[who].wait() == -signal.SIGKILL
            if self.running[who].returncode == -signal.SIGKILL:
                self.running[who] = self.begin(who)

    def have_ended(self):
        for who, process in enumerate(self.running):
            if process.poll() is not None:
                errors = self.place.read(f"crew{who}_{self.lives[who]}.err").decode()
                same(process.returncode, 0, f"{self.commands[who]}: {errors[-1000:]}")
        return all(process.poll() is not None for process in self.running)

    def lines(self, who=None):
        """What they printed, without a last line that a kill has cut off."""
        found = []
        for it in range(len(self.commands)) if who is None else [who]:
            for life in range(1, self.lives[it] + 1):
                found += self.place.read(f"crew{it}_{life}.out").decode().split("\n")[:-1]
        return found


def storm(crew, server, kills, every):
    """Kills processes, one each `every` seconds, and for each fifth of these the server, while they work; then waits for their end."""
    stops = 0
    while crew.kills < kills and not crew.have_ended():
        time.sleep(random.uniform(0, 2 * every))
        crew.kill()
        if crew.kills // 5 > stops:
            stops += 1
            server.stop()
            server.start()
    # (where a sync takes 60 ms, what takes a second here takes minutes)
    until(crew.have_ended, 200, "all have ended")
    holds(crew.kills >= 10 and stops > 0, f"only {crew.kills} kills, and {stops} of the server")
    return f"{crew.kills} kills, {stops} of the server"


def words_of(server, env, name, count):
    """The full words of an array, in their order."""
    script = "import sys; from femem import Client\nwith Client(sys.argv[1]) as it:\n"
    script += f"  at = it.find('{name}')\n  print([it.readff(at, word, nowait=True) for word in range({count})])"
    words = [sys.executable, "-c", script, server.socket]
    return json.loads(subprocess.run(words, env={**os.environ, **env}, capture_output=True, check=True, timeout=60).stdout)


def short(_place):
    """each example is below 60 lines"""
    paths = matching("examples/python/*.*", "examples/c/*.*", "examples/shell/*.*")
    same([it for it in paths if text_of(it).count("\n") >= 60], [], "long examples")
    holds(len(paths) >= 9, f"only {len(paths)} examples")
    return f"{len(paths)} examples"


def chain(number):
    return 0 if number <= 1 else 1 + chain(3 * number + 1 if number & 1 else number >> 1)


@within(200)
def work_queue(place):
    """python/work_queue.py: each job is put once, and its result is right, over kills of the producer, three workers and the server"""
    jobs = 120
    server, env, program = begun(place, "python", "work_queue.py")
    words = lambda what, who: [sys.executable, program, what, server.socket, place.path(f"session{who}"), str(jobs)]
    crew = Crew(place, env, [words("produce", 0), *(words("work", who) for who in range(1, 4))])
    # (the producer still puts: no more than 100 jobs wait)
    for turn in range(3):
        until(lambda: len(crew.lines()) > 4 * turn, 60, "jobs are done")
        crew.kill(0)
    holds(crew.lives[0] > 1, "the producer was not killed while it put jobs")
    said = storm(crew, server, 30, 0.08)
    same(words_of(server, env, "results", jobs), [chain(job) for job in range(jobs)], "results")
    numbers = collections.defaultdict(set)
    for line in crew.lines():
        number, value, _ = map(int, line.split())
        numbers[value].add(number)
    same([value for value, found in numbers.items() if len(found) > 1], [], "values that were put twice")
    return f"{jobs} jobs, {said}"


@within(200)
def pipeline(place):
    """python/pipeline.py: each item is in each queue once, and its result is right, over kills of six processes and the server"""
    items, stages = 80, ("parse", "square", "store")
    server, env, program = begun(place, "python", "pipeline.py")
    roles = ["feed", *stages, *stages]
    words = [[sys.executable, program, role, server.socket, place.path(f"session{who}"), str(items)] for who, role in enumerate(roles)]
    crew = Crew(place, env, words)
    said = storm(crew, server, 40, 0.08)
    values = {"parse": range(items), "square": range(1, items + 1), "store": [item * item for item in range(1, items + 1)]}
    for stage in stages:
        found = collections.defaultdict(set)
        for who, role in enumerate(roles):
            for line in crew.lines(who) if role == stage else []:
                number, value = map(int, line.split())
                found[value].add(number)
        same([value for value, numbers in found.items() if len(numbers) > 1], [], f"values that were in {stage} twice")
        same(set(found) - set(values[stage]), set(), f"values of {stage}")
    same(words_of(server, env, "stored", items), values["store"], "results")
    return f"{items} items, {said}"


def numbers(place, name):
    return [tuple(map(int, line.split())) for line in place.read(name).decode().splitlines()]


def in_order(place):
    """Compares each row of the ledger with the one before: a new leader has the last entry first, then the next ones; no earlier leader
    writes. Returns the last row."""
    seen = (0, 0)
    for number, entry in numbers(place, "ledger"):
        same((number < seen[0], entry), (False, seen[1] + (number == seen[0])), f"{number} {entry} after {seen}")
        seen = (number, entry)
    return seen


def newest_leader(crew):
    """The greatest number under which one has led, and who."""
    return max(((int(line), who) for who in range(len(crew.commands)) for line in crew.lines(who)), default=(0, 0))


def stop_leader(crew, place, server, is_late):
    """Stops the leader, and the server, so that another one leads; then the one that led goes on, at once or after entries of the other."""
    entries_since = lambda first: len([it for it, _ in numbers(place, "ledger") if it >= first])
    number, who = until(lambda: newest_leader(crew)[0] and newest_leader(crew), 60, "one leads")
    until(lambda: entries_since(number) > 5, 60, "the leader writes")
    process = crew.running[who]
    with open(place.path("ledger"), "rb") as ledger:
        while True:  # (not while it has the ledger's lock)
            process.send_signal(signal.SIGSTOP)
            os.waitid(os.P_PID, process.pid, os.WSTOPPED)
            try:
                fcntl.flock(ledger, fcntl.LOCK_EX | fcntl.LOCK_NB)
                break
            except BlockingIOError:
                process.send_signal(signal.SIGCONT)
        fcntl.flock(ledger, fcntl.LOCK_UN)
    server.stop()
    server.start()
    until(lambda: newest_leader(crew)[0] > number, 60, "another one leads")
    until(lambda: not is_late or entries_since(number + 1) > 5, 60, "the other one writes")
    process.send_signal(signal.SIGCONT)
    until(lambda: entries_since(number + 1) > 12, 60, "the other one goes on")
    in_order(place)


@within(200)
def leader(place):
    """python/leader.py: the ledger has each entry once, and refuses whoever led before: three processes and the server are killed, and
    leaders are stopped until another one leads"""
    entries = 400
    server, env, program = begun(place, "python", "leader.py")
    words = [sys.executable, program, server.socket]
    place.write("ledger", b"")  # (who leads says so before it makes the file)
    crew = Crew(place, env, [[*words, place.path(f"session{who}"), place.path("ledger"), str(entries)] for who in range(3)])
    for is_late in (False, True, False, True):
        stop_leader(crew, place, server, is_late)
    said = storm(crew, server, 30, 0.08)
    same(in_order(place)[1], entries, "the last entry")
    leaders = {number for number, _ in numbers(place, "ledger")}
    return f"{entries} entries under {len(leaders)} numbers, {said}, 4 leaders stopped"


@within(200)
def written_once(place):
    """python/written_once.py: each result is written once and everyone sees that one, over kills of five processes and the server"""
    items = 150
    server, env, program = begun(place, "python", "written_once.py")
    words = lambda what, who: [sys.executable, program, what, server.socket, place.path(f"session{who}"), str(items)]
    crew = Crew(place, env, [*(words("compute", who) for who in range(3)), *(words("read", who) for who in range(3, 5))])
    said = storm(crew, server, 30, 0.08)
    results = words_of(server, env, "results", items)
    found = collections.defaultdict(lambda: collections.defaultdict(set))
    for line in crew.lines():
        what, item, value = line.split()
        found[what][int(item)].add(int(value))
    same(found["sees"], {item: {value} for item, value in enumerate(results)}, "what each life saw")
    same([item for item, value in enumerate(results) if value not in found["computed"][item]], [], "results that nobody computed")
    again = [item for item in range(items) if len(found["computed"][item]) > 1]
    holds(again, "no result was computed twice")
    return f"{items} results, {len(again)} of them computed again, {said}"


@within(200)
def orders(place):
    """python/orders.py: no line of an order is lost or there twice, over kills of four processes and the server"""
    names, steps = "abcd", 200
    server, env, program = begun(place, "python", "orders.py")
    os.mkdir(place.path("orders"))
    words = [sys.executable, program, server.socket]
    crew = Crew(place, env, [[*words, place.path(f"session{name}"), place.path("orders"), name, str(steps)] for name in names])
    said = storm(crew, server, 30, 0.08)
    for order in range(7):
        lines = place.read(f"orders/order {order}").decode().splitlines()
        for name in names:
            mine = [line for line in lines if line.startswith(name)]
            same(mine, [f"{name} {step}" for step in range(order, steps, 7)], f"{name}'s lines of order {order}")
        same(len(lines), sum(len(range(order, steps, 7)) for _ in names), f"lines of order {order}")
    return f"{len(names) * steps} lines, {said}"


def alignment(first, second):
    """The best score of a local alignment, from the whole matrix."""
    best, above = 0, [0] * (len(second) + 1)
    for one in first:
        row = [0]
        for at, other in enumerate(second):
            row.append(max(0, above[at] + (3 if one == other else -2), above[at + 1] - 4, row[at] - 4))
        best, above = max(best, *row), row
    return best


def in_c(place, source):
    """The program of an example in C, with the installed library."""
    root, program = installed(place), place.path("program")
    words = [compiler(), "-std=c11", "-Wall", "-Wextra", "-Werror", f"-I{root}/usr/include", "-o", program]
    words += [source, f"-L{root}{builds.LIBRARIES}", "-lfemem"]
    built = subprocess.run(words, capture_output=True, text=True, check=False)
    same((built.returncode, built.stderr), (0, ""))
    return program


@within(200)
def loop(place):
    """c/loop.c: two of them add each number of their pipes once, while the server is killed; numbers that come meanwhile wait"""
    server, env, source = begun(place, "c", "loop.c")
    program = in_c(place, source)
    given = [[random.randrange(1, 1 << 32) for _ in range(600)] for _ in range(2)]
    start = lambda who: place.start([program, server.socket, str(7 + who)], f"loop{who}", env, stdin=subprocess.PIPE)
    added = lambda who: [tuple(map(int, line.split())) for line in place.read(f"loop{who}.out").decode().split("\n")[:-1]]
    running = [start(who) for who in range(2)]
    for at in range(0, 600, 100):
        if at:
            server.stop()
        for process, numbers_of in zip(running, given):
            process.stdin.write(struct.pack("=100Q", *numbers_of[at : at + 100]))
            process.stdin.flush()
        if at:
            time.sleep(random.uniform(0, 0.3))
            same([process.poll() for process in running], [None] * 2, "they wait for the server")
            server.start()
        until(lambda: min(len(added(who)) for who in range(2)) >= at + 60, 60, "they go on")
    for who, process in enumerate(running):
        process.stdin.close()
        same(process.wait(60 * place.options.patience), 0, place.read(f"loop{who}.err").decode()[-1000:])
        same([number for number, _ in added(who)], given[who], "numbers")
        lines = place.read(f"loop{who}.err").decode()
        holds(lines.count(": the connection was lost: ") == lines.count(": back; ") == 5, lines)
    total = 0
    for number, before in sorted(added(0) + added(1), key=lambda it: it[1]):
        same(before, total, "the sum before")
        total += number
    same(words_of(server, env, "sum", 1), [total], "the sum")
    return f"{len(given) * len(given[0])} numbers, 5 kills of the server"


@within(300)
def wavefront(place):
    """c/wavefront.c: three of them find the score that the whole matrix gives, over kills of each and of the server"""
    server, env, source = begun(place, "c", "wavefront.c")
    program = in_c(place, source)
    first, second = ("".join(random.choice("ACGT") for _ in range(224)) for _ in range(2))
    second = second[:60] + first[40:150] + second[170:]
    crew = Crew(place, env, [[program, server.socket, place.path(f"session{who}"), first, second] for who in range(3)])
    said = storm(crew, server, 30, 0.008)
    tiles = {tuple(line.split()[:2]): int(line.split()[2]) for line in crew.lines()}
    same(len(tiles), (224 // 16) ** 2, "tiles")
    same(max(tiles.values()), alignment(first, second), "the score")
    return f"{len(tiles)} tiles, score {max(tiles.values())}, {said}"


@within(200)
def counter(place):
    """shell/counter.sh: three of them count each of their steps once, over kills of each and of the server"""
    server, env, script = begun(place, "shell", "counter.sh")
    crew = Crew(place, env, [[script, place.path(f"session{who}"), "60"] for who in range(3)])
    said = storm(crew, server, 20, 0.05)
    last = [list(map(int, place.read(f"crew{who}_{crew.lives[who]}.out").split())) for who in range(3)]
    same([len(counts) for counts in last], [60] * 3, "counts that the last lives printed")
    same(sorted(it for counts in last for it in counts), list(range(1, 181)), "the counts")
    same({int(line) for line in crew.lines()}, set(range(1, 181)), "the counts that all lives printed")
    same(done(place, ["femem-cli", "counter", "steps"], env=env), "180\n")
    return f"180 steps, {said}"


@within(200)
def rate_limit(place):
    """shell/rate_limit.sh: of forty starts at once, as many run as the limit says, also while the server is killed"""
    server, env, script = begun(place, "shell", "rate_limit.sh")
    # (a window that does not end meanwhile)
    words = [script, "mails", "7", "100000000", "echo", "sent"]
    same(done(place, words, env=env), "sent\n")
    started = [place.start(words, f"start{it}", env, group=True) for it in range(40)]
    time.sleep(0.3)
    server.stop()
    server.start()
    until(lambda: all(it.poll() is not None for it in started), 60, "all have ended")
    ends = collections.Counter(it.returncode for it in started)
    # (one that begins while there is no server has not counted)
    holds(set(ends) <= {0, 4, 75} and ends[4] <= 33, f"ends: {ends} {place.read('start0.err').decode()}")
    same((ends[0], sum(place.read(f"start{it}.out") == b"sent\n" for it in range(40))), (6, 6), "starts that ran")
    done(place, words, env=env, status=75)
    return f"{ends[4]} found no server"


# The job notes that it is inside, for a while, and what its number was; two at a time would find the folder.
JOB = 'mkdir inside || { echo two >> wrong; exit 1; }; sleep 0.3; echo "$FEMEM_GENERATION" >> runs; rmdir inside'


@within(200)
def nightly(place):
    """shell/nightly.sh: each day's job runs once, never two at a time, though four start it and are killed; a killed job runs again"""
    server, env, script = begun(place, "shell", "nightly.sh")
    env["TAKEOVER_AFTER"] = "0.5"
    words = lambda day: [script, "backup", str(day), "sh", "-c", JOB]
    for day in (1, 2):
        started = [place.start(words(day), f"start{it}", env, group=True) for it in range(4)]
        until(lambda: all(it.poll() is not None for it in started), 60, "all have ended")
        same([it.returncode for it in started], [0] * 4, place.read("start0.err").decode())
    same(len(place.read("runs").split()), 2, "runs of two days")
    # The first is killed within its job, and the server too; the job goes on, holds the lock, and the day is run again.
    first = place.start(words(3), "first", env)
    until(lambda: os.path.exists(place.path("inside")), 30, "the job is inside")
    first.kill()
    server.stop()
    server.start()
    done(place, words(3), env=env)
    runs = [int(it) for it in place.read("runs").split()]
    same((len(runs) in (3, 4), runs), (True, sorted(set(runs))), "runs of three days, and their numbers, which grow")
    done(place, words(3), env=env)
    same(len(place.read("runs").split()), len(runs), "runs after the day is done")
    holds(not os.path.exists(place.path("wrong")), "two were inside")
    same(done(place, ["femem-cli", "counter", "backup_day"], env=env), "3\n")


METRIC = re.compile(r"\bfemem_[a-z_]+")


def monitoring(place):
    """monitoring/: each metric of the dashboard and of the rules is one that the observer or the probe prints, and each is there"""
    server = Server(place).start()
    env = {**os.environ, **environment(place, server), "PATH": f"{place.path('bin')}:{os.environ['PATH']}"}
    os.mkdir(place.path("bin"))
    os.symlink(place.program, place.path("bin/femem"))
    with server.attached(7) as conn, server.attached(8) as other:
        conn.ask(wire.call(1, ("create", b"cells", 2, 0)))
        other.send(wire.call(1, ("access", wire.OPS[b"readfe"], 1, 0, 0, 0)))
        shell = [sys.executable, "-m", "femem", server.socket, "--store", server.store, "metrics"]
        until(lambda: b"femem_session_waiting{" in subprocess.check_output(shell, env=env), 30, "a request waits")
        said = subprocess.check_output(shell, env=env).decode()
    os.chmod(place.write("bin/systemctl", b"#!/bin/sh\necho 0\n"), 0o755)
    status, more, errors = ran(place, "probe", *PATIENT, "--metrics", "--store", server.store, "--backup", server.store, server.socket, env=env)
    same((status, errors), (0, ""), "a probe")
    said += more
    exported = {line.split("{")[0].split(" ")[0] for line in said.splitlines() if not line.startswith("#")}
    rules = text_of("examples/monitoring/femem-alerts.yml")
    expressions = re.findall(r"^ +expr: (.*)$", rules, re.M)
    same(len(expressions), len(re.findall(r"^ +- alert: Femem\w+$", rules, re.M)), "rules and their expressions")
    alerted = set(METRIC.findall(" ".join(expressions)))
    with open(os.path.join(EXAMPLES, "monitoring", "femem-dashboard.json"), encoding="utf-8") as file:
        panels = json.load(file)["panels"]
    shown = set(METRIC.findall(" ".join(target["expr"] for panel in panels for target in panel["targets"])))
    same((alerted - exported, shown), (set(), exported), "metrics")
    tools = shutil.which("promtool")
    if tools:
        subprocess.run([tools, "check", "rules", os.path.join(EXAMPLES, "monitoring", "femem-alerts.yml")], check=True, capture_output=True)
    return f"{len(exported)} metrics, {len(expressions)} rules" + ("" if tools else ", promtool is not installed here")
