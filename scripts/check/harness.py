"""Checks and the processes that they start: each check has a folder and a deadline, and leaves no process running."""

import importlib
import inspect
import itertools
import os
import resource
import shutil
import signal
import subprocess
import threading
import time
from pathlib import Path

from . import wire

USUAL_SECONDS = 60

# How the line of a check begins that this machine could not run.
NOT_RUN = "NOT RUN"

HERE = os.path.dirname(os.path.realpath(__file__))


class Wrong(Exception):
    """A check found something wrong."""


class Skipped(Exception):
    """This machine lacks something that a check needs, so the check was not run."""


class Late(Exception):
    """A check did not end in time."""


def same(got, wanted, what=""):
    if got != wanted:
        raise Wrong(f"{what + ': ' if what else ''}{short(got)}, not {short(wanted)}")


def holds(condition, what):
    if not condition:
        raise Wrong(what)


def short(value):
    text = repr(value)
    return text if len(text) <= 600 else text[:300] + " .. " + text[-300:]


def until(condition, seconds, what):
    """Waits until the condition holds, and returns its value. The deadline is multiplied by the patience."""
    seconds *= wire.patience
    end = time.monotonic() + seconds
    while True:
        found = condition()
        if found:
            return found
        if time.monotonic() > end:
            raise Wrong(f"{what}: not within {seconds} seconds")
        time.sleep(0.002)


class Worker(threading.Thread):
    """A thread that works for a check. What it raises is raised by `ended`."""

    def __init__(self, work, *given):
        super().__init__(target=work, args=given, daemon=True)
        self.raised = None
        self.start()

    def run(self):
        try:
            super().run()
        except Exception as error:
            self.raised = error

    def ended(self, seconds=None):
        self.join(seconds)
        holds(not self.is_alive(), "a client does not come to an end")
        if self.raised:
            raise self.raised


class Place:
    """What a check works with: the program, its own folder, and the processes that it started."""

    def __init__(self, program, folder, options):
        self.program = program
        self.folder = folder
        self.options = options
        self.started = []
        self.groups = []

    def path(self, name):
        return os.path.join(self.folder, name)

    def write(self, name, content):
        Path(self.path(name)).write_bytes(content)
        return self.path(name)

    def start(self, words, name="program", env=None, stdin=subprocess.DEVNULL, stdout=None, stderr=None, limit=None, group=False):
        """Starts a process whose output and errors go to the files NAME.out and NAME.err, under a resource limit if one is
        given. With `group` the processes that it starts end with it."""
        how = {"env": {**os.environ, **(env or {})}, "cwd": self.folder, "start_new_session": group}
        if limit:
            how["preexec_fn"] = lambda: resource.setrlimit(limit[0], (limit[1], limit[1]))
        with open(self.path(f"{name}.out"), "wb") as out, open(self.path(f"{name}.err"), "wb") as err:
            process = subprocess.Popen(words, stdin=stdin, stdout=stdout or out, stderr=stderr or err, **how)
        self.started.append(process)
        if group:
            self.groups.append(process.pid)
        return process

    def run(self, *words, given=b"", seconds=30, env=None, stdout=None, closed=""):
        """Runs the program to its end: its status, output and errors. `closed` is the shell's syntax that closes streams."""
        shell = ["sh", "-c", f'exec "$0" "$@" {closed}'] if closed else []
        process = self.start([*shell, self.program, *words], "run", env, subprocess.PIPE, stdout)
        try:
            process.communicate(given, seconds * wire.patience)
        except subprocess.TimeoutExpired:
            raise Wrong(f"{words}: no end within {seconds * wire.patience} seconds") from None
        return process.returncode, self.read("run.out"), self.read("run.err")

    def read(self, name):
        return Path(self.path(name)).read_bytes()

    def end(self):
        for process in self.started:
            if process.poll() is None:
                process.kill()
            process.wait()
        for group in self.groups:
            try:
                os.killpg(group, signal.SIGKILL)
            except ProcessLookupError:
                pass
        self.started.clear()
        self.groups.clear()


def ends(process, seconds):
    """Waits for the end of a process: its status. The deadline is multiplied by the patience."""
    try:
        return process.wait(seconds * wire.patience)
    except subprocess.TimeoutExpired:
        raise Wrong(f"no end within {seconds * wire.patience} seconds: {process.args}") from None


def children_of(pid):
    return [int(it) for it in Path(f"/proc/{pid}/task/{pid}/children").read_text("ascii").split()]


class Served:
    """A server at `socket`, as its clients see it. What starts it has its `process` and its `errors`."""

    def is_there(self):
        if self.process.poll() is not None:
            raise Wrong(f"the server ended with status {self.process.returncode}: {self.errors()}")
        return os.path.exists(self.socket)

    def connect(self, **how):
        return wire.Connection(self.socket, **how)

    def attached(self, session, **how):
        """A connection that has attached the session."""
        conn = self.connect(**how)
        same(conn.ask(wire.attach(session))[:2], ("welcome", session))
        return conn


class Server(Served):
    """`femem serve` with its own socket, store and settings."""

    def __init__(self, place, name="s", **settings):
        self.place = place
        self.name = name
        self.socket = place.path(f"{name}.socket")
        self.store = settings.pop("store", place.path(f"{name}.store"))
        self.settings = {"format": True, **settings}
        self.process = None

    def start(self, env=None, waits=True, limit=None):
        """Starts the server; it is ready once its socket exists."""
        lines = [f'socket = "{self.socket}"', f'store = "{self.store}"']
        lines += [f"{key} = {str(value).lower()}" for key, value in self.settings.items()]
        file = self.place.write(f"{self.name}.toml", "".join(line + "\n" for line in lines).encode())
        self.process = self.place.start([self.place.program, "serve", "--settings", file], self.name, env, limit=limit)
        if waits:
            until(self.is_there, 30, "the socket is there")
        return self

    def begins(self):
        """Waits until it serves or has ended."""
        until(lambda: os.path.exists(self.socket) or not self.is_running(), 30, "the server serves or ends")
        return self

    def output(self):
        return self.place.read(f"{self.name}.out").decode()

    def errors(self):
        return self.place.read(f"{self.name}.err").decode()

    def ended(self, seconds=30):
        """Waits for the server to end: its status, output and errors."""
        ends(self.process, seconds)
        return self.process.returncode, self.output(), self.errors()

    def is_running(self):
        return self.process.poll() is None

    def stop(self, signal_number=signal.SIGKILL):
        """Kills the server, and removes its socket, as its operator must."""
        self.process.send_signal(signal_number)
        self.process.wait(30 * wire.patience)
        if os.path.exists(self.socket):
            os.unlink(self.socket)

    def looks(self):
        """What `femem look` prints of the store."""
        status, output, errors = self.place.run("look", "--store", self.store)
        same((status, errors), (0, b""), "look")
        return output.decode()


class Held:
    """Holds a server's calls of one kind: the environment to start the server in, and the files that hold a call."""

    def __init__(self, place, call, name=""):
        self.asked = place.path(f"hold{name}")
        self.mark = place.path(f"held{name}")
        self.env = {"LD_PRELOAD": preload(place, "streams.c"), "CALL": call, "HOLD": self.asked, "MARK": self.mark}

    def next(self):
        """Holds the next call from now on."""
        with open(self.asked, "wb"):
            pass

    def wait(self):
        until(lambda: os.path.exists(self.mark), 30, "a call is held")

    def let_go(self):
        os.unlink(self.mark)


class Runner:
    """Runs checks, prints a line for each, and counts. A check that this machine can't run has failed, unless its part may be
    skipped (`options.may_skip`)."""

    def __init__(self, program, folder, options):
        self.program = program
        self.folder = folder
        self.options = options
        wire.patience = options.patience
        self.passed = 0
        self.failed = 0
        self.skipped = 0
        self.not_run = []

    def run(self, part, check):
        place = Place(self.program, os.path.join(self.folder, "c"), self.options)
        os.mkdir(place.folder)
        began = time.monotonic()
        seconds = getattr(check, "seconds", USUAL_SECONDS) * self.options.patience
        signal.signal(signal.SIGALRM, late)
        signal.alarm(seconds)
        why = note = None
        try:
            note = check(place)
        except Skipped as lack:
            may = part in self.options.may_skip
            self.skipped += may
            self.failed += not may
            self.not_run += [] if may else [f"{part}: {lack}"]
            print(f"{'skipped' if may else NOT_RUN} {part}: {lack} ({named(check)})", flush=True)
            return
        except Late:
            why = f"no end within {seconds} seconds"
        except Exception as error:
            why = f"{type(error).__name__}: {error}{where(error)}"
        finally:
            signal.alarm(0)
            place.end()
            shutil.rmtree(place.folder, ignore_errors=True)
        took = f"{time.monotonic() - began:.1f} s"
        self.passed += why is None
        self.failed += why is not None
        if why is None:
            print(f"ok      {part}: {named(check)} ({note + ', ' if note else ''}{took})", flush=True)
        else:
            print(f"FAILED  {part}: {named(check)} ({took})\n        {why}", flush=True)


def is_check(function):
    """Whether a function is a check: it takes a place, and says what holds, without a full stop."""
    names = list(inspect.signature(function).parameters)
    return names in (["place"], ["_place"]) and function.__doc__ is not None and not function.__doc__.strip().endswith(".")


def checks_in(module):
    """The checks that a module of this folder has, in their order."""
    return [it for it in vars(module).values() if inspect.isfunction(it) and it.__module__ == module.__name__ and is_check(it)]


def checks_of(part):
    """The checks of a part: those of its module, and of the modules that it names in ALSO."""
    names = [part, *getattr(importlib.import_module(f"check.{part}"), "ALSO", ())]
    return [it for name in names for it in checks_in(importlib.import_module(f"check.{name}"))]


def named(check):
    return check.__doc__.strip()


def done(place, words, name="made", env=None, status=0):
    """Runs a command to its end, and returns its output."""
    process = place.start(words, name, env, group=True)
    process.wait()
    said = place.read(f"{name}.out").decode(errors="replace")
    errors = place.read(f"{name}.err").decode(errors="replace")
    same(process.returncode, status, f"{' '.join(words)}: {(said + errors)[-1500:]}")
    return said if status == 0 else errors


def compiler():
    """The C compiler of this machine."""
    for name in (os.environ.get("CC", "cc"), "gcc", "clang"):
        if shutil.which(name):
            return name
    raise Skipped("there is no C compiler")


def preload(place, source):
    """Compiles a preload, and returns its path."""
    made = place.path(f"{source}.so")
    words = [compiler(), "-O2", "-shared", "-fPIC", "-o", made, os.path.join(HERE, source), "-ldl"]
    ran = subprocess.run(words, stdin=subprocess.DEVNULL, stdout=subprocess.PIPE, stderr=subprocess.STDOUT, timeout=60)
    same(ran.returncode, 0, ran.stdout.decode())
    return made


def in_turn(place, ask, number="REFUSE", mark="REFUSED"):
    """What `ask` gives with the variables by which a preload refuses the allocation, or fails the call, of a number: of 1, 2 and so
    on, each with its number, and last of one that is not reached, with None."""
    kept = place.path("mark")
    for at in itertools.count(1):
        found = ask({number: str(at), mark: kept})
        if not os.path.exists(kept):
            yield None, found
            return
        os.unlink(kept)
        yield at, found


def late(*_):
    raise Late


def where(error):
    """The line of a check that an error came from."""
    lines = []
    at = error.__traceback__
    while at:
        lines.append(f"{os.path.basename(at.tb_frame.f_code.co_filename)}:{at.tb_lineno}")
        at = at.tb_next
    return f" ({' '.join(lines[-4:])})"


def within(seconds):
    """Gives a check a deadline of its own."""

    def give(check):
        check.seconds = seconds
        return check

    return give
