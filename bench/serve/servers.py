"""Servers to measure, each in its own temporary folder, on a Unix socket; and the tools in out/."""
import json
import os
import shutil
import socket
import statistics
import subprocess
import tempfile
import time

HERE = os.path.dirname(os.path.abspath(__file__))
OUT = os.path.join(HERE, "out")
TICK = os.sysconf("SC_CLK_TCK")


class Skip(Exception):
    """Something can't be measured here; the text says why."""


def tool(name):
    return os.path.join(OUT, name)


def run_json(words, limit, **more):
    """The dict of a tool's line of JSON, or one with `valid` false if there is none."""
    try:
        ended = subprocess.run(words, capture_output=True, text=True, timeout=limit, **more)
    except subprocess.TimeoutExpired:
        return {"valid": False, "why": "not done in time"}
    lines = [line for line in ended.stdout.splitlines() if line.startswith("{")]
    if not lines:
        return {"valid": False, "why": (ended.stderr.strip() or "no line")[-200:]}
    return json.loads(lines[-1])


class Calm:
    """Waits until the disk syncs quickly again: a virtual disk allows a burst and then stalls, and a load right after
    another would be measured in the stall. First it rests, then it probes with small syncs, for at most `most`
    seconds."""

    def __init__(self, folder, rest, most=15.0):
        self.rest, self.most, self.best, self.slow = rest, most, None, 0
        self.file = tempfile.TemporaryFile(dir=folder)
        self.file.write(bytes(65536))
        self.file.flush()
        os.fsync(self.file.fileno())

    def probe(self):
        times = []
        for i in range(60):
            began = time.perf_counter()
            os.pwrite(self.file.fileno(), b"x" * 80, i * 80)
            os.fdatasync(self.file.fileno())
            times.append(time.perf_counter() - began)
        self.best = min(self.best or times[0], statistics.median(times))
        return statistics.mean(times)

    def wait(self):
        time.sleep(self.rest)
        end = time.monotonic() + self.most
        while self.probe() > 3 * self.best:
            if time.monotonic() > end:
                self.slow += 1
                return
            time.sleep(0.5)

    def text(self):
        return f"{self.rest} s of rest before each load, {self.slow} loads on a disk that stayed slow"


class Server:
    label, load = "?", "load"

    def __init__(self, base, slower_us=0):
        self.folder = tempfile.mkdtemp(prefix="femem_bench_", dir=base)
        self.path = os.path.join(self.folder, "socket")
        self.process = None
        self.environment = dict(os.environ)
        if slower_us:
            self.environment.update(LD_PRELOAD=tool("slow_sync.so"), SLOW_SYNC_US=str(slower_us))

    def words(self):
        raise NotImplementedError

    def start(self):
        self.log = open(os.path.join(self.folder, "log"), "wb")
        self.process = subprocess.Popen(self.words(), stdin=subprocess.DEVNULL, stdout=self.log, stderr=self.log,
                                        env=self.environment)
        end = time.monotonic() + 20
        while time.monotonic() < end and self.process.poll() is None:
            try:
                with socket.socket(socket.AF_UNIX) as line:
                    line.connect(self.path)
                return self
            except OSError:
                time.sleep(0.05)
        raise Skip(f"{self.label} did not come up: {open(self.log.name, errors='replace').read().strip()[-200:]}")

    def measure(self, work, clients, window, seconds, warm=0.3):
        """A load's dict, with the server's processor time for an operation."""
        before = self.busy()
        words = [tool(self.load), self.path, work, clients, window, seconds, warm]
        got = run_json([str(word) for word in words], seconds + 40)
        if got.get("checked"):
            got["server_us_per_op"] = (self.busy() - before) * 1e6 / got["checked"]
        return got

    def busy(self):
        with open(f"/proc/{self.process.pid}/stat") as stat:
            fields = stat.read().rsplit(")", 1)[1].split()
        return (int(fields[11]) + int(fields[12])) / TICK

    def status(self, key):
        """VmHWM or VmRSS in kB."""
        with open(f"/proc/{self.process.pid}/status") as status:
            return next(int(line.split()[1]) for line in status if line.startswith(key + ":"))

    def is_alive(self):
        return self.process is not None and self.process.poll() is None

    def stop(self):
        if self.is_alive():
            self.process.terminate()
            try:
                self.process.wait(10)
            except subprocess.TimeoutExpired:
                self.process.kill()
                self.process.wait()
        shutil.rmtree(self.folder, ignore_errors=True)


class Femem(Server):
    """`PROGRAM serve --settings FILE`. The stand-in is started the same way."""
    label = "femem"

    def __init__(self, base, program, label="femem", slower_us=0):
        super().__init__(base, slower_us)
        self.program, self.label, self.version = program, label, ""
        self.store = os.path.join(self.folder, "store")

    def words(self):
        if not os.access(self.program, os.X_OK):
            raise Skip(f"{self.program} is no program")
        settings = os.path.join(self.folder, "settings.toml")
        with open(settings, "w") as file:
            file.write(f'socket = "{self.path}"\nstore = "{self.store}"\nconnections = 128\nformat = true\n')
        return [self.program, "serve", "--settings", settings]


class Redis(Server):
    """One sync a group, no snapshots, otherwise Redis's defaults."""
    label, load = "redis", "redis_load"

    def words(self):
        program = shutil.which("redis-server")
        if not program:
            raise Skip("redis-server is not installed")
        told = subprocess.run([program, "--version"], capture_output=True, text=True).stdout.split()
        self.version = next((word[2:] for word in told if word.startswith("v=")), "")
        return [program, "--port", "0", "--unixsocket", self.path, "--dir", self.folder, "--save", "", "--appendonly",
                "yes", "--appendfsync", "always", "--daemonize", "no"]


def file_system(folder):
    return subprocess.run(["stat", "-f", "-c", "%T", folder], capture_output=True, text=True).stdout.strip()


def build():
    subprocess.run(["make", "-s", "-C", HERE, "all"], check=True)
