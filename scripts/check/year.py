"""An operator's year in a clean Debian: what goes wrong, the alert that fires, the page's commands that mend it, and every answer kept."""

import os
import re
import shutil
import subprocess
import time
from pathlib import Path

from . import store, wire
from .clean import SOCKET, STORE, Clean, Unit
from .crowds import adding
from .harness import Skipped, Wrong, holds, preload, same, until, within
from .packages import built
from .texts import block, text_of

OPERATING = "docs/operating.md"
BACKUP = "/var/backups/femem/femem.store"
METRICS = "/run/femem-watch/femem.prom"
DISK, MOUNT = "/srv/disk", "/var/lib/femem"
DAY = 86400


class Alerts:
    """The rules of examples/monitoring, over the metrics as they were written so far. (How long a rule has to hold is left out.)"""

    def __init__(self):
        rules = text_of("examples/monitoring/femem-alerts.yml")
        self.rules = re.findall(r"- alert: (\w+)\n +expr: (.*)$", rules, re.M)
        self.samples = []

    def take(self, text):
        self.samples.append({name: float(value) for name, value in re.findall(r"^(\w+) (\S+)$", text, re.M)})

    def value(self, words):
        """The value of a metric, a number, or one of the functions that the rules use; None if the metric is absent."""
        now = self.samples[-1]
        if found := re.fullmatch(r"time\(\) - (\w+)", words):
            return time.time() - now[found[1]] if found[1] in now else None
        if found := re.fullmatch(r"(increase|max_over_time)\((\w+)\[\w+\]\)", words):
            values = [it[found[2]] for it in self.samples if found[2] in it]
            rises = sum(later - earlier if later >= earlier else later for earlier, later in zip(values, values[1:]))  # (a counter may begin anew)
            return (rises if found[1] == "increase" else max(values)) if values else None
        return now.get(words) if re.fullmatch(r"[a-z]\w+", words) else float(words)

    def holds(self, words):
        if found := re.fullmatch(r"absent\((\w+)\)", words):
            return found[1] not in self.samples[-1]
        left, sign, right = re.fullmatch(r"(.*?) (<|>|==) (.*)", words).groups()
        one, other = self.value(left), self.value(right)
        return None not in (one, other) and {"<": one < other, ">": one > other, "==": one == other}[sign]

    def firing(self):
        # (of femem-shell's metrics none is here)
        mine = [(name, expr) for name, expr in self.rules if "deriv" not in expr and "_wait" not in expr]
        return {name for name, expr in mine if any(self.holds(it) for it in expr.split(" or "))}


class Year:
    """The clean Debian, its server, a client that counts, and the alerts."""

    def __init__(self, place, clean):
        self.place, self.clean, self.unit, self.alerts = place, clean, Unit(clean), Alerts()
        self.session, self.number, self.count = 1000, 1, 0

    def begins(self, array):
        """A session of its own for the client, as after a restore."""
        self.session, self.number, self.array = self.session + 1, 1, array

    def adds(self, times):
        """Adds to the counter. Each answer is the count of those before."""
        with self.unit.attached(self.session) as conn:
            for _ in range(times):
                same(conn.ask(wire.call(self.number, adding(self.array, 0, 1))), ("answer", self.number, ("value", self.count)), "the counter")
                self.count += 1
                if self.number % 8 == 0:
                    same(conn.ask(wire.settle(self.number + 1)), ("settled", self.number + 1))
                self.number += 1

    def reads(self):
        """The counter, as a new client reads it."""
        said = self.clean.shell(f"printf 'attach 999\\n1 readxx {self.array} 0\\nbye\\n' | femem call --socket {SOCKET}")
        return int(re.search(r"^1 value (\d+)$", said, re.M)[1])

    def runs(self, unit):
        """What a timer starts. (Here it is done more often than systemd allows.)"""
        self.clean.shell(f"systemctl reset-failed {unit} 2> /dev/null || true; systemctl start {unit}")

    def watch(self, *wanted):
        """The metrics are written: exactly these alerts fire."""
        self.runs("femem-watch.service")
        self.alerts.take(Path(self.clean.path(METRICS)).read_text("ascii"))
        # (on a busy machine storing may be slow, and a refused start is tried again after five seconds)
        may = {"FememRestarts"} if "FememDoesNotAnswer" in wanted else {"FememStoresSlowly"} if self.alerts.samples[-1]["femem_probe_seconds"] > 1 else set()
        same(sorted(self.alerts.firing() - (may - set(wanted))), sorted(wanted), f"alerts, of {self.alerts.samples[-1]}")

    def page(self, first, change=lambda it: it):
        """The page's own commands."""
        return self.clean.shell(change(block(OPERATING, first)))

    def refused(self, words):
        """The start of the server is refused, and one line of the log says why, again and again."""
        last = lambda: self.clean.shell("journalctl -u femem -o cat --no-pager -n 1").strip()
        until(lambda: words in last(), 60, f"the log says {words}")
        holds(not self.unit.is_up(), "it serves")

    def up(self):
        self.clean.ask("systemctl", "start", "femem")
        self.unit.waits()

    def forget(self):
        """What an hour of Prometheus forgets."""
        del self.alerts.samples[:-1]


def installed(year):
    """A disk of its own, the package, an old machine's store, and the timers."""
    clean = year.clean
    clean.shell(f"truncate -s 40M {DISK}; mkfs.ext4 -q {DISK}; mkdir -p {MOUNT}; mount -o loop {DISK} {MOUNT}; rmdir {MOUNT}/lost+found")
    clean.install("femem")
    year.unit.waits()
    entries = [("attached", 7, 1), ("finished", 7, 1, ("create", b"count", 1, 1), ("array", 1, 1))]
    Path(clean.path("/srv/older")).write_bytes(store.device_of(store.TWO, None, [entries]))
    # copied over the store that is served, before its first group: nobody is answered over it, and the next start has all of it
    clean.shell(f"cp /srv/older {STORE}")
    with year.unit.connect() as conn:
        conn.send(wire.attach(year.session))
        holds(conn.has_ended(), "an answer over a store that was copied in")
    year.unit.waits()
    holds(clean.do("femem", "look", "--store", STORE).startswith("place 2\n"), "the old store")
    year.page("systemctl stop femem\nfemem-store restore", lambda it: it.replace("/backup/femem.store", "/srv/older"))
    year.unit.waits()
    for first in ("systemctl enable --now femem-watch.timer", "  systemctl enable --now femem-backup.timer"):
        year.page(first)
    same(clean.do("systemctl", "is-enabled", "femem-watch.timer", "femem-backup.timer"), "enabled\nenabled\n")
    # (here the minutes and the nights are this check's own)
    clean.do("systemctl", "stop", "femem-watch.timer", "femem-backup.timer")
    clean.ask("systemctl", "stop", "femem-watch.service", "femem-backup.service")
    clean.shell(f"rm -f {BACKUP}*")
    year.begins(1)
    year.adds(20)
    year.watch("FememBackupOld")


def nights(year):
    """A week of backups, and one that fails for days."""
    aged = f"for it in {BACKUP}*; do touch -d \"@$(($(stat -c %Y $it) - {DAY}))\" $it; done"
    for _ in range(9):
        year.adds(10)
        year.runs("femem-backup.service")
        year.watch()
        year.clean.shell(aged)
    places = [int(it) for it in re.findall(r"^place (\d+)$", year.clean.shell(f"for it in $(ls -v {BACKUP}*); do femem look --store $it; done"), re.M)]
    same((len(places), places), (7, sorted(places, reverse=True)), "seven copies, the newest first")
    year.clean.shell(f"{aged}; {aged}")
    year.watch("FememBackupOld")
    year.runs("femem-backup.service")
    year.watch()


def bad_sector(year):
    """Unused bytes can't be read: the start is refused; the page's backup of the stopped store has everything."""
    shutil.copy(preload(year.place, "sector.c"), year.clean.path("/srv/sector.so"))
    bad = {"LD_PRELOAD": "/srv/sector.so", "BAD_FILE": STORE, "BAD_BEGIN": str(store.SLOT - 8192), "BAD_END": str(store.SLOT - 4096)}
    year.adds(5)
    folder = "/run/systemd/system/femem.service.d"
    lines = "".join(f"Environment={name}={value}\n" for name, value in bad.items())
    year.clean.shell(f"mkdir -p {folder}; printf '[Service]\\n{lines.replace(chr(10), chr(92) + 'n')}' > {folder}/bad.conf; systemctl daemon-reload")
    year.clean.ask("systemctl", "restart", "femem")
    year.refused(f"bytes {store.SLOT - 8192} to {store.SLOT - 4097} can't be read")
    year.watch("FememDoesNotAnswer")
    year.clean.do("systemctl", "stop", "femem")
    year.clean.do("femem-store", "backup", STORE, "/srv/whole", env=bad)
    # (a new disk)
    year.clean.shell(f"rm -r {folder}; systemctl daemon-reload; femem-store restore /srv/whole {STORE}")
    year.up()
    same(year.reads(), year.count, "the counter after a bad sector")
    year.forget()
    year.watch()


def overwritten(year):
    """A copy is written over the served store: nobody is answered, no start takes it; the page's restore loses what it says: what was answered since the backup."""
    at_backup = year.count
    year.runs("femem-backup.service")
    year.adds(12)
    year.watch()
    year.clean.shell(f"cp {BACKUP}.2 {STORE}")
    with year.unit.connect() as conn:
        conn.send(wire.attach(year.session))
        holds(conn.has_ended(), "an answer over a store that was overwritten")
    year.refused("and the last known place is ")
    year.watch("FememDoesNotAnswer", "FememRestarts")
    year.page("systemctl stop femem\nfemem-store restore", lambda it: it.replace("/backup/femem.store", BACKUP))
    year.unit.waits()
    year.count = at_backup
    same(year.reads(), year.count, "the counter after a restore")
    year.begins(1)
    year.adds(3)
    year.forget()
    year.watch()


def upgraded(year):
    before = year.unit.pid()
    year.clean.install("femem")
    until(lambda: year.unit.pid() not in (0, before) and year.unit.is_up(), 60, "the upgrade starts the server again")
    year.adds(3)
    year.forget()
    year.watch()


def full_disk(year):
    """A full disk keeps nobody from being served, also after a start."""
    year.clean.ask("sh", "-c", f"dd if=/dev/zero of={MOUNT}/fill bs=64k; dd if=/dev/zero of={MOUNT}/fill2 bs=512")
    year.adds(40)
    year.watch()
    year.clean.do("systemctl", "restart", "femem")
    year.unit.waits()
    year.adds(3)
    year.clean.shell(f"rm {MOUNT}/fill*")


def hung_disk(year):
    """A disk that hangs: nothing is stored, and the metrics say so; when it goes on, so does the server."""
    year.clean.do("fsfreeze", "--freeze", MOUNT)
    try:
        year.watch("FememStoresNothing", "FememStoresSlowly")
    finally:
        year.clean.do("fsfreeze", "--unfreeze", MOUNT)
    year.adds(3)
    year.watch()


def lost_mount(year):
    """A mount that is missing: no server begins with an empty folder; mounted again, all is there."""
    year.clean.shell(f"systemctl stop femem; umount {MOUNT}")
    year.clean.ask("systemctl", "start", "femem")
    year.refused("no file is there")
    year.watch("FememDoesNotAnswer")
    year.clean.shell(f"install -d -o femem -g femem -m 750 {MOUNT}; setpriv --reuid femem --regid femem --clear-groups sh -c 'cp /srv/empty {STORE} && chmod 600 {STORE}'")
    year.refused("it is at place 0, and the last known place is ")
    year.clean.shell(f"systemctl stop femem; rm {MOUNT}/*; mount -o loop {DISK} {MOUNT}")
    year.up()
    same(year.reads(), year.count, "the counter after a lost mount")
    year.adds(3)


@within(400)
def year(place):
    """an operator's year: an old store, nights, a bad sector, an overwritten store, a restore, an upgrade, a full disk, a hung disk, a lost mount: the alert fires, the page mends it, no answer is lost that it does not name"""
    for tool in ("mkfs.ext4", "fsfreeze"):
        if not shutil.which(tool, path=f"/usr/sbin:/sbin:{os.environ['PATH']}"):
            raise Skipped(f"there is no {tool}")
    if subprocess.run(["losetup", "--find"], stdout=subprocess.DEVNULL, stderr=subprocess.DEVNULL, check=False).returncode:
        raise Skipped("there is no loop device")
    with Clean(place, built(place)) as clean:
        it = Year(place, clean)
        Path(clean.path("/srv/empty")).write_bytes(store.device_of(store.TWO))
        for step in (installed, nights, bad_sector, overwritten, upgraded, full_disk, hung_disk, lost_mount):
            try:
                step(it)
            except Wrong as why:
                raise Wrong(f"{step.__name__}: {why}: {clean.shell('journalctl -u femem -u femem-watch -u femem-backup -o cat --no-pager -n 12')}") from None
        same(it.reads(), it.count, "the counter")
        return f"{it.count} additions"
