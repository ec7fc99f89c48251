"""A clean Debian for the packages: this machine's own, under an overlay that takes all writes, with its own systemd, in namespaces, so
that the machine itself does not change. FEMEM_CLEAN_ROOT can name the root of another Debian, such as one made by mmdebstrap.
"""

import contextlib
import os
import random
import re
import shutil
import subprocess
from pathlib import Path

from . import wire
from .harness import Served, Skipped, Wrong, children_of, same, until

STORE = "/var/lib/femem/femem.store"
SOCKET = "/run/femem/femem.socket"
# (the index of man pages is not part of the package, and building it takes most of the time)
DPKG = ("dpkg", "--no-triggers", "--force-unsafe-io")
NAMES = ("femem", "femem-cli", "libfemem1", "libfemem-dev", "python3-femem", "femem-doc")

# OUTER makes the overlay and a control group, INNER the namespaces of what it starts.
OUTER = r"""
set -eu
mount -t tmpfs -o size=2g,mode=755 femem-check "$ROOM"
mkdir "$ROOM/upper" "$ROOM/work" "$ROOM/root" "$ROOM/group"
mount -t overlay overlay -o "lowerdir=$CLEAN,upperdir=$ROOM/upper,workdir=$ROOM/work" "$ROOM/root"
mount -t cgroup2 cgroup2 "$ROOM/group"
mkdir "$ROOM/group/$GROUP"
echo $$ > "$ROOM/group/$GROUP/cgroup.procs"
exec unshare --pid --cgroup --fork --kill-child bash -c "$INNER"
"""
INNER = r"""
set -eu
root=$ROOM/root
mount -t proc proc "$root/proc"
mount --bind "$root/proc/sys" "$root/proc/sys"
mount -o remount,bind,ro "$root/proc/sys"
mount -t sysfs -o ro sysfs "$root/sys"
mount -t cgroup2 cgroup2 "$root/sys/fs/cgroup"
mount --rbind /dev "$root/dev"
mount -t tmpfs -o mode=755 tmpfs "$root/run"
mount -t tmpfs -o mode=1777 tmpfs "$root/tmp"
cp "$PACKAGES"/*.deb "$root/srv"
rm -f "$root"/etc/systemd/system/*.wants/* "$root/usr/sbin/policy-rc.d"
# (without dbus no user but root can ask systemd)
if [ ! -x "$root/lib/systemd/systemd" ] || [ ! -x "$root/usr/bin/dbus-daemon" ]; then
  cp /etc/resolv.conf "$root/etc/resolv.conf" || true
  { chroot "$root" apt-get -q update && chroot "$root" apt-get -q install -y --no-install-recommends systemd dbus; } \
    || { echo "Debian's packages systemd and dbus are missing, and can't be installed" >&2; exit 9; }
fi
for it in $NAMES; do chroot "$root" dpkg --no-triggers --force-depends -P "$it" > /dev/null 2>&1 || true; done
# (in a root that is only changed no namespace of users can be made, and the unit has one)
mkdir -p "$root/srv/old"
cd "$root"
pivot_root . srv/old
exec env -i container=other PATH=/usr/sbin:/usr/bin:/sbin:/bin sh -c 'cd / && umount -l /srv/old && exec /lib/systemd/systemd --system --unit=basic.target'
"""


class Clean:
    """A clean Debian with systemd, in namespaces. Everything in it ends with its first process."""

    def __init__(self, place, packages):
        for word in ("dpkg", "unshare", "nsenter", "mount"):
            if not shutil.which(word):
                raise Skipped(f"there is no {word}: the package needs Debian")
        if os.geteuid() != 0:
            raise Skipped("its user is not root, who alone may mount a clean Debian")
        self.place = place
        self.group = f"femem-check-{os.getpid()}-{random.randrange(10**9)}"
        self.room = place.path("room")
        os.mkdir(self.room)
        env = {
            "ROOM": self.room, "GROUP": self.group, "INNER": INNER, "PACKAGES": packages, "NAMES": " ".join(NAMES),
            "CLEAN": os.environ.get("FEMEM_CLEAN_ROOT", "/"),
        }
        self.process = place.start(["unshare", "--mount", "--ipc", "--uts", "bash", "-c", OUTER], "clean", env, group=True)

    def __enter__(self):
        try:
            self.first = until(self.child, 120, "the clean Debian begins")
            until(lambda: self.state() in ("running", "degraded"), 120, "the clean Debian is up")
        except BaseException:
            self.ends()
            raise
        return self

    def __exit__(self, *_):
        self.ends()

    def ends(self):
        """Ends all of it, and removes its control group."""
        self.process.kill()
        self.process.wait()
        script = 'mount -t cgroup2 cgroup2 "$0" && until [ ! -d "$0/$1" ] || find "$0/$1" -depth -type d -exec rmdir {} +; do sleep 0.1; done'
        subprocess.run(["unshare", "--mount", "sh", "-c", script, self.room, self.group], stderr=subprocess.DEVNULL, timeout=30 * wire.patience)

    def child(self):
        """The first process of the namespaces, once it has become systemd."""
        if self.process.poll() is not None:
            raise Wrong(f"there is no clean Debian: {self.said('clean.err')}")
        for it in children_of(self.process.pid):
            with contextlib.suppress(FileNotFoundError, ProcessLookupError):
                if Path(f"/proc/{it}/comm").read_text("ascii").strip() == "systemd":
                    return it
        return None

    def said(self, name):
        return self.place.read(name).decode(errors="replace").strip()[-1500:]

    def path(self, path):
        """A path in the clean Debian, as seen from this process."""
        return f"/proc/{self.first}/root{path}"

    def ask(self, *words, env=None):
        """Runs a command there to its end: its status, output and errors."""
        how = ["nsenter", f"--target={self.first}", "--mount", "--uts", "--ipc", "--pid", "--cgroup", "--root", "--wd"]
        given = {"PATH": "/usr/sbin:/usr/bin:/sbin:/bin", "LC_ALL": "C.UTF-8", "DEBIAN_FRONTEND": "noninteractive", **(env or {})}
        ran = subprocess.run(
            [*how, "--", "env", "-i", *(f"{name}={value}" for name, value in given.items()), *words],
            stdin=subprocess.DEVNULL, stdout=subprocess.PIPE, stderr=subprocess.PIPE, timeout=100 * wire.patience,
        )
        return ran.returncode, ran.stdout.decode(errors="replace"), ran.stderr.decode(errors="replace")

    def do(self, *words, env=None):
        """Runs a command there that must succeed: its output."""
        status, output, errors = self.ask(*words, env=env)
        same(status, 0, f"{' '.join(words)}: {(output + errors)[-1500:]}")
        return output

    def shell(self, words, **how):
        """Runs commands there in a shell. All must succeed."""
        return self.do("sh", "-euc", words, **how)

    def install(self, *names):
        """Installs packages, as where root's folder for temporary files is one that root alone may enter (libpam-tmpdir)."""
        os.makedirs(self.path("/root/own-tmp"), 0o700, exist_ok=True)
        paths = self.shell("ls " + " ".join(f"/srv/{it}_[0-9]*.deb" for it in names)).split()
        self.do(*DPKG, "--install", *paths, env={"TMPDIR": "/root/own-tmp"})

    def state(self):
        if self.process.poll() is not None:
            raise Wrong(f"the clean Debian has ended: {self.said('clean.err')}")
        return self.ask("systemctl", "is-system-running")[1].strip()


class Unit(Served):
    """The server run by the unit, for the clients of the other checks."""

    def __init__(self, clean):
        self.clean = clean
        self.socket = clean.path(SOCKET)
        self.store = clean.path(STORE)

    def shows(self, *names):
        """What systemd says of the unit."""
        said = self.clean.do("systemctl", "show", "femem", *(f"--property={it}" for it in names))
        found = dict(line.split("=", 1) for line in said.splitlines())
        return tuple(found[it] for it in names)

    def pid(self):
        return int(self.shows("MainPID")[0])

    def is_up(self):
        return self.shows("ActiveState", "SubState") == ("active", "running") and os.path.exists(self.socket)

    def waits(self):
        try:
            until(self.is_up, 60, "the unit serves")
        except Wrong as why:
            raise Wrong(f"{why}: {self.clean.ask('systemctl', 'status', 'femem')[1]}") from None

    def kill(self):
        """Kills the server, and waits until systemd has started it again."""
        before = self.pid()
        self.clean.do("systemctl", "kill", "--signal=KILL", "--kill-whom=main", "femem")
        until(lambda: self.pid() not in (0, before) and self.is_up(), 60, "the killed server is started again")

    def status(self):
        """What the kernel says of the server's process."""
        return dict(re.findall(r"^(\w+):\s*(.*)$", Path(self.clean.path(f"/proc/{self.pid()}/status")).read_text("ascii"), re.M))

    def settings(self, text):
        Path(self.clean.path("/etc/femem.toml")).write_text(text, "ascii")


def installed(clean, *names):
    """Installs the server's package, and others with it, and waits until the unit serves."""
    clean.install("femem", *names)
    unit = Unit(clean)
    unit.waits()
    return unit
