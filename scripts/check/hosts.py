"""A store on two hosts: a mirror of two network block devices. Either host can fail with its device at any moment.

Each host is a set of namespaces (processes, mounts, network) on this machine, with a disk exported by its own `nbd-server`. The
active host runs QEMU's `quorum` over both disks, which confirms a write or a sync once both disks have, a file system on that, and
the server. Killing a host's first process kills the whole host at once, and what it has not written reaches no disk.

Outside the gate: it needs root, /dev/fuse, loop devices and the Debian packages below. `make check-hosts` runs it.
"""

import contextlib
import os
import random
import shutil
import subprocess
import time

from . import kills
from .harness import Served, Wrong, children_of, ends, holds, same, until, within
from .history import History

PACKAGES = {
    "nbd-server": "nbd-server", "qemu-nbd": "qemu-utils", "nbdfuse": "libnbd-bin", "mkfs.ext4": "e2fsprogs", "ip": "iproute2",
    "ss": "iproute2", "pgrep": "procps", "mount": "mount", "nsenter": "util-linux",
}
DISK_BYTES = 48 << 20
TAKE_OVERS = 8
PORT = 10809


class Host:
    """A host with an address and a disk. Its processes end with it."""

    def __init__(self, place, name, address):
        self.place = place
        self.name = name
        self.address = address
        self.disk = place.path(f"disk.{name}")
        self.folder = place.path(f"host.{name}")
        self.mounted = place.path(f"mounted.{name}")
        self.lives = 0
        self.first = None
        for folder in (self.folder, self.mounted):
            os.mkdir(folder)

    def begin(self):
        self.lives += 1
        shutil.rmtree(self.folder)
        os.mkdir(self.folder)
        words = ["unshare", "--mount", "--net", "--pid", "--fork", "--kill-child", "--mount-proc", "sh", "-c", "while :; do sleep 1000; done"]
        self.holder = self.place.start(words, f"host.{self.name}", group=True)
        self.first = until(self.child, 60, "the host begins")
        self.do("ip", "link", "set", "lo", "up")

    def child(self):
        return next(iter(children_of(self.holder.pid)), None)

    def inside(self, *words):
        return ["nsenter", f"--target={self.first}", "--mount", "--net", "--pid", "--", *words]

    def do(self, *words):
        ran = subprocess.run(self.inside(*words), stdin=subprocess.DEVNULL, capture_output=True, timeout=60, text=True)
        same(ran.returncode, 0, f"host {self.name}: {' '.join(words)}: {ran.stderr or ran.stdout}")
        return ran.stdout

    def start(self, name, *words):
        return self.place.start(self.inside(*words), f"{name}.{self.name}")

    def lends(self):
        """Exports its disk, and confirms a sync once the disk has."""
        settings = self.place.write(f"nbd.{self.name}", (
            f"[generic]\nuser = root\ngroup = root\nport = {PORT}\n"
            f"[disk]\nexportname = {self.disk}\nflush = true\nfua = true\n"
        ).encode())
        self.lender = self.start("nbd-server", "nbd-server", "-d", "-C", settings)
        until(self.is_lending, 60, f"host {self.name} lends its disk")

    def ends(self, name):
        """Kills this host's processes of that name. It sees no others."""
        self.do("sh", "-c", f"for it in $(pgrep -x {name}); do kill -9 $it; done")

    def is_lending(self):
        return f":{PORT} " in self.do("ss", "--listening", "--tcp", "--numeric")

    def keeps(self):
        """Stops exporting its disk."""
        self.ends("nbd-server")
        until(lambda: not self.is_lending(), 60, f"host {self.name} keeps its disk")

    def mirror(self, hosts, confirmed):
        """A file over both hosts' disks: it confirms a write or a sync once `confirmed` of them have."""
        words = ["driver=raw", "file.driver=quorum", f"file.vote-threshold={confirmed}", "file.read-pattern=fifo"]
        for number, host in enumerate(hosts):
            of = f"file.children.{number}"
            words += [f"{of}.driver=nbd", f"{of}.export=disk", f"{of}.server.type=inet"]
            words += [f"{of}.server.host={host.address}", f"{of}.server.port={PORT}"]
        socket = os.path.join(self.folder, "mirror.socket")
        self.start("mirror", "qemu-nbd", f"--socket={socket}", "--persistent", "--cache=none", "--image-opts", ",".join(words))
        until(lambda: os.path.exists(socket), 60, f"the mirror of host {self.name} begins")
        file = os.path.join(self.folder, "mirror")
        with open(file, "wb"):
            pass
        self.fuse = None

        def is_file():
            # (the socket's file exists before anything listens on it)
            if self.fuse is None or self.fuse.poll() is not None:
                self.fuse = self.start("fuse", "nbdfuse", file, "--unix", socket)
            return self.do("stat", "--format=%s", file).strip() == str(DISK_BYTES)

        try:
            until(is_file, 120, "it is a file")
        except Wrong as why:
            said = [self.place.read(f"{name}.{self.name}.err").decode() for name in ("mirror", "fuse", "nbd-server")]
            runs = self.do("ps", "-eo", "pid,stat,wchan:24,etimes,args")
            raise Wrong(f"the mirror of host {self.name}: {why}: {said}, and there run {runs}") from None
        return file

    def mounts(self, file):
        self.do("mount", "-o", "loop", file, self.mounted)
        return Server(self)

    def unmounts(self):
        self.do("umount", self.mounted)

    def takes_over(self):
        """Continues with its own disk alone, out of reach of what the other host still has under way."""
        self.keeps()
        return self.mounts(self.disk)

    def dies(self):
        """The whole host ends at once, and its disk can't be reached."""
        self.holder.kill()
        self.holder.wait()
        until(lambda: not os.path.exists(f"/proc/{self.first}"), 60, "the host has ended")
        os.rename(self.disk, f"{self.disk}.gone")


class Server(Served):
    """The server of a host, for the clients of the other checks."""

    def __init__(self, host):
        self.host = host
        self.socket = host.place.path("femem.socket")
        # (this process's path to what is mounted only in the host)
        self.store = f"/proc/{host.first}/root{host.mounted}/femem.store"

    def start(self, is_new=False):
        if os.path.exists(self.socket):
            os.unlink(self.socket)
        lines = (f'socket = "{self.socket}"', f'store = "{self.host.mounted}/femem.store"', f"format = {str(is_new).lower()}")
        settings = self.host.place.write("femem.toml", "\n".join(lines).encode())
        self.process = self.host.start("femem", self.host.place.program, "serve", "--settings", settings)
        until(self.is_there, 60, "the server is there")
        return self

    def stop(self):
        """Ends the server but not its host."""
        self.host.ends(os.path.basename(self.host.place.program)[:15])
        self.process.wait(60)

    def ends(self):
        """Waits until the server has ended by itself."""
        ends(self.process, 60)

    def errors(self):
        return self.host.place.read(f"femem.{self.host.name}.err").decode()


class Pair:
    """Two hosts with a link between them."""

    def __init__(self, place):
        missing = sorted({package for word, package in PACKAGES.items() if not shutil.which(word)})
        holds(not missing, f"Debian's packages {' '.join(missing)} are missing")
        holds(os.geteuid() == 0 and os.path.exists("/dev/fuse"), "this check needs root and /dev/fuse")
        self.hosts = [Host(place, "a", "10.77.0.1"), Host(place, "b", "10.77.0.2")]
        for host in self.hosts:
            with open(host.disk, "wb") as file:
                file.truncate(DISK_BYTES)
            host.begin()
        self.link()

    def __enter__(self):
        return self

    def __exit__(self, *_):
        for host in self.hosts:
            host.holder.kill()
            host.holder.wait()

    def link(self):
        """Links the hosts, and makes each export its disk."""
        words = ["ip", "link", "add", "wire", "type", "veth", "peer", "name", "wire", "netns", str(self.hosts[1].first)]
        # (run with the machine's process numbers, which name the other host's process)
        subprocess.run(["nsenter", f"--target={self.hosts[0].first}", "--net", "--", *words], check=True, timeout=30)
        for host in self.hosts:
            host.do("ip", "address", "add", f"{host.address}/24", "dev", "wire")
            host.do("ip", "link", "set", "wire", "up")
            host.lends()
        return self.hosts

    def returns(self, dead, other):
        """A dead host comes back with a new disk, a copy of the other host's, which nobody writes meanwhile."""
        shutil.copyfile(other.disk, dead.disk)
        dead.begin()
        self.link()


class Crew(kills.Crew):
    """Clients that continue on every host."""

    def __init__(self, server):
        super().__init__(server, (1,), [kills.Storm(40)])

    def over(self, server):
        self.load.server = server
        self.load.begin()

    def end(self, server):
        self.load.server = server
        self.finish()
        self.judge(server)


def begun(pair, confirmed=2):
    """Starts a server on the first host, with a new store on both disks."""
    active = pair.hosts[0]
    file = active.mirror(pair.hosts, confirmed)
    active.do("mkfs.ext4", "-q", "-F", file)
    server = active.mounts(file)
    return server.start(is_new=True)


@within(400)
def taken_over(place):
    """the active host is killed with its disk under load, the other takes over with its own, in turns: everything answered is there"""
    with Pair(place) as pair:
        active, other = pair.hosts
        server = begun(pair)
        crew = Crew(server)
        answers = 0
        for turn in range(TAKE_OVERS):
            crew.over(server)
            random.choice((crew.load.wait_for_some, crew.load.wait_for_checkpoint))(1.5)
            active.dies()
            crew.load.join()
            answers += crew.load.answered
            server = other.takes_over()
            crew.compare(server)
            server.start()
            crew.over(server)
            crew.load.wait_for(lambda: crew.load.answered >= 100, 30)
            holds(crew.load.answered >= 100, "the other host answers")
            server.stop()
            crew.load.join()
            crew.compare(server)
            other.unmounts()
            pair.returns(active, other)
            active, other = other, active
            server = active.mounts(active.mirror(pair.hosts, 2)).start()
        crew.end(server)
        holds(answers > 100 * TAKE_OVERS, f"only {answers} answers")
    return f"{TAKE_OVERS} hosts killed, {answers} answers before, {crew.history.checkpoints} checkpoints, {crew.history.state.place} entries"


@contextlib.contextmanager
def loaded(place, least, confirmed=2):
    """A pair and its crew, over a mirror that confirms what so many disks have, after at least so many answers. Where one is enough,
    the other host does not lend its own."""
    with Pair(place) as pair:
        crew = Crew(begun(pair, confirmed))
        if confirmed == 1:
            pair.hosts[1].keeps()
        crew.load.begin()
        crew.load.wait_for(lambda: crew.load.answered >= least, 30)
        holds(crew.load.answered >= least, f"only {crew.load.answered} answers")
        yield *pair.hosts, crew


@within(120)
def peer_is_lost(place):
    """the other host is killed under load: the server ends with `femem: store device`, and both disks have everything answered"""
    with loaded(place, 300) as (active, other, crew):
        server = crew.load.server
        other.dies()
        server.ends()
        same((server.process.returncode, server.errors()), (3, "femem: store device\n"))
        crew.load.join()
        answered = crew.load.answered
        active.dies()
        # Each disk alone, on a restarted host. (One may have a group that the other lacks: that group was not answered.)
        told = {client: list(client.told) for client in crew.load.clients}
        for host in (active, other):
            os.rename(f"{host.disk}.gone", host.disk)
            host.begin()
            crew.history = History()
            crew.compare(host.mounts(host.disk))
            host.unmounts()
            for client, before in told.items():
                client.told.extend(before)
    return f"{answered} answers"


def is_still(load):
    """Whether no client gets an answer for a second."""
    before = load.answered
    time.sleep(1)
    return load.answered == before


@within(120)
def wire_is_cut(place):
    """the wire is cut under load, without an error: from then on no client is answered, and the other host has everything answered"""
    with loaded(place, 300) as (active, other, crew):
        other.do("ip", "link", "set", "wire", "down")
        # (for a moment, answers confirmed before are still on their way to the clients)
        until(lambda: is_still(crew.load), 30, "nobody is answered")
        answered = crew.load.answered
        time.sleep(1.5)
        same(crew.load.answered, answered, "answers while the wire is cut")
        active.dies()
        crew.load.join()
        crew.compare(other.takes_over())
    return f"{answered} answers"


@within(120)
def one_side_is_not_enough(place):
    """with a mirror that confirms what one disk has, the same check finds answers that the other host lost"""
    with loaded(place, 500, confirmed=1) as (active, other, crew):
        answered = crew.load.answered
        active.dies()
        crew.load.join()
        server = other.takes_over()
        try:
            crew.compare(server)
        except Wrong as why:
            return f"{answered} answers: {why}"
    raise Wrong("nothing is missing")
