"""A failed sync on a real device: ext4 on memory (zram) that refuses writes for a while. It needs root, mkfs.ext4 and zram."""

import mmap
import os
import shutil
import subprocess
from pathlib import Path

from . import store, wire
from .crowds import adding
from .faults import Client, answered, at_an_end_of_a_page
from .harness import Held, Server, Skipped, holds, same
from .storetool import ran

CONTROL = "/sys/class/zram-control"


def put(path, text):
    Path(path).write_text(text, "ascii")


class Device:
    """A device in memory with a file system, mounted at a folder."""

    def __init__(self, folder):
        self.number = int(Path(f"{CONTROL}/hot_add").read_text("ascii"))
        self.folder = folder
        self.node = f"/dev/zram{self.number}"
        self.is_mounted = False
        put(f"/sys/block/zram{self.number}/disksize", "64M")
        if not os.path.exists(self.node):
            with open(f"/sys/block/zram{self.number}/dev", encoding="ascii") as file:
                os.mknod(self.node, 0o60600, os.makedev(*map(int, file.read().split(":"))))
        subprocess.run(["mkfs.ext4", "-q", self.node], check=True)
        self.mount()

    def mount(self):
        subprocess.run(["mount", self.node, self.folder], check=True)
        self.is_mounted = True

    def unmount(self):
        subprocess.run(["umount", self.folder], check=True)
        self.is_mounted = False

    def refuse(self, refuses):
        """Refuses further writes, or takes them again."""
        put(f"/sys/block/zram{self.number}/mem_limit", "4K" if refuses else "0")

    def remove(self):
        if self.is_mounted:
            self.refuse(False)
            self.unmount()
        put(f"/sys/block/zram{self.number}/reset", "1")
        put(f"{CONTROL}/hot_remove", str(self.number))


def failed_sync(place, device, work):
    """A server whose first group's gate does not get to the device: it ends, and reports the device."""
    held = Held(place, "fdatasync")
    server = Server(place, store=os.path.join(device.folder, "store"), format=False).start(held.env)
    with server.connect() as conn:
        held.next()
        conn.send(wire.attach(7))
        held.wait()
        # lets the first sync go on, and holds the second
        held.next()
        held.let_go()
        held.wait()
        device.refuse(True)
        held.let_go()
    holds(Client(server, work).until_end(), "the server goes on")
    same(server.ended(), (3, "", "femem: store device\n"))
    device.refuse(False)
    os.unlink(server.socket)
    return server


def made(place):
    """A device with a store on it whose next group's gate is the last byte of a page."""
    if os.geteuid() != 0 or not os.path.exists(CONTROL) or not shutil.which("mkfs.ext4"):
        raise Skipped("it needs root, mkfs.ext4 and a kernel with zram")
    folder = place.path("device")
    os.mkdir(folder)
    device = Device(folder)
    base = at_an_end_of_a_page()
    with open(os.path.join(folder, "store"), "wb") as file:
        file.write(base)
        os.fsync(file.fileno())
    return device, base


def on_device(device, path):
    """The state on the device: the file system is mounted again, so that everything is read from it."""
    device.unmount()
    device.mount()
    return store.read_store(Path(path).read_bytes())[2]


WORK = [adding(1, 0, 1)] * 6


def serves_all(server, wanted):
    """The server that was started again answers all of the work."""
    client = Client(server.start(), WORK)
    holds(client.attempt(), "the server that was started again ended a connection")
    same(client.answers, wanted)
    server.stop()


def answers_kept(state, wanted):
    kept = state.sessions[7].kept if 7 in state.sessions else {}
    same([kept.get(number, (None, "lost"))[1] for number in range(1, len(wanted) + 1)], wanted, "what the device has of what was answered")


def restarted(place):
    """a sync fails, the server is started again and answers, and the file system is mounted again: nothing that was answered is lost"""
    device, base = made(place)
    try:
        wanted = answered(WORK, store.read_store(base)[2])
        server = failed_sync(place, device, WORK)
        serves_all(server, wanted)
        answers_kept(on_device(device, server.store), wanted)
    finally:
        place.end()
        device.remove()


def mapped(place):
    """the same with the pages mapped by another program: they stay, and the check refuses the start; mounted again, as the page says, nothing is lost"""
    device, base = made(place)
    path = os.path.join(device.folder, "store")
    try:
        with open(path, "rb") as file, mmap.mmap(file.fileno(), len(base), mmap.MAP_SHARED, mmap.PROT_READ) as pages:
            pages[:]
            server = failed_sync(place, device, WORK)
            pages[:]
            shown = server.looks()
            status, text, errors = ran(place, "check", path)
            holds(status == 1 and f"from byte {at_gate(base)} on the system holds in memory what the device does not have" in errors, f"{text}{errors}")
            same(ran(place, "note", path), (0, "", ""), "what the device does not have is not noted")
        holds(shown.startswith(f"place {store.read_store(base)[2].place + 1}\n"), f"the pages that were mapped are gone: {shown}")
        same(on_device(device, path).place, store.read_store(base)[2].place, "the place on the device")
        same(ran(place, "check", path), (0, "", ""), "the check after a mount")
        wanted = answered(WORK, store.read_store(base)[2])
        serves_all(server, wanted)
        answers_kept(on_device(device, path), wanted)
    finally:
        place.end()
        device.remove()


def at_gate(content):
    """The gate at which the groups end."""
    at = store.slots_of(content)[0].at + store.JOURNAL
    while content[at] == 1:
        at += 5 + int.from_bytes(content[at + 1 : at + 5], "big")
    return at
