"""Why a server refuses a store, or should not be started over it: each cause in a line."""

from __future__ import annotations

import fcntl
import grp
import os
import pathlib
import pwd
import stat
from typing import Iterator, List, Optional

from . import device, places, program
from .files import Fault, holder, unreadable, whole
from .layout import SIZE


class Who:
    """The user who is to serve the store, and the groups."""

    def __init__(self, name: Optional[str]) -> None:
        self.name = name
        try:
            found = pwd.getpwnam(name) if name else None
        except KeyError:
            raise Fault(f"there is no user {name}") from None
        self.uid = found.pw_uid if found else os.geteuid()
        self.groups = os.getgrouplist(name, found.pw_gid) if name and found else [os.getegid(), *os.getgroups()]

    def may(self, path: str, wanted: int) -> bool:
        """Whether the mode lets the user do this: 4 to read, 2 to write, 1 to go through a folder."""
        found = os.stat(path)
        if self.uid == 0:
            return True
        shift = 6 if found.st_uid == self.uid else 3 if found.st_gid in self.groups else 0
        return found.st_mode >> shift & wanted == wanted


def owner_of(path: str) -> str:
    """The mode, owner and group of a file, as a line names them."""
    found = os.stat(path)
    try:
        user, group = pwd.getpwuid(found.st_uid).pw_name, grp.getgrgid(found.st_gid).gr_name
    except KeyError:
        user, group = str(found.st_uid), str(found.st_gid)
    return f"mode {stat.S_IMODE(found.st_mode):04o}, {user}:{group}"


def folders_to(folder: str) -> List[str]:
    """The folder, and those above it, the topmost first."""
    last = pathlib.Path(os.path.realpath(folder))
    return [str(it) for it in reversed([last, *last.parents])]


def of_path(store: str, who: Who) -> Iterator[str]:
    """What keeps a server from the file: a folder, a link, a kind or a size that is wrong, and rights."""
    folder = os.path.dirname(os.path.abspath(store))
    try:
        os.stat(folder)
    except OSError as error:
        yield f"its folder {folder}: {error.strerror}"
        return
    closed = next((it for it in folders_to(folder) if not who.may(it, 1)), None)
    if closed is not None:
        yield f"user {who.uid} may not use the folder {closed} ({owner_of(closed)})"
    elif not os.path.lexists(store):
        yield "no file is there"
    elif not os.path.exists(store):
        yield f"it is a link to {os.readlink(store)}, where no file is"
    elif not stat.S_ISREG(os.stat(store).st_mode):
        yield "it is no plain file"
    elif os.stat(store).st_size != SIZE:
        yield f"it has {os.stat(store).st_size} bytes, and a store has {SIZE}: it was cut, or is another file"
    elif not who.may(store, 6):
        yield f"user {who.uid} may not read and write it ({owner_of(store)})"
    elif os.statvfs(store).f_flag & os.ST_RDONLY:
        yield "its file system is read-only"


def in_the_way(store: str) -> Iterator[str]:
    """What keeps a server from making a store."""
    folder = os.path.dirname(os.path.abspath(store))
    found = os.statvfs(folder)
    if found.f_flag & os.ST_RDONLY:
        yield f"the file system of {folder} is read-only"
    elif found.f_bavail * found.f_frsize < SIZE:
        yield f"the file system of {folder} has {found.f_bavail * found.f_frsize} bytes left, and a store needs {SIZE}"
    for name in (f"{store}.new", f"{store}.before-format"):
        if os.path.lexists(name):
            yield f"{name} may be in the way of making a store"


def of_memory(store: str, descriptor: int) -> Iterator[str]:
    """What is wrong between the system's memory and the device."""
    try:
        byte = device.stale_byte(store, descriptor)
    except device.NoDirectReads as why:
        print(f"{store}: not compared with the device: its file system has no direct reads ({why})", flush=True)
    except Fault as fault:
        yield f"it can't be synced: {fault}"
    else:
        if byte is not None:
            yield (
                f"from byte {byte} on the system holds in memory what the device does not have: stop the program that has the file mapped, or"
                " mount its file system again"
            )


def of_bytes(store: str, descriptor: int, may_format: bool, last: Optional[int]) -> Iterator[str]:
    """Whether the store opens, at a place no lower than the last known one. Bytes that can't be read are a cause if it does not."""
    lost = whole(descriptor, store)[1]
    text, fault = program.look(store)
    if text is not None:
        if lost:
            print(f"{store}: {unreadable(lost)}, and are in no use now", flush=True)
        if last is not None and program.first(text) < last:
            yield f"it is at place {program.first(text)}, and the last known place is {last}: {places.HOW}"
        return
    if lost:
        yield f"{unreadable(lost)}: `femem-store backup` gives all of the store if they are in no use, or else `femem-store rescue` what is left"
    if not (may_format and fault == "femem: store unformatted" and not last):
        yield f"{fault}" + (f" (the last known place is {last})" if last is not None else "")


def causes(store: str, may_format: bool, last: Optional[int], user: Optional[str] = None) -> Iterator[str]:
    """The causes for which no server should be started over this store now, the first first. `last` is the last known place."""
    first = next(of_path(store, Who(user)), None)
    if first is not None:
        if first == "no file is there" and may_format:
            yield from in_the_way(store)
            first = f"no file is there, though the last known place is {last}: {places.HOW}" if last else None
        if first is not None:
            yield first
        return
    try:
        descriptor = os.open(store, os.O_RDWR | os.O_CLOEXEC | os.O_NONBLOCK)
    except OSError as error:
        yield f"it can't be opened: {error.strerror}"
        return
    is_served = False
    try:
        fcntl.flock(descriptor, fcntl.LOCK_EX | fcntl.LOCK_NB)
    except OSError:
        is_served = True
        yield f"it is served: {holder(descriptor)} has its lock"
    # (while somebody writes it, the two may differ)
    yield from () if is_served else of_memory(store, descriptor)
    yield from of_bytes(store, descriptor, may_format, last)
    # (a server that starts now must get the lock)
    os.close(descriptor)
