"""Puts a release into one folder: the Debian packages, the Python client's wheel and source archive, the C library's archive, the
proof's record, and the SHA-256 sums of all of them.

Usage: scripts/dist [--try] PROGRAM RECORD FOLDER

It refuses a program whose record is not of the present sources, and a text that is no release (scripts/release/versions.py), unless it
is only tried. The same sources give the same files. It needs dpkg-deb, make and a C compiler, but no network.
"""

import gzip
import io
import os
import shutil
import subprocess
import sys
import tarfile
import tempfile
import time
import zipfile
from pathlib import Path

from . import builds, package, record as records, tree, versions


def dated_wheel(path, epoch):
    """The wheel with the release's time on all of its files."""
    with zipfile.ZipFile(path) as archive:
        files = [(it.filename, archive.read(it)) for it in archive.infolist()]
    with zipfile.ZipFile(path, "w", zipfile.ZIP_DEFLATED) as archive:
        for name, content in files:
            info = zipfile.ZipInfo(name, time.gmtime(epoch)[:6])
            info.compress_type = zipfile.ZIP_DEFLATED
            info.external_attr = 0o100644 << 16
            archive.writestr(info, content)


def packed(path, files, epoch):
    """An archive of these files, (name, info, content), which belong to root and all have the release's time."""
    made = io.BytesIO()
    with tarfile.open(fileobj=made, mode="w") as archive:
        for name, info, content in files:
            info.name = name
            info.uid = info.gid = 0
            info.uname = info.gname = "root"
            info.mtime = epoch
            info.pax_headers = {}
            archive.addfile(info, io.BytesIO(content) if info.isreg() else None)
    Path(path).write_bytes(gzip.compress(made.getvalue(), 9, mtime=0))


def dated_source(path, epoch):
    """The source archive with the release's time on all of its files."""
    with tarfile.open(path) as archive:
        files = [(it.name, it, archive.extractfile(it).read() if it.isreg() else b"") for it in archive]
    packed(path, files, epoch)


def c(clients, folder, epoch):
    """What `make install` of the C client puts into a prefix, as an archive to unpack there."""
    name = f"femem-c-{versions.version()}-linux-amd64"
    with tempfile.TemporaryDirectory() as room:
        # (debugging information would have the path of this copy)
        flags = [f"CFLAGS={builds.C_FLAGS}", f"LDFLAGS={builds.LINK_FLAGS}"]
        words = ["make", "-s", "-C", os.path.join(clients, "c"), "install", "PREFIX=/usr/local", f"DESTDIR={room}", *flags]
        subprocess.run(words, check=True, stdout=subprocess.DEVNULL)
        top = os.path.join(room, "usr", "local")
        found = []
        for at, folders, names in os.walk(top):
            found += [os.path.join(at, it) for it in (*names, *(it for it in folders if os.path.islink(os.path.join(at, it))))]
        files = []
        with tarfile.open(fileobj=io.BytesIO(), mode="w") as archive:
            for path in sorted(found):
                info = archive.gettarinfo(path)
                content = b""
                if info.isreg():
                    content = Path(path).read_bytes()
                files.append((f"{name}/{os.path.relpath(path, top)}", info, content))
        packed(os.path.join(folder, f"{name}.tar.gz"), files, epoch)


def refuses(program, record, is_try):
    """Ends with status 1 if this program or this text must not be released."""
    fault = records.fault_of(program, record)
    if fault:
        sys.exit(f"femem: {fault}: 'make prove' proves these sources")
    fault = None if is_try else versions.fault_of_release()
    if not fault and not is_try and tree.maintainer() == tree.NOBODY:
        fault = "nobody maintains it: FEMEM_MAINTAINER='NAME <ADDRESS>'"
    if fault:
        sys.exit(f"femem: {fault}: CONTRIBUTING.md says how a release is made")


def of_clients(folder, epoch):
    """Wheel, source archive and C library."""
    with tempfile.TemporaryDirectory() as room:
        clients = builds.sources(room)
        builds.python(clients, folder)
        for name in os.listdir(folder):
            if name.endswith(".whl"):
                dated_wheel(os.path.join(folder, name), epoch)
            elif name.endswith(".tar.gz"):
                dated_source(os.path.join(folder, name), epoch)
        c(clients, folder, epoch)


def dist(program, record, folder, is_try=False):
    refuses(program, record, is_try)
    shutil.rmtree(folder, ignore_errors=True)
    os.makedirs(folder)
    with open(program, "rb") as first, open(record, "rb") as second:
        package.build(first.read(), folder, second.read())
    of_clients(folder, versions.epoch())
    shutil.copyfile(record, os.path.join(folder, "proof"))
    names = sorted(os.listdir(folder))
    for name in names:
        if name != "proof" and not any(it in name for it in (versions.version(), versions.python())):
            sys.exit(f"femem: {name} is not of version {versions.version()}")
    with open(os.path.join(folder, "SHA256SUMS"), "w", encoding="ascii") as file:
        file.write("".join(f"{records.sum_of(os.path.join(folder, name))}  {name}\n" for name in names))
    return [*names, "SHA256SUMS"]


def main():
    is_try = sys.argv[1:2] == ["--try"]
    words = sys.argv[2:] if is_try else sys.argv[1:]
    if len(words) != 3:
        sys.exit("usage: scripts/dist [--try] PROGRAM RECORD FOLDER")
    for name in dist(*words, is_try):
        print(os.path.join(words[2], name))
