"""Builds the Debian packages of a program and its clients, and prints their paths: femem (the server), femem-cli, libfemem1,
libfemem-dev, python3-femem and femem-doc.

Usage: scripts/make_deb PROGRAM FOLDER RECORD
       scripts/make_deb --unproved PROGRAM FOLDER

RECORD is the proof's record: it must be of this very program and of the present sources, and is included. `--unproved` is for tests.
The same sources and the same program give the same bytes: files have the time of SOURCE_DATE_EPOCH, or of the last commit, and
belong to root. It needs dpkg-deb, make and a C compiler, but no network.
"""

import os
import re
import shutil
import stat
import subprocess
import sys
import tempfile
import zipfile
from pathlib import Path

from . import builds, pages, record as records, versions
from .tree import TOP, Tree, read

# The names under which the commands of femem-store stood alone.
FORMER = ("make-store", "femem-backup", "femem-restore", "femem-rescue", "femem-probe")
MODULES = "usr/lib/python3/dist-packages"
SHELL = b"#!/usr/bin/python3\nimport sys\n\nfrom femem._shell import main\n\nsys.exit(main())\n"

# The documents and examples, in folders as in the repository, so that each link leads to the same file.
DOCUMENTS = "usr/share/doc/femem"
TITLES = ("README.md", "ARCHITECTURE.md", "CONTRIBUTING.md", "CHANGELOG.md")
READMES = ("clients/c/README.md", "clients/python/README.md", "packaging/README.md", "bench/hall/README.md")


def listed(*path):
    """The files of a folder."""
    return sorted(it for it in os.listdir(os.path.join(TOP, *path)) if it != "__pycache__")


def server(tree, made):
    tree.put("usr/bin/femem", made.program, 0o755)
    tree.put("usr/lib/femem/femem-store", read("packaging", "tools", "femem-store"), 0o755)
    tree.link("usr/bin/femem-store", "../lib/femem/femem-store")
    for name in FORMER:
        tree.link(f"usr/lib/femem/{name}", "femem-store")
    for name in listed("packaging", "tools", "femem_store"):
        tree.put(f"usr/lib/femem/femem_store/{name}", read("packaging", "tools", "femem_store", name))
    tree.put("lib/systemd/system/femem.service", read("examples", "femem.service"))
    tree.put("lib/systemd/system/femem@.service", instance(read("examples", "femem.service").decode()).encode())
    for name in listed("packaging", "units"):
        tree.put(f"lib/systemd/system/{name}", read("packaging", "units", name))
    tree.put("usr/lib/tmpfiles.d/femem.conf", read("packaging", "femem-tmpfiles.conf"))
    tree.put("etc/femem.toml", read("packaging", "femem.toml"))
    tree.folders("var/lib/femem")
    for page in pages.PAGES:
        manual(tree, *page)
    if made.record:
        tree.put("usr/share/doc/femem/proof", made.record)


def instance(unit):
    """The unit of a further server, femem@NAME, with paths of its own."""
    for one, other in (
        ("/etc/femem.toml", "/etc/femem-%i.toml"), ("/run/femem/", "/run/femem-%i/"), ("=femem\nRuntimeDirectoryMode", "=femem-%i\nRuntimeDirectoryMode"),
        ("/var/lib/femem-clients", "/var/lib/femem-%i/clients"), ("/var/lib/femem ", "/var/lib/femem-%i "), ("/var/lib/femem\n", "/var/lib/femem-%i\n"),
        ("Description=femem,", "Description=femem %i,"),
    ):
        unit = unit.replace(one, other)
    return unit


def manual(tree, name, number, *rest):
    tree.zipped(f"usr/share/man/man{number}/{name}.{number}", pages.page(name, number, *rest).encode())


def take(tree, root, path, mode=0o644):
    """A file, or a link, from the folder where the C parts were installed. Manual pages are compressed."""
    there = os.path.join(root, path)
    if os.path.islink(there):
        # (manual pages are compressed)
        zipped = ".gz" if "/man/" in path else ""
        tree.link(path + zipped, os.readlink(there) + zipped)
    elif "/man/" in path:
        tree.zipped(path, read(there))
    else:
        tree.put(path, read(there), mode)


def command(tree, made):
    take(tree, made.root, "usr/bin/femem-cli", 0o755)
    for path in ("man/man1/femem-cli.1", "bash-completion/completions/femem-cli"):
        take(tree, made.root, f"usr/share/{path}")
    tree.put("usr/share/zsh/vendor-completions/_femem-cli", read(made.root, "usr/share/zsh/site-functions/_femem-cli"))


def library(tree, made):
    for name in (f"libfemem.so.{versions.number()}", "libfemem.so.1"):
        take(tree, made.root, f"{builds.LIBRARIES[1:]}/{name}")
    tree.put("DEBIAN/symbols", symbols(made.root + f"{builds.LIBRARIES}/libfemem.so.1").encode())


def symbols(path):
    """What dpkg-shlibdeps reads: for each name of the library and its version, the version of the package that a program needs. Names
    have versions since 1.1.0, which calls those of 1.0.0 FEMEM_1.0."""
    said = subprocess.check_output(["nm", "-D", "--defined-only", path], text=True)
    lines = ["libfemem.so.1 libfemem1 #MINVER#"]
    for name, node in sorted(re.findall(r" [TA] (\w[\w.]*)(?:@@?(\S+))?$", said, re.M)):
        node = node or name
        lines.append(f" {name}@{node} {'1.1.0' if node == 'FEMEM_1.0' else node.removeprefix('FEMEM_') + '.0'}~")
    return "\n".join(lines) + "\n"


def development(tree, made):
    take(tree, made.root, "usr/include/femem.h")
    for name in sorted(os.listdir(os.path.join(made.root, "usr/share/man/man3"))):
        take(tree, made.root, f"usr/share/man/man3/{name}")
    for name in ("libfemem.a", "libfemem.so", "pkgconfig/femem.pc"):
        take(tree, made.root, f"{builds.LIBRARIES[1:]}/{name}")


def modules(tree, made):
    wheel = next(it for it in os.listdir(made.wheels) if it.endswith(".whl"))
    with zipfile.ZipFile(os.path.join(made.wheels, wheel)) as archive:
        for name in archive.namelist():
            if os.path.basename(name) not in ("LICENSE", "RECORD"):
                tree.put(f"{MODULES}/{name}", archive.read(name))
    tree.put("usr/bin/femem-shell", SHELL, 0o755)
    manual(tree, *pages.SHELL)


def files_below(folder):
    """The paths of a folder's files: those that git has, or all in a text without git, such as a source package."""
    said = subprocess.run(["git", "-C", TOP, "ls-files", "-z", folder], capture_output=True, text=True, check=False).stdout
    names = said.split("\0")
    known = [it for it in names if it and os.path.exists(os.path.join(TOP, it))]
    walked = [os.path.join(at, it) for at, _, inside in os.walk(os.path.join(TOP, folder)) for it in inside]
    return known or [os.path.relpath(it, TOP) for it in walked if "/out/" not in it and not it.endswith(".pyc")]


def documents(tree, _made):
    for path in sorted([*TITLES, *READMES, *files_below("docs"), *files_below("examples")]):
        runs = os.stat(os.path.join(TOP, path)).st_mode & stat.S_IXUSR
        tree.put(f"{DOCUMENTS}/{path}", read(path), 0o755 if runs else 0o644)


PACKAGES = {
    "femem": server, "femem-cli": command, "libfemem1": library, "libfemem-dev": development, "python3-femem": modules,
    "femem-doc": documents,
}


class Made:
    """What goes into the packages: the program and its record, the Python client's wheel, and the installed C parts."""

    def __init__(self, room, program, record):
        self.program, self.record = program, record
        self.wheels = os.path.join(room, "wheels")
        os.mkdir(self.wheels)
        clients = builds.sources(room)
        builds.python(clients, self.wheels)
        self.root = builds.c(clients, room)


def build(program, folder, record=None):
    """Builds the packages in the folder. Returns their paths."""
    if not shutil.which("dpkg-deb"):
        sys.exit("femem: dpkg-deb, of Debian's package dpkg, is not on the PATH")
    os.makedirs(folder, exist_ok=True)
    with tempfile.TemporaryDirectory() as room:
        made = Made(room, program, record)
        paths = []
        for name, fill in PACKAGES.items():
            tree = Tree(name, os.path.join(room, "packages", name))
            fill(tree, made)
            paths.append(tree.packed(folder))
    return paths


def main():
    words = sys.argv[1:]
    unproved = words[:1] == ["--unproved"]
    if len(words) != 3:
        sys.exit("usage: scripts/make_deb PROGRAM FOLDER RECORD\n       scripts/make_deb --unproved PROGRAM FOLDER")
    program, folder = words[1:] if unproved else words[:2]
    fault = None if unproved else records.fault_of(program, words[2])
    if fault:
        sys.exit(f"femem: {fault}: 'make prove' proves these sources")
    content = Path(program).read_bytes()
    kept = None
    if not unproved:
        kept = Path(words[2]).read_bytes()
    print("\n".join(build(content, folder, kept)))
