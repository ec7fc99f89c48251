"""The Debian packages as files: what is in them, what they depend on, and where their links lead."""

import os
import re
import shutil
import subprocess
import tarfile
from pathlib import Path

from . import texts
from .clean import NAMES, SOCKET, STORE
from .harness import compiler, done, holds, same, within
from .manuals import versions

TOP = texts.TOP
NAME, SECONDS, CHANGED = versions.commit()
LIBRARIES = "/usr/lib/x86_64-linux-gnu"
DOCUMENTS = "/usr/share/doc/femem"

# A file or two of each package, and the packages that it must depend on.
HAS = {
    "femem": (
        ("/usr/share/man/man1/femem.1.gz", "/usr/share/man/man1/femem-store.1.gz", "/usr/share/man/man5/femem.toml.5.gz", "/usr/share/man/man5/femem-store.5.gz"),
        ("adduser", "debconf", "libc6", "python3"),
    ),
    "femem-cli": (("/usr/bin/femem-cli", "/usr/share/man/man1/femem-cli.1.gz"), ("libfemem1", "libc6")),
    "libfemem1": ((f"{LIBRARIES}/libfemem.so.1", f"{LIBRARIES}/libfemem.so.{versions.number()}"), ("libc6",)),
    "libfemem-dev": (
        ("/usr/include/femem.h", f"{LIBRARIES}/libfemem.a", f"{LIBRARIES}/libfemem.so", f"{LIBRARIES}/pkgconfig/femem.pc",
         "/usr/share/man/man3/libfemem.3.gz", "/usr/share/man/man3/femem_open.3.gz"),
        ("libfemem1",),
    ),
    "python3-femem": (("/usr/lib/python3/dist-packages/femem/__init__.py", "/usr/bin/femem-shell"), ("python3",)),
    "femem-doc": (("/usr/share/doc/femem/docs/operating.md", "/usr/share/doc/femem/examples/lock.txt"), ()),
}
TOOLS = ("femem-store", "femem_store/command.py", "femem_store/backup.py", "femem-backup", "femem-restore", "femem-rescue", "femem-probe", "make-store")
UNITS = ("femem.service", "femem-watch.service", "femem-watch.timer", "femem-backup.service", "femem-backup.timer")


def make(place, folder):
    # (a commit made meanwhile would change time and version)
    env = {"SOURCE_DATE_EPOCH": str(versions.epoch()), "FEMEM_COMMIT": f"{NAME} {SECONDS}{' changed' if CHANGED else ''}"}
    return done(place, [os.path.join(TOP, "scripts", "make_deb"), "--unproved", place.program, folder], env=env).split()


def built(place):
    """The folder of the packages of the program under test, which are built once for all checks of a run."""
    compiler()
    holds(shutil.which("dpkg-deb"), "there is no dpkg-deb on this machine: Debian's package dpkg is missing")
    folder = os.path.join(os.path.dirname(place.folder), "packages")
    if not os.path.isdir(folder):
        make(place, folder)
    return folder


def files_of(path):
    """A package's files: their contents, the targets of links, or None for folders. All belong to root, who alone may write them, and
    programs and scripts may be run."""
    tar = subprocess.Popen(["dpkg-deb", "--fsys-tarfile", path], stdout=subprocess.PIPE)
    found = {}
    with tarfile.open(fileobj=tar.stdout, mode="r|") as archive:
        for it in archive:
            content = archive.extractfile(it).read() if it.isfile() else it.linkname or None
            runs = it.isdir() or it.name.startswith("./usr/bin/") or it.isfile() and content.startswith(b"#!")
            same((it.uid, it.gid), (0, 0), f"{it.name}: its owner")
            holds(it.issym() or it.mode == (0o755 if runs else 0o644), f"{it.name}: its mode is {it.mode:o}")
            found[it.name[1:].rstrip("/")] = content
    tar.stdout.read()
    same(tar.wait(), 0)
    return found


def field(path, name):
    return subprocess.check_output(["dpkg-deb", "--field", path, name], text=True).strip()


@within(120)
def package(place):
    """two builds of the six packages are equal; each has its files and depends on what it needs; the program is there byte for byte"""
    folder = built(place)
    names = sorted(os.listdir(folder))
    same(names, sorted(os.path.basename(it) for it in make(place, place.path("again"))))
    found = {}
    for file in names:
        with open(os.path.join(folder, file), "rb") as first, open(place.path(f"again/{file}"), "rb") as second:
            holds(first.read() == second.read(), f"two packages {file} differ")
        path = os.path.join(folder, file)
        name = field(path, "Package")
        same(file, f"{name}_{versions.version()}_{field(path, 'Architecture')}.deb")
        found[name] = files_of(path)
        depends = {it.split()[0] for it in re.split(r", | \| ", field(path, "Depends")) if it}
        there, needs = HAS[name]
        holds(set(needs) <= depends, f"{name} depends on {sorted(depends)}")
        for it in (*there, f"/usr/share/doc/{name}/changelog.gz", f"/usr/share/doc/{name}/copyright"):
            holds(found[name].get(it), f"there is no {it} in {name}")
    same(set(found), set(NAMES))
    for name in ("femem-cli", "libfemem-dev"):
        path = os.path.join(folder, f"{name}_{versions.version()}_amd64.deb")
        holds(f"libfemem1 (= {versions.version()})" in field(path, "Depends"), f"{name} does not need this very libfemem1")
    alike = [it for name in NAMES for other in NAMES if name < other for it in set(found[name]) & set(found[other]) if found[name][it]]
    same(alike, [], "files of two packages")
    of_the_server(place, found["femem"], os.path.join(folder, f"femem_{versions.version()}_amd64.deb"))
    of_the_library(place, found, os.path.join(folder, f"libfemem1_{versions.version()}_amd64.deb"))
    return f"{sum(map(len, found.values()))} files and folders"


def of_the_server(place, found, path):
    """The program byte for byte, the tools, a folder for the store, and settings that format none."""
    holds(found["/usr/bin/femem"] == Path(place.program).read_bytes(), "the package has another program")
    for name in TOOLS:
        holds(f"/usr/lib/femem/{name}" in found, f"there is no {name}")
    for name in UNITS:
        holds(f"/lib/systemd/system/{name}" in found, f"there is no {name}")
    same(found["/usr/bin/femem-store"], "../lib/femem/femem-store", "the command")
    holds("/var/lib/femem" in found, "there is no folder for the store")
    settings = found["/etc/femem.toml"].decode()
    same(re.findall(r"^(?:socket|store) = .*$", settings, re.M), [f'socket = "{SOCKET}"', f'store = "{STORE}"'])
    holds(not re.search(r"^\s*(format|accepts)\b", settings, re.M), "the settings would format a store")
    control = subprocess.check_output(["dpkg-deb", "--info", path, "conffiles"], text=True)
    same(control, "/etc/femem.toml\n")


def of_the_library(place, found, path):
    """The library's name for the linker, and the files by which dpkg has other packages depend on it and ldconfig run."""
    info = lambda name: subprocess.check_output(["dpkg-deb", "--info", path, name], text=True).strip()
    same((info("shlibs"), info("triggers")), ("libfemem 1 libfemem1 (>= 1.1.0~)", "activate-noawait ldconfig"))
    head, *names = info("symbols").splitlines()
    same(head, "libfemem.so.1 libfemem1 #MINVER#")
    header = found["libfemem-dev"]["/usr/include/femem.h"].decode()
    declared = set(re.findall(r"\b(femem_[a-z_]+)\(", header))
    same({it.split("@")[0].strip() for it in names} - {"FEMEM_1.0", "FEMEM_1.1"}, declared, "names with a version of the package")
    for it in (" femem_open@FEMEM_1.0 1.1.0~", " femem_open@FEMEM_1.1 1.1.0~", " femem_close@FEMEM_1.0 1.1.0~"):
        holds(it in names, f"the symbols lack{it}")
    same(re.search(r'^#define FEMEM_VERSION "(.*)"$', header, re.M)[1], versions.version(), "the header's version")
    for name, file, word in (
        ("libfemem1", f"{LIBRARIES}/libfemem.so.{versions.number()}", "SONAME"), ("femem-cli", "/usr/bin/femem-cli", "NEEDED"),
    ):
        said = subprocess.check_output(["objdump", "-p", place.write("program", found[name][file])], text=True)
        holds(re.search(rf"{word} +libfemem\.so\.1$", said, re.M), f"{file} has no {word} libfemem.so.1")
    same(found["libfemem1"][f"{LIBRARIES}/libfemem.so.1"], f"libfemem.so.{versions.number()}")
    same(found["libfemem-dev"][f"{LIBRARIES}/libfemem.so"], "libfemem.so.1")
    holds(f"libdir={LIBRARIES}".encode() in found["libfemem-dev"][f"{LIBRARIES}/pkgconfig/femem.pc"], "femem.pc has another folder")


def links(place):
    """each link of a document in the packages, and each page of a manual that another one names, is in one of them"""
    there, count, missing = {}, 0, []
    folder = built(place)
    for file in os.listdir(folder):
        there.update(files_of(os.path.join(folder, file)))
    for path, content in there.items():
        if not path.endswith(".md"):
            continue
        for target in re.findall(r"\]\(([^)\s#]+)[^)]*\)", content.decode()):
            if not re.match(r"[a-z]+:", target):
                count += 1
                end = os.path.normpath(os.path.join(os.path.dirname(path), target))
                missing += [] if end in there else [f"{path}: {target}"]
    pages_there = {os.path.basename(it)[:-3] for it in there if it.startswith("/usr/share/man/") and it.endswith(".gz")}
    for name in sorted(pages_there):
        path, content = next((it, there[it]) for it in there if it.endswith(f"/{name}.gz"))
        if isinstance(content, str):
            missing += [] if os.path.join(os.path.dirname(path), content) in there else [f"{name}: {content}"]
            continue
        said = subprocess.run(["zcat"], input=content, capture_output=True, check=True)
        for other, number in re.findall(r"\b((?:lib)?femem[\w.-]*)[\"\\fBRP ]*\(([1-8])\)", said.stdout.decode().replace("\\-", "-")):
            count += 1
            missing += [] if f"{other}.{number}" in pages_there else [f"{name}: {other}({number})"]
        for path in re.findall(rf"{DOCUMENTS}/[\w./-]+\w", said.stdout.decode().replace("\\-", "-")):
            count += 1
            missing += [] if path in there else [f"{name}: {path}"]
    return texts.told(missing, count, 150, "links")
