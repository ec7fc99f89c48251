"""The files of one Debian package, below a folder, and how they become a package."""

import gzip
import hashlib
import os
import re
import subprocess
import sys
import textwrap
from pathlib import Path

from . import versions

TOP = versions.TOP
DEBIAN = os.path.join(TOP, "packaging", "debian")

# The files for dpkg that a folder of packaging/debian may have, with their modes.
FOR_DPKG = {
    "conffiles": 0o644, "templates": 0o644, "triggers": 0o644, "shlibs": 0o644, "symbols": 0o644, "postinst": 0o755, "prerm": 0o755,
    "postrm": 0o755,
}


def read(*path):
    return Path(os.path.join(TOP, *path)).read_bytes()


def needed_c_library(program):
    """The lowest version of the C library that has everything the program uses."""
    found = {tuple(map(int, it.split(b"."))) for it in re.findall(rb"GLIBC_(2\.[0-9]+)", program)}
    return ".".join(map(str, max(found)))


def entry(line):
    """A line of CHANGELOG.md in Debian's format: an entry, or the heading of some."""
    if line.startswith("- "):
        return textwrap.fill(line[2:], 78, initial_indent="  * ", subsequent_indent="    ")
    return f"  [ {line.removesuffix(':')} ]" if line else ""


# The maintainer of packages that somebody builds for himself. A release names one.
NOBODY = "femem packager <packager@femem.example>"


def maintainer():
    """Who builds the packages: FEMEM_MAINTAINER, `NAME <ADDRESS>`, or what Debian's tools read."""
    name, address = os.environ.get("DEBFULLNAME"), os.environ.get("DEBEMAIL")
    return os.environ.get("FEMEM_MAINTAINER") or (f"{name} <{address}>" if name and address else NOBODY)


def changelog():
    """CHANGELOG.md in Debian's format. What is not released has the time of its commit."""
    found = []
    for number, date, text in versions.entries():
        text = re.sub(r"\[([^\]]*)\]\([^)]*\)", r"\1", text).replace("`", "").replace("**", "")
        lines = "\n".join(entry(it) for it in (text or "- Nothing is new yet.").splitlines())
        head = f"femem ({number}) unstable" if date else f"femem ({versions.version()}) UNRELEASED"
        found.append(f"{head}; urgency=medium\n\n{lines}\n\n -- {maintainer()}  {versions.rfc(date or versions.commit()[1])}\n")
    return "\n".join(found).encode()


def filled(control, **values):
    """A control file with the values of its fields; one without a value, which `Homepage` may be, is left out."""
    values = {"VERSION": versions.version(), "MAINTAINER": maintainer(), "HOMEPAGE": os.environ.get("FEMEM_HOMEPAGE", ""), **values}
    for name, value in values.items():
        control = control.replace(f"@{name}@", value)
    return re.sub(r"^Homepage: \n", "", control, flags=re.M)


def licence():
    """The licence as a field of Debian's copyright file."""
    text = read("LICENSE").decode().split("\n\n", 2)[2].strip()
    return "\n".join(" " + (line or ".") for line in text.splitlines())


class Tree:
    """A package's files, below a folder."""

    def __init__(self, name, folder):
        self.name = name
        self.folder = folder
        os.makedirs(folder)
        os.chmod(folder, 0o755)

    def put(self, path, content, mode=0o644):
        where = os.path.join(self.folder, path)
        self.folders(os.path.dirname(path))
        Path(where).write_bytes(content)
        os.chmod(where, mode)

    def link(self, path, target):
        self.folders(os.path.dirname(path))
        os.symlink(target, os.path.join(self.folder, path))

    def folders(self, path):
        at = self.folder
        for name in path.split("/"):
            at = os.path.join(at, name)
            if not os.path.isdir(at):
                os.mkdir(at)
                os.chmod(at, 0o755)

    def zipped(self, path, content):
        self.put(path + ".gz", gzip.compress(content, 9, mtime=0))

    def files(self):
        """The plain files, without those for dpkg."""
        found = []
        for at, _, names in os.walk(self.folder):
            found += [os.path.relpath(os.path.join(at, name), self.folder) for name in names]
        return sorted(it for it in found if not it.startswith("DEBIAN/") and not os.path.islink(os.path.join(self.folder, it)))

    def kibibytes(self):
        """The size of the installed files, in KiB."""
        return sum((os.path.getsize(os.path.join(self.folder, it)) + 1023) // 1024 for it in self.files()) + 4 * len(self.files())

    def c_library(self):
        """The lowest version of the C library that the package's programs need."""
        contents = [read(self.folder, it) for it in self.files()]
        needed = [needed_c_library(it) for it in contents if it[:4] == b"\x7fELF"]
        return max(needed, key=lambda it: [int(part) for part in it.split(".")], default="")

    def describe(self):
        """Adds what every package has: changelog, copyright, overrides, sums, and the files for dpkg."""
        control = read(DEBIAN, self.name, "control").decode()
        self.zipped(f"usr/share/doc/{self.name}/changelog", changelog())
        self.put(f"usr/share/doc/{self.name}/copyright", read(DEBIAN, "copyright").replace(b"@LICENSE@", licence().encode()))
        if os.path.exists(os.path.join(DEBIAN, self.name, "lintian-overrides")):
            self.put(f"usr/share/lintian/overrides/{self.name}", read(DEBIAN, self.name, "lintian-overrides"))
        sums = "".join(f"{hashlib.md5(read(self.folder, it)).hexdigest()}  {it}\n" for it in self.files())
        self.put("DEBIAN/md5sums", sums.encode())
        control = filled(control, SIZE=str(self.kibibytes()), LIBC=self.c_library())
        self.put("DEBIAN/control", control.encode())
        for name, mode in FOR_DPKG.items():
            if os.path.exists(os.path.join(DEBIAN, self.name, name)):
                self.put(f"DEBIAN/{name}", read(DEBIAN, self.name, name), mode)
        return re.search(r"^Architecture: (.*)$", control, re.M)[1]

    def packed(self, folder):
        """Makes the package in a folder. Returns its path."""
        architecture = self.describe()
        made = os.path.join(folder, f"{self.name}_{versions.version()}_{architecture}.deb")
        words = ["dpkg-deb", "--root-owner-group", "-Zxz", "-z9", "--threads-max=1", "--build", self.folder, made]
        env = {**os.environ, "SOURCE_DATE_EPOCH": str(versions.epoch())}
        if subprocess.run(words, stdout=subprocess.DEVNULL, env=env, check=False).returncode:
            sys.exit(f"femem: dpkg-deb made no package {self.name}")
        return made
