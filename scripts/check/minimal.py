"""A minimal Debian, as debootstrap makes it, with the toolchain and what the pages name: what `make run` and `make test` say before
that, CONTRIBUTING.md's first commands by a user and by root, the packages, and the commands of the pages. `make test` proves nothing here.

Outside the gate: it needs root, debootstrap and Debian's archive. `make check-minimal` runs it. FEMEM_CLEAN_ROOT can name a root that
debootstrap has made; it is copied.
"""

import os
import re
import shutil
import subprocess
from pathlib import Path

from . import deb_pages
from .clean import NAMES
from .harness import Skipped, checks_in, holds, same, within
from .targets import copy_of, packages_of_the_pages
from .texts import text_of

SUITE, ARCHIVE = "bookworm", "http://deb.debian.org/debian"
USER, CLONE = "alice", "/home/alice/femem"
# Proves nothing, so that `make test` ends at once.
STAND_IN = '#!/bin/sh\n[ "$1" != ci ] || echo "0 passed, 1 failed"\n'
ENTER = r"""
set -eu
mount -t proc proc "$ROOT/proc"
mount --rbind /dev "$ROOT/dev"
mount -t tmpfs -o mode=1777 tmpfs "$ROOT/tmp"
mount --bind -o ro "$KIT" "$ROOT$KIT"
home=/root
[ "$1" = root ] || home=/home/$1
exec env -i PATH=/usr/local/sbin:/usr/local/bin:/usr/sbin:/usr/bin:/sbin:/bin HOME=$home LC_ALL=C.UTF-8 DEBIAN_FRONTEND=noninteractive \
  chroot "$ROOT" runuser -u "$1" -- bash -c "$2"
"""


def kit():
    """The toolchain's folder."""
    return os.path.dirname(os.path.dirname(os.path.realpath(shutil.which("rt"))))


class Minimal:
    """The root of a minimal Debian with a user, a clone of this repository and `make`; one for all checks of a run."""

    def __init__(self, place, *packages):
        self.place = place
        self.root = os.path.join(os.path.dirname(place.folder), "minimal")
        if not os.path.isdir(self.root):
            self.make()
        if packages:
            self.does("root", f"apt-get -q -y install {' '.join(packages)}")

    def make(self):
        if os.geteuid() != 0:
            raise Skipped("its user is not root")
        given = os.environ.get("FEMEM_CLEAN_ROOT")
        if not given and not shutil.which("debootstrap"):
            raise Skipped("there is no debootstrap, of Debian's package debootstrap")
        words = ["cp", "-a", f"{given}/.", self.root] if given else ["debootstrap", "--variant=minbase", SUITE, self.root, ARCHIVE]
        subprocess.run(words, check=True, stdout=subprocess.DEVNULL)
        shutil.copy("/etc/resolv.conf", f"{self.root}/etc/resolv.conf")
        os.makedirs(self.root + kit())
        self.does("root", f"useradd --create-home {USER}; apt-get -q update && apt-get -q -y install make")
        shutil.move(copy_of(self.place), self.root + CLONE)
        self.does("root", f"chown -R {USER} {CLONE}; mkdir /srv/stand-in")
        Path(f"{self.root}/srv/stand-in/rt").write_text(STAND_IN, "ascii")
        os.chmod(f"{self.root}/srv/stand-in/rt", 0o755)

    def runs(self, user, words, folder="/", network=True):
        """Runs a shell's commands there to their end: the status, and all that they print."""
        kinds = ["--mount", "--pid", *([] if network else ["--net"])]
        how = ["unshare", *kinds, "--fork", "--kill-child", "bash", "-c", ENTER, "enter", user, f"cd {folder}\n{words}"]
        process = self.place.start(how, "minimal", {"ROOT": self.root, "KIT": kit()}, stderr=subprocess.STDOUT, group=True)
        process.wait()
        return process.returncode, self.place.read("minimal.out").decode(errors="replace")

    def does(self, user, words, folder="/", **how):
        status, said = self.runs(user, words, folder, **how)
        same(status, 0, f"{user}: {words}\n{said[-1500:]}")
        return said


@within(600)
def lacks(place):
    """a minimal Debian: `make run` and `make test` name all that is missing at once, to a user and to root, and begin nothing"""
    minimal = Minimal(place)
    for user in (USER, "root"):
        for target in ("run", "test"):
            status, said = minimal.runs(user, f"make {target}", CLONE)
            named = re.findall(r"^femem: '?(\w+)'?.* is not on the PATH", said, re.M)
            same((status, named, len(said.splitlines())), (2, ["python3", "rt"], 3), said)
    holds(not os.path.exists(f"{minimal.root}{CLONE}/out"), "something was built")


@within(1200)
def first_commands(place):
    """a minimal Debian with the packages that the README names for `make run`: the first commands of CONTRIBUTING.md, by a user and by root"""
    minimal = Minimal(place, *packages_of_the_pages()[0])
    os.symlink(f"{kit()}/bin/rt", f"{minimal.root}/usr/local/bin/rt")
    found = re.search(r"^```sh\n(make run.*?)^```\n\n(.*?)\n\n", text_of("CONTRIBUTING.md"), re.M | re.S)
    printed = re.findall(r"`(welcome [^`]*|[0-9]+ [^`]*)`", found[2])
    holds(len(printed) == 6, f"the page says what six lines are: {printed}")
    for user in (USER, "root"):
        said = minimal.does(user, f"set -eu\n{found[1]}", CLONE)
        same([it for it in said.splitlines() if re.match(r"welcome |[0-9]+ ", it)][-6:], printed, user)


# What `make test` says is lacking, and Debian's package of it.
LACKS = re.compile(r"^femem: this machine lacks (.*?)(?: \(on Debian: apt install ([\w-]+)\)|,.*?): ", re.M)
TEST = f"git config --global --add safe.directory {CLONE}; PATH=/srv/stand-in:$PATH make test"


@within(600)
def tests_lack(place):
    """a minimal Debian with the packages that the README names for `make run`: `make test` names those that CONTRIBUTING.md names for it"""
    # (git brings patch)
    named = {it[1] for it in LACKS.findall(Minimal(place).runs("root", TEST, CLONE)[1])}
    same(named, set(packages_of_the_pages()[1]) - {"patch"})


@within(600)
def packs(place):
    """a minimal Debian with what packaging/README.md names for `make deb` besides: a user makes the six packages, without a network"""
    minimal = Minimal(place, *packages_of_the_pages()[2])
    said = minimal.does(USER, "scripts/make_deb --unproved out/unproved/femem-unproved out/dist", CLONE, network=False)
    same(sorted(os.path.basename(it).split("_")[0] for it in said.split()), sorted(NAMES))


@within(600)
def tests_have(place):
    """a minimal Debian with all packages that the pages name: `make test` names root alone to a user, and nothing to root"""
    minimal = Minimal(place, *packages_of_the_pages()[1])
    for user, wanted in ((USER, [("root", "")]), ("root", [])):
        said = minimal.runs(user, TEST, CLONE)[1]
        same(LACKS.findall(said), wanted, f"{user}: {said[:1000]}")
        # (it went on, to the toolchain)
        holds("rt ci: 0 passed, 1 failed" in said, said[-1000:])


@within(1200)
def pages(place):
    """a minimal Debian with what the README names: the commands of the pages, as deb_pages.py runs them"""
    minimal = Minimal(place, "systemd", *packages_of_the_pages()[1])
    before = os.environ.get("FEMEM_CLEAN_ROOT")
    os.environ["FEMEM_CLEAN_ROOT"] = minimal.root
    try:
        for check in checks_in(deb_pages):
            check(place)
            place.end()
            shutil.rmtree(place.path("room"))
    finally:
        os.environ.pop("FEMEM_CLEAN_ROOT")
        if before:
            os.environ["FEMEM_CLEAN_ROOT"] = before
