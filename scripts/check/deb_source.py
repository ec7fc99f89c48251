"""Debian's source package: made twice, unpacked, made again from what was unpacked, and built into the packages."""

import os
import re
import shutil
import subprocess
from pathlib import Path

from .harness import Skipped, done, same, within
from .install import one_commit, recorded
from .manuals import versions
from .packages import field
from .texts import TOP


def contents(folder, ends):
    """The files of a folder with these ends: their contents."""
    found = {}
    for name in os.listdir(folder):
        if name.endswith(ends):
            found[name] = Path(os.path.join(folder, name)).read_bytes()
    return found


def dated(changelog):
    """The versions and dates of a Debian changelog, as dpkg reads them."""
    said = subprocess.check_output(["dpkg-parsechangelog", "-l", changelog, "--all", "--format", "rfc822"], text=True)
    return list(zip(re.findall(r"^Version: (.*)$", said, re.M), re.findall(r"^Timestamp: (.*)$", said, re.M)))


@within(300)
def source(place):
    """the source package is the same twice, and made again from itself; its changelog has the versions and dates of CHANGELOG.md, and
    its rules make the very packages of scripts/make_deb, without git"""
    for word in ("dpkg-source", "dpkg-parsechangelog"):
        if not shutil.which(word):
            raise Skipped(f"there is no {word}, of Debian's package dpkg-dev")
    env = {**one_commit(), "FEMEM_MAINTAINER": "A Builder <builder@femem.example>", "FEMEM_HOMEPAGE": "https://femem.example"}
    for name in ("first", "second"):
        done(place, [os.path.join(TOP, "scripts", "deb_source"), place.path(name)], env=env)
    first = contents(place.path("first"), (".dsc", ".tar.xz"))
    same(sorted(first), [f"femem_{versions.version()}{it}" for it in (".dsc", ".tar.xz")])
    same(contents(place.path("second"), (".dsc", ".tar.xz")) == first, True, "made twice, it is the same")
    os.mkdir(place.path("third"))
    # (dpkg-source packs the folder under its own name)
    top = place.path(f"third/femem-{versions.version()}")
    done(place, ["dpkg-source", "-x", place.path(f"first/femem_{versions.version()}.dsc"), top])
    done(place, ["sh", "-c", f"cd '{place.path('third')}' && dpkg-source -b {os.path.basename(top)}"], env=env)
    same(contents(place.path("third"), ".tar.xz") == contents(place.path("first"), ".tar.xz"), True, "made from itself, it is the same")
    (_, released, _), *before = versions.entries()
    wanted = [(versions.version(), released or versions.commit()[1]), *((number, date) for number, date, _ in before)]
    got = dated(os.path.join(top, "debian", "changelog"))
    same(got, [(number, str(when) if isinstance(when, int) else str(seconds(when))) for number, when in wanted], "versions and dates")
    builds(place, top, env)
    return f"{len(first[f'femem_{versions.version()}.tar.xz']):,} bytes"


def seconds(date):
    return int(subprocess.check_output(["date", "-u", "-d", date, "+%s"]))


def builds(place, top, env):
    """The unpacked tree's rules make the packages of scripts/make_deb, and list them for dpkg."""
    given = recorded(place)
    here = {it: value for it, value in env.items() if it != "FEMEM_COMMIT"}
    done(place, ["make", "-s", "-C", top, "-f", "debian/rules", "binary", f"PROVED={place.program}", f"RECORD={given}"], env=here)
    done(place, [os.path.join(TOP, "scripts", "make_deb"), place.program, place.path("packages"), given], env=env)
    made, wanted = contents(place.path("third"), ".deb"), contents(place.path("packages"), ".deb")
    same(sorted(made), sorted(wanted))
    same([it for it in made if made[it] != wanted[it]], [], "packages that differ")
    with open(os.path.join(top, "debian", "files"), encoding="ascii") as file:
        same(sorted(line.split()[0] for line in file), sorted(made), "debian/files")
    for it in made:
        path = place.path(f"third/{it}")
        same((field(path, "Maintainer"), field(path, "Homepage")), (env["FEMEM_MAINTAINER"], env["FEMEM_HOMEPAGE"]), it)
