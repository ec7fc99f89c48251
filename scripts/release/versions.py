"""The version of a build, after the first heading of CHANGELOG.md.

Usage: scripts/version [python | sources | write]

`## 1.1.0, 2026-12-01` is a release, and its version is 1.1.0. `## Unreleased: 1.1.0` is a text on the way to it: its version is
1.1.0~gitTIME.COMMIT, which Debian sorts before 1.1.0 and by the time of its commit, and in Python 1.1.0.devTIME+COMMIT. Sources can't
name their own commit, so theirs is 1.1.0~git, in Python 1.1.0.dev0; a build of packages fills in the rest. `.changed` behind the commit
says that files were changed since. `write` writes the version into the sources. FEMEM_COMMIT, `HASH SECONDS`, stands for the last commit.
"""

import calendar
import functools
import os
import re
import subprocess
import sys
import time
from pathlib import Path

TOP = os.path.normpath(os.path.join(os.path.dirname(os.path.realpath(__file__)), "..", ".."))
NUMBER = r"[0-9]+\.[0-9]+\.[0-9]+"
HEADING = re.compile(rf"^## (?:Unreleased: (?P<coming>{NUMBER})|(?P<released>{NUMBER}), (?P<date>[0-9]{{4}}-[0-9]{{2}}-[0-9]{{2}}))$", re.M)
# What `git archive` fills in, for a tree without git.
EXPORTED = "packaging/commit"
# The sources that name the version: a file, and the pattern of a line whose group is the version.
SOURCES = (
    ("crates/fe_options/src/command_line.rt", r'^const VERSION: &str = "(.*)";$'),
    ("scripts/check/clauses.txt", r'^fe_options constant VERSION "(.*)"$'),
    ("clients/c/femem.h", r'^#define FEMEM_VERSION "(.*)"$'),
    ("clients/c/libfemem.3", r'^\.TH LIBFEMEM 3 "" "femem (.*)" "femem"$'),
    ("clients/cli/femem-cli.1", r'^\.TH FEMEM-CLI 1 "" "femem (.*)" "femem"$'),
)
PYTHON_SOURCES = (
    ("clients/python/pyproject.toml", r'^version = "(.*)"$'),
    ("clients/python/femem/__init__.py", r'^__version__ = "(.*)"$'),
)
PARTS = ("MAJOR", "MINOR", "PATCH")


def read(path, top=TOP):
    return Path(os.path.join(top, path)).read_text("utf-8")


def entries(top=TOP):
    """The parts of CHANGELOG.md, newest first: version, date or None, and text."""
    text = read("CHANGELOG.md", top)
    found = list(HEADING.finditer(text))
    ends = [it.start() for it in found[1:]] + [len(text)]
    return [(it["coming"] or it["released"], it["date"], text[it.end():end].strip()) for it, end in zip(found, ends)]


def number(top=TOP):
    """The version that this text is, or is on the way to."""
    return entries(top)[0][0]


def is_released(top=TOP):
    return entries(top)[0][1] is not None


def git(*words, top=TOP):
    return subprocess.check_output(["git", "-C", top, *words], text=True, stderr=subprocess.DEVNULL).strip()


@functools.lru_cache
def commit(top=TOP):
    """The last commit: its name, its time in seconds, and whether files were changed since."""
    given = os.environ.get("FEMEM_COMMIT")
    if not given and os.path.exists(os.path.join(top, ".git")):
        given = git("log", "-1", "--format=%H %ct", top=top)
        if git("status", "--porcelain", "--untracked-files=no", top=top):
            given += " changed"
    name, seconds, *changed = (given or read(EXPORTED, top)).split()
    if not re.fullmatch("[0-9a-f]{40}", name):
        sys.exit(f"femem: this tree has no git, and {EXPORTED} names no commit: FEMEM_COMMIT='HASH SECONDS' does")
    return name, int(seconds), bool(changed)


def epoch():
    """The time of everything in a build."""
    return int(os.environ.get("SOURCE_DATE_EPOCH") or commit()[1])


def of_commit(top=TOP):
    name, seconds, changed = commit(top)
    return time.strftime("%Y%m%d%H%M%S", time.gmtime(seconds)), name[:8] + (".changed" if changed else "")


def version(top=TOP):
    """The version of packages and man pages, as Debian sorts it."""
    return number(top) if is_released(top) else "{}~git{}.{}".format(number(top), *of_commit(top))


def python(top=TOP):
    """The same as PEP 440 has it."""
    return number(top) if is_released(top) else "{}.dev{}+{}".format(number(top), *of_commit(top))


def of_sources(top=TOP):
    """What the sources say: the version without a commit, in C and Rattle, and in Python."""
    return (number(top), number(top)) if is_released(top) else (f"{number(top)}~git", f"{number(top)}.dev0")


def filled(folder):
    """Fills the version into a copy of the clients' sources."""
    for sources, value in ((SOURCES, version()), (PYTHON_SOURCES, python())):
        for path, pattern in sources:
            there = os.path.join(folder, path.removeprefix("clients/"))
            if path.startswith("clients/") and os.path.exists(there):
                replaced(there, pattern, value)


def replaced(path, pattern, value):
    """Replaces the group of a pattern in a file."""
    text = Path(path).read_text("utf-8")
    found = re.search(pattern, text, re.M)
    Path(path).write_text(text[:found.start(1)] + value + text[found.end(1):], "utf-8")


def write():
    """Writes the version into the sources."""
    for sources, value in zip((SOURCES, PYTHON_SOURCES), of_sources()):
        for path, pattern in sources:
            replaced(os.path.join(TOP, path), pattern, value)
    for part, value in zip(PARTS, number().split(".")):
        replaced(os.path.join(TOP, "clients/c/femem.h"), rf"^#define FEMEM_VERSION_{part} (.*)$", value)


def strays(top=TOP):
    """The sources that name another version than CHANGELOG.md."""
    found = []
    for sources, value in zip((SOURCES, PYTHON_SOURCES), of_sources(top)):
        for path, pattern in sources:
            named = re.findall(pattern, read(path, top), re.M)
            found += [] if named == [value] else [f"{path}: {named}, not {value}"]
    header = read("clients/c/femem.h", top)
    parts = ".".join(re.search(rf"^#define FEMEM_VERSION_{it} (.*)$", header, re.M)[1] for it in PARTS)
    return found + ([] if parts == number(top) else [f"clients/c/femem.h: {parts}, not {number(top)}"])


def fault_of_release(top=TOP):
    """Why this text is no release, or None."""
    if "FEMEM_COMMIT" in os.environ:
        return "FEMEM_COMMIT is set, and a release is of its own commit"
    if not is_released(top) or "Unreleased" in read("CHANGELOG.md", top):
        return "CHANGELOG.md has an unreleased part"
    if strays(top):
        return f"{strays(top)[0]}: scripts/version write"
    if not os.path.exists(os.path.join(top, ".git")) or commit(top)[2]:
        return "this is no commit: files were changed, or there is no git"
    tag = f"v{number(top)}"
    if tag not in git("tag", "--points-at", "HEAD", top=top).split():
        return f"this commit does not have the tag {tag}"
    return None


def is_dated_before(top=TOP):
    """Whether this text is a release that a commit before the last one has dated: two texts would have one version."""
    try:
        before = HEADING.search(git("show", "HEAD^:CHANGELOG.md", top=top))
    except subprocess.CalledProcessError:  # no git, or no earlier commit
        return False
    return is_released(top) and before is not None and before["released"] == number(top)


def rfc(date):
    """A date of CHANGELOG.md, or seconds, as Debian's changelog has it."""
    seconds = calendar.timegm(time.strptime(date, "%Y-%m-%d")) if isinstance(date, str) else date
    return time.strftime("%a, %d %b %Y %H:%M:%S +0000", time.gmtime(seconds))


def main():
    words = sys.argv[1:]
    if words == ["write"]:
        write()
    elif words in ([], ["python"]):
        print(python() if words else version())
    elif words == ["sources"]:
        print(of_sources()[0])
    else:
        sys.exit(__doc__.strip())
