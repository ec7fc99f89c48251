"""The proof's record, out/proved/record: which program was proved from which sources, with which toolchain, and the last output.

Usage: scripts/record sources
       scripts/record write PROGRAM RECORD SOURCES BY < LAST_LINES
       scripts/record check PROGRAM RECORD

`sources` prints SOURCES, one sum over everything that is proved. `write` is for scripts/gate and scripts/prove, which compute the
sum before they begin. `check` ends with status 1 if the record is of another program or of other sources than the present ones.
"""

import hashlib
import os
import re
import subprocess
import sys
from pathlib import Path

from . import versions

TOP = versions.TOP


def sum_of(path):
    return hashlib.sha256(Path(path).read_bytes()).hexdigest()


def sources(top=TOP):
    """One sum over the crates' sources, their order and the handles that they may use."""
    found = [os.path.join(top, "crates.txt"), os.path.join(top, "HANDLES")]
    for folder, folders, names in os.walk(os.path.join(top, "crates")):
        folders[:] = [it for it in folders if it != "out"]
        found += [os.path.join(folder, it) for it in names if it.endswith((".rt", ".antt"))]
    lines = "".join(f"{sum_of(it)}  {os.path.relpath(it, top)}\n" for it in sorted(found))
    return hashlib.sha256(lines.encode()).hexdigest()


def said(*words):
    return subprocess.check_output(words, cwd=TOP, text=True).strip()


def commit():
    name, _, changed = versions.commit()
    return name + (" and changes that are not committed" if changed else "")


def write(program, record, before, by):
    """Writes the record, with the last lines from standard input, if the sources have not changed since."""
    last = sys.stdin.read()
    if sources() != before:
        sys.exit("femem: the sources changed while they were proved; nothing is recorded")
    fields = {"program": sum_of(program), "sources": before, "commit": commit(), "toolchain": said("rt", "version"), "by": by}
    Path(record).write_text("".join(f"{name} {value}\n" for name, value in fields.items()) + f"\n{last}", "utf-8")


def fields_of(record):
    """The fields of a record: the lines before its first empty line."""
    return dict(line.split(" ", 1) for line in Path(record).read_text("utf-8").split("\n\n", 1)[0].splitlines())


def fault_of(program, record, top=TOP):
    """Why a record is not of this program and the present sources, or None."""
    if not os.path.isfile(record):
        return f"there is no record at {record}"
    found = fields_of(record)
    if not os.path.isfile(program) or found.get("program") != sum_of(program):
        return f"{record} is of another program than {program}"
    if found.get("sources") != sources(top):
        return f"the sources have changed since {program} was proved, at commit {found.get('commit')}"
    return None


def main():
    words = sys.argv[1:]
    if words == ["sources"]:
        print(sources())
    elif len(words) == 5 and words[0] == "write" and re.fullmatch("[0-9a-f]{64}", words[3]):
        write(*words[1:])
    elif len(words) == 3 and words[0] == "check":
        fault = fault_of(*words[1:])
        if fault:
            sys.exit(f"femem: {fault}: 'make prove' proves these sources")
    else:
        sys.exit(__doc__.strip())
