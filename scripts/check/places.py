"""What pages say of the repository itself: the layers of its crates, the programs in blocks of commands, and what the packages
install."""

import os
import re

from .harness import same
from .manuals import pages  # noqa: F401  (this sets the path of release)
from .sources import below
from .tables import rows, said, statuses, text
from .texts import NAME, READMES, PAGES, TOP, block, exists, split, text_of, told

from release import package  # noqa: E402

WORDS = {"five": 5, "six": 6, "seven": 7}
HALL = "bench/hall/README.md"


def layers(_place):
    """in ARCHITECTURE.md's picture of the layers each crate stands on crates of its own line and of the lines below it, and none is left out"""
    lines = [re.findall(r"\bfe\w+", line) for line in block("ARCHITECTURE.md", "femem ").splitlines()]
    level = {crate: at for at, crates in enumerate(reversed(lines)) for crate in crates}
    there = {it for it in os.listdir(os.path.join(TOP, "crates")) if exists("crates", it, "src") and not it.startswith("test_")}
    same(sorted(level), sorted(there), "crates in the picture")
    wrong = [f"{crate} stands on {it}, a line above" for crate in level for it in below(crate) if level[it] > level[crate]]
    return told(wrong, len(level), 30, "crates")


OPTION = re.compile(r"(?<!\S)\[?(--[a-z-]+)")


def programs(_place):
    """each program of the repository in a block of commands is there and has the options, and each target of make and folder is there"""
    missing, count = [], 0
    targets = set(re.findall(r"^([a-z-]+):", text_of("Makefile") + text_of("clients/c/Makefile") + text_of("clients/cli/Makefile"), re.M))
    named = re.search(r"`([a-z ]+)`: under a minute", text("CONTRIBUTING.md"))[1].split()
    missing += [f"CONTRIBUTING.md: no part {it}" for it in named if not exists("scripts/check", f"{it}.py")]
    for page in (*PAGES, *READMES, HALL):
        lines = [line.split("#")[0].strip() for it in split(text_of(page))[1] for line in it.splitlines()]
        for line in lines:
            word = line.split(" ")[0]
            if re.fullmatch(r"(?:bench|clients|scripts)/[\w/.]+", word) and not word.endswith((":", "=")):
                count += 1
                source = text_of(word) if exists(word) else ""
                missing += [] if source else [f"{page}: no {word}"]
                missing += [f"{page}: {word} has no {it}" for it in OPTION.findall(line) if source and it not in source and it[2:] not in source]
            if found := re.fullmatch(r"make ([a-z][a-z-]+)\b[^=]*(?: \w+=.*)?", line):
                count += 1
                missing += [] if found[1] in targets else [f"{page}: make {found[1]}"]
            if found := re.fullmatch(r"cd (crates/\S+)", line):
                count += 1
                missing += [] if exists(found[1]) else [f"{page}: no {found[1]}"]
    return told(missing, count, 14, "commands")


def packages(_place):
    """the tables of packaging/README.md name each package and each file that the server's package is made from, and where they are installed"""
    page = text("packaging/README.md")
    folders = sorted(it for it in os.listdir(os.path.join(TOP, "packaging/debian")) if exists("packaging/debian", it, "control*"))
    named = [row[0] for row in rows("packaging/README.md", "| package | what it has |")]
    same((sorted(named), WORDS[re.search(r"makes (\w+) Debian packages", page)[1]]), (folders, len(folders)), "packages")
    missing, sources = [], text_of("scripts/release/package.py")
    for file, _ in rows("packaging/README.md", "| file | what it is |"):
        name = re.sub(r"\[.*\]\(\.\./(.*)\)", r"../\1", file)
        missing += [] if exists("packaging", name) else [f"packaging/README.md: no {file}"]
    found = re.findall(r"/usr/lib/femem/([\w-]+)", page) + re.findall(r"`(femem-[\w-]+)`", page[page.index("| `units/`") :].split("\n")[0])
    missing += [f"packaging/README.md: nothing installs {it}" for it in found if not exists("packaging/tools", it) and not exists("packaging/units", f"{it}.timer")]
    former = re.findall(r"`([\w-]+)`", text("docs/femem-store.md").split(" in `/usr/lib/femem` do the same")[0].split("\n\n")[-1])
    missing += [] if former == list(package.FORMER) else [f"docs/femem-store.md: {former} are not the links that are installed"]
    for path in NAME.findall("".join(f"`{row[0]}`" for row in rows("docs/commands.md", "| path | what it is |"))):
        path = path.split(" ")[0]
        made = [sources, text_of("packaging/femem.toml"), text_of("packaging/femem-tmpfiles.conf"), text_of("examples/femem.service")]
        missing += [] if any(re.search(rf"{path[1:]}\b(?!-)", it) for it in made) else [f"docs/commands.md: nothing installs {path}"]
    what = {row[0].split(" ")[0]: row[1] for row in rows("docs/commands.md", "| path | what it is |")}
    set_to = dict(re.findall(r'^(\w+) = "(.*)"$', text_of("packaging/femem.toml"), re.M))
    set_to["settings"] = re.search(r"^ExecStart=.* --settings (\S+)$", text_of("examples/femem.service"), re.M)[1]
    missing += [f"docs/commands.md: {path} is not the {key}" for key, path in set_to.items() if not re.match(rf"(?:the|its) {key}\b", what.get(path, ""))]
    manuals = re.findall(r"\b(lib\w+|femem[\w-]*)\((\d)\)", page)
    missing += [f"packaging/README.md: no {name}({section})" for name, section in manuals if not exists("clients", "*", f"{name}.{section}")]
    return told(missing, len(found) + len(former) + len(manuals), 6, "files")


# What the recipe of two hosts sets: options of programs, fields of an image's description, and settings.
SET = re.compile(r"--[a-z]+(?:=none)?(?![\w-])|(?:file\.)?(?:driver|read-pattern)=\w+|\b\w+ = true")


def recipe(_place):
    """the commands and the table of docs/replication.md set what scripts/check/hosts.py sets: each option, and how many sides have to confirm"""
    page, hosts = text("docs/replication.md"), text("scripts/check/hosts.py")
    wanted = SET.findall(block("docs/replication.md", "# on both"))
    usual = re.search(r"\bconfirmed=(\d)", hosts)[1]
    same(set(re.findall(r"vote-threshold=(\d)[,`]", page.split("## What the checks assert")[0])), {usual}, "sides that have to confirm")
    missing = [f"hosts.py does not set {it}" for it in wanted if it not in hosts and it.split("driver=")[-1] not in ("nbd", "raw")]
    programs = [it for it in ("nbd-server", "qemu-nbd", "nbdfuse", "mount", *re.findall(r"\bext\d\b", page)) if it in page]
    for name, fails, _ in rows("docs/replication.md", "| check | what fails |"):
        body = re.search(rf"^def {name}\(.*?(?=^def |\Z)", hosts, re.M | re.S)
        lost = [it for it in re.findall(r"vote-threshold=(\d)", fails) if body and f"confirmed={it}" not in body[0]]
        missing += [f"hosts.py has no {name} {' '.join(lost)}"] if lost or not body else []
    status = said("docs/replication.md", "`femem: store device`, status N")
    missing += [] if statuses()[status].startswith("the store") else [f"status {status} is not of a store"]
    return told(missing + [f"hosts.py does not run {it}" for it in programs if it not in hosts], len(wanted), 7, "options")
