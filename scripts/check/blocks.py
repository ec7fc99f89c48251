"""The blocks of the documents: each is listed here, with the check that runs or compares it, or why none does."""

import os
import re
import subprocess

from .harness import Server, done, holds, same
from .texts import PAGES, TOP, block, matching, split, text_of, told

# Every block of the documents, by its first words: the checks that run it or compare it, or `not run:` and why none does.
NOT_RUN = "not run: "
EXAMPLES, STORE, FILE, PYTHON = "clients.tests_in_python", "docs/store.md", "docs/session-file.md", "clients/python/README.md"
BLOCKS = {
    "README.md": (("from femem import Client", "deb.first_screen"), ("before: ", "deb.first_screen")),
    "CONTRIBUTING.md": (
        ("make run ", "unproved.first_lines"),
        ("cd crates/fe_wire", NOT_RUN + "it proves a crate, which the gate does by other words; places.programs knows the folder"),
        ("# clause: Decoder::feed reads", "blocks.planted_edit"),
    ),
    "ARCHITECTURE.md": (("femem ", "places.layers"),),
    "docs/cli.md": tuple((first, "deb_pages.pages") for first in ("make -C clients/cli", "femem-cli counter hits", "1\n42")),
    "docs/commands.md": (
        ("femem serve --settings FILE", "manuals.synopsis"), ("printf 'attach 7", "blocks.example_of_commands"),
        ("welcome 7 1", "blocks.example_of_commands"),
    ),
    "docs/femem-store.md": (("femem-store make STORE", "manuals.of_the_tools"), ("place 6569", "rescues.shown")),
    "docs/formats.md": (("04 13 02 00", "facts.examples"), ("0000000000000003 ", "facts.examples")),
    "docs/operating.md": (
        ("femem serve --settings /etc/femem.toml", "blocks.unit_line"), ("apt install", "deb_pages.operating"),
        ("femem-store check", "deb_pages.operating"), ("name=test", "deb.leaves_nothing"),
        ("folder=/srv/femem", "deb_clients.elsewhere"), ("place 5", "deb_pages.operating"),
        ("systemctl is-active femem", "deb_pages.operating"), ("systemctl enable --now femem-watch.timer", "year.year"),
        ("  femem-store backup", "deb_pages.operating"), ("  systemctl enable --now femem-backup.timer", "year.year"),
        ("systemctl stop femem\nfemem-store restore", "deb_pages.operating"),
        ("systemctl stop femem\nfemem-store rescue", "deb_pages.operating"), ("  printf 'attach 7", "deb_pages.operating"),
    ),
    "docs/patterns.md": (("femem run < examples/queue_of_one.txt", "runs.worked_schedules"),),
    "docs/headline.md": (("life 1 ", "blocks.timeline"),),
    "docs/performance.md": (("make bench-serve", NOT_RUN + "minutes, and a quiet machine; outside.py runs the benches on less work"),),
    "docs/replication.md": (
        ("   install -d ", NOT_RUN + "it needs the package's user and a mount; its postinst, which deb.py runs, makes the store so"),
        ("# on both", "places.recipe"),  # hosts.py does the same where there is root, with its packages
    ),
    FILE: tuple((first, "sessions.tables") for first in ("46454d454d534632", "00000000 ", "000000ac", "00000050", "00000054", "00000053")),
    STORE: (
        ("slot 0 ", "writes.layout"), ("at offset o", "writes.orders"), ("write   journal area", "writes.orders"), ("sync\nread ", "writes.orders"),
        ("format ", "writes.life"), ("write   both header gates", "writes.orders"), ("PATH.new ", "writes.life"), ("sync\n1 ", "writes.life"),
    ),
    "clients/c/README.md": (
        ("make ", "deb_pages.pages"), ("femem *client;", "deb_pages.pages"),
        ("femem_open_begin(", "examples.loop"),  # which runs examples/c/loop.c, a whole program of this form
        *[(first, "deb_pages.pages") for first in ("femem_open_file(", "femem_queue_open(", "femem_lock_open(")],
    ),
    PYTHON: (
        ("python3 -m venv", "deb_pages.pages"),
        *[(first, EXAMPLES) for first in ("from femem import", "import threading", *["from femem import"] * 3, "from collections", "import asyncio", "from femem")],
        ("def test_a_restart", EXAMPLES),
        ("import pytest", EXAMPLES),
        ("python3 -m femem [", "deb_pages.pages"),
        ("python3 -m unittest", "clients.python"),  # and clients.tests_in_python; the last line takes ten minutes, and is not in the gate
    ),
    "bench/hall/README.md": (
        ("bench/hall/run ", NOT_RUN + "it proves a program, in minutes"), ("bench/hall/quick ", "counts.instructions"),
        ("bench/hall/threads ", "outside.competing_threads"),
    ),
}


def is_check(name):
    """Whether a module of scripts/check has that check."""
    part, _, function = name.partition(".")
    path = os.path.join("scripts", "check", f"{part}.py")
    return os.path.exists(os.path.join(TOP, path)) and re.search(rf"^def {function}\(_?place", text_of(path), re.M) is not None


def blocks_known(_place):
    """each block of each document is listed with the check that runs or compares it, which is there, or with the reason why none does"""
    missing, count = [], 0
    pages = subprocess.run(["git", "-C", TOP, "ls-files", "*.md"], capture_output=True, text=True, check=True).stdout.split()
    for page in sorted({*pages, *BLOCKS}):
        found, known = split(text_of(page))[1], BLOCKS.get(page, ())
        count += len(found)
        if len(found) != len(known):
            missing.append(f"{page} has {len(found)} blocks, and {len(known)} are known")
        pairs = zip(found, known)
        missing += [f"{page}: an unknown block: {got.splitlines()[0]}" for got, (first, _) in pairs if not got.startswith(first)]
        missing += [f"{page}: {who} is no check" for _, who in known if not is_check(who) and len(who.removeprefix(NOT_RUN)) in (0, len(who))]
    return told(missing, count, 50, "blocks")


def unit_line(_place):
    """the line of operating.md that a unit runs is that of examples/femem.service"""
    line = block("docs/operating.md", "femem serve --settings").strip()
    holds(f"\nExecStart=/usr/bin/{line}\n" in text_of("examples/femem.service"), f"the unit does not run: {line}")


def targets(_place):
    """each `make TARGET` that a document names is in the Makefile, or in the C client's"""
    made = {it for name in ("Makefile", "clients/c/Makefile") for it in re.findall(r"^([a-z-]+):", text_of(name), re.M)}
    wanted = {(name, it) for name in PAGES for it in re.findall(r"`make ([a-z-]+)", text_of(name))}
    return told([f"{name}: make {it}" for name, it in sorted(wanted) if it not in made], len(wanted), 8, "targets")


def example_of_commands(place):
    """the example of docs/commands.md prints what the document says"""
    server = Server(place).start()
    words = block("docs/commands.md", "printf 'attach 7").replace("/run/femem/femem.socket", server.socket)
    words = words.replace("femem call", f"'{place.program}' call")
    same(done(place, ["sh", "-e", "-c", words]), block("docs/commands.md", "welcome 7 1"))


def timeline(place):
    """over the two stops that docs/headline.md shows, each request is answered as the page says, and adds once"""
    lives = [re.findall(r"(?<!\w)(\d) (create|int_fetch_add)(?: hits)?(?:, sent again)?(?:: (\d))?", line) for line in block("docs/headline.md", "life 1 ").splitlines()]
    same([len(life) for life in lives], [3, 2, 1], "requests of each life")
    lines, wanted = [], []
    for at, life in enumerate(lives):
        lines += ["c1 attach 7"]
        for number, what, value in life:
            # (what has no answer on the page is not stored before the stop)
            stored = what == "create" or value
            lines += [] if stored else ["hold"]
            lines += [f"c1 {number} create hits 1 full" if what == "create" else f"c1 {number} int_fetch_add 1 0 1"]
            wanted += [f"c1 {number} value {value}"] if value else []
        lines += ["stop"]
    status, output, _ = place.run("run", given="\n".join([*lines, ""]).encode())
    same((status, re.findall(r"^c1 \d value \d$", output.decode(), re.M)), (0, wanted))
    return f"{len(wanted)} answers"


def planted_edit(_place):
    """the edit that CONTRIBUTING.md shows is one of fe_wire's"""
    wanted = block("CONTRIBUTING.md", "# clause: Decoder::feed reads").strip()
    edits = [text_of(it).strip() for it in matching("crates/fe_wire/must-fail/*.edit")]
    holds(edits and wanted in edits, f"no edit of fe_wire is\n{wanted}")
