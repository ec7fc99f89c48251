"""The man pages: `man` has no warnings for them, and they have everything that their documents have."""

import collections
import os
import re
import shutil
import subprocess
import sys

from . import tables, texts
from .harness import Skipped, done, holds, same
from .storetool import files, ran

sys.path.insert(0, os.path.normpath(os.path.join(os.path.dirname(os.path.realpath(__file__)), "..")))

from release import pages, versions  # noqa: E402

# What a user meets, taken from the program's source and not from the documents.
COMMANDS = ("femem run", "femem serve --settings FILE", "femem call --socket PATH", "femem look --store PATH", "femem help")
LINES = (
    "femem: settings: unreadable", "femem: settings: not toml", "femem: settings: KEY", "femem: settings: unknown key",
    "femem: store device", "femem: store size N", "femem: store unformatted", "femem: store damaged at N", "femem: memory",
    "femem: strange", "femem: socket", "femem: input", "femem: line N",
)
ALL = (*pages.PAGES, pages.SHELL)
KEYS = ("socket", "store", "connections", "format", "accepts", "turns")
# The most lines of a page on a terminal.
LONGEST = 400
FAULTS = re.compile(r'^ *#\[error\("(femem: [^"]+)"\)\]$', re.M)


def needs_man():
    """Needs `man`, from Debian's package man-db."""
    if not shutil.which("man"):
        raise Skipped("there is no man, of Debian's package man-db")


def made(place):
    """Makes the pages. Returns their paths."""
    done(place, [os.path.join(pages.TOP, "scripts", "man_pages"), place.path("man")])
    place.write(f"man/{pages.SHELL[0]}.{pages.SHELL[1]}", pages.page(*pages.SHELL).encode())
    return [place.path(f"man/{name}.{number}") for name, number, *_ in ALL]


def shown(path):
    """What `man` shows of a page, as one line without terminal codes, and its warnings."""
    env = {**os.environ, "LC_ALL": "C.UTF-8", "MANWIDTH": "500", "MANPAGER": "cat", "GROFF_NO_SGR": "1", "MANROFFSEQ": ""}
    ran = subprocess.run(["man", "--warnings", "-E", "UTF-8", "-l", path], env=env, capture_output=True, timeout=60)
    same(ran.returncode, 0, ran.stderr.decode())
    return " ".join(re.sub(".\b", "", ran.stdout.decode()).split()), ran.stderr.decode()


def is_well_formed(path):
    """Checks that `man --warnings` has no warning for a page and shows more than its title."""
    needs_man()
    env = {**os.environ, "LC_ALL": "C.UTF-8", "MANWIDTH": "80", "MANROFFSEQ": ""}
    ran = subprocess.run(["man", "--warnings", "-E", "UTF-8", "-l", "-Tutf8", path], env=env, capture_output=True, timeout=60)
    same((ran.returncode, ran.stderr.decode()), (0, ""), os.path.basename(path))
    lines = ran.stdout.decode().splitlines()
    holds(len(ran.stdout) > 500, f"{path} shows next to nothing")
    holds(len(lines) <= LONGEST, f"{path} has {len(lines)} lines")


def warnings(place):
    """`man --warnings` has no warning for any page, at the width of a terminal"""
    for path in made(place):
        is_well_formed(path)
    return f"{len(ALL)} pages"


def words(text):
    return collections.Counter(re.findall(r"[A-Za-z0-9]+", text))


def told(place):
    """each word of the documents is in their page, and each command, operation, fault and setting in femem(1) and femem.toml(5)"""
    needs_man()
    found = {}
    for path, (name, number, _, parts, _) in zip(made(place), ALL):
        found[name], said = shown(path)
        same(said, "", name)
        strays = re.findall(r"(?<![\w/.-])[\w/-]+\.md\b|\(\"[A-Z][^\"]*\"\)", found[name].replace(pages.DOCUMENTS, "/"))
        same([it for it in strays if not it.startswith("/")], [], f"{name}: what leads nowhere on a terminal")
        for document, wanted in parts:
            lines = pages.sections_of(pages.document(document), wanted)
            # (the page has headings in capitals, and shows neither the targets of links nor the rule below a table's head)
            text = re.sub(r"\]\([^)]*\)", "]", "\n".join(it for it in lines if not it.startswith("## ")))
            # (nor the name of a document that a page has)
            text = re.sub(r"\[`?[\w./-]+\.md`?\]", "", text)
            lost = words(text) - words(found[name])
            # (where rows become paragraphs, the heads of a table's first two columns are not shown)
            heads = words(" ".join(line for line, below in zip(lines, lines[1:]) if re.fullmatch(r"[|\- ]+", below) and "|" in below))
            same(dict(lost - heads), {}, f"{name}({number}) of {document}: what it lacks")
    # (a cell that is too long for its column goes on in the next line)
    operations = [" ".join(row).split(" mod ")[0] for row in tables.rows("docs/commands.md", "| operation |")]
    same(len(operations), 8, "operations")
    for name, wanted in (("femem", COMMANDS), ("femem-serve", LINES), ("femem-call", operations)):
        for it in wanted:
            holds(it in found[name], f"{name}(1) does not have: {it}")
    for name in ("femem", "femem-serve", "femem-call", "femem-look", "femem-run"):
        for it in ("make serve", "examples/femem"):
            holds(it not in found[name], f"{name} speaks of {it}, which is only in the sources")
    for it in KEYS:
        holds(re.search(rf"\b{it}\b", found["femem.toml"]), f"femem.toml(5) does not have: {it}")
    # The texts of faults in the source are exactly these lines.
    with open(os.path.join(pages.TOP, "crates", "femem", "src", "fault.rt"), encoding="utf-8") as file:
        texts = {re.sub(r" \{0\}$", "", it) for it in FAULTS.findall(file.read())}
    same(sorted(texts), sorted({re.sub(r" (N|KEY)$", "", it) for it in LINES}), "the texts of faults")
    return f"{len(texts)} texts of faults"


def synopsis(place):
    """the synopsis of docs/commands.md is what the program's help says of each command, and of no other"""
    said = texts.block("docs/commands.md", "femem serve ").splitlines()
    shown = [place.run("help", name)[1].decode() for name in ("serve", "call", "look", "run", "help")]
    usages = [re.search(r"^Usage: \S+ (.*?)(?:\.\.\.)?$", it, re.M)[1].replace("<", "").replace(">", "") for it in shown]
    same(said, [f"femem {it}" for it in usages])
    commands = place.run("help")[1].decode().split("Commands:\n")[1].split("\n\n")[0]
    same(sorted(line.split()[1] for line in said), sorted(line.split()[0] for line in commands.splitlines()), "commands")
    return f"{len(said)} commands"


def of_the_tools(place):
    """the synopsis and the statuses of docs/femem-store.md are those of the tool, and it describes each command"""
    page = "docs/femem-store.md"
    usages = []
    for line in texts.block(page, "femem-store make STORE").splitlines():
        name = line.split()[1]
        status, text, errors = ran(place, name, "--help")
        same((status, errors), (0, ""), name)
        usage = " ".join(text.split("\n\n")[0].removeprefix("usage: ").split())
        usages.append(usage.replace(" [-h]", "").replace("[--limit SECONDS] ", "" if name == "make" else "[--limit SECONDS] "))
        if name == "probe":
            options = re.findall(r"\[(--[a-z]+)(?: [A-Z]+)?\]", usage)
            section = texts.text_of(page).split(f"### `femem-store {name} ")[1].split("\n#")[0]
            same([it for it in options if it not in section and it != "--session"], [], "options of a probe")
            usages[-1] = "femem-store probe [OPTION ..] SOCKET"
    same(usages, texts.block(page, "femem-store make STORE").splitlines())
    commands = re.search(r"\{(.*?)\}|COMMAND\n(.*?)\n\n", ran(place, "--help")[1], re.S)[0]
    same(sorted(re.findall(r"^    (\w+) ", commands, re.M)), sorted(it.split()[1] for it in usages), "commands")
    described = re.findall(r"^### `femem-store (\w+) ", texts.text_of(page), re.M)
    same(sorted(described), sorted(it.split()[1] for it in usages), "commands that are described")
    words = {files.DONE: "nothing is wrong", files.FAILED: "something is wrong", files.USAGE: "command line", files.WITH_A_NOTE: "see to it", files.NO_SERVER: "no server", files.NOT_ALLOWED: "may not"}
    table = {int(status): meaning for status, meaning in tables.rows(page, "| status | meaning |")}
    same([status for status, word in words.items() if word not in table.get(status, "")], [], "statuses")
    same((sorted(table), ran(place, "backup")[0]), (sorted(words), files.USAGE))
    return f"{len(usages)} commands"
