"""What a reader of docs/headline.md has to believe: the definitions on which those that it names rest, counted from their text."""

import functools
import re

from .harness import holds, same
from .texts import matching, split, text_of

DEFINITION = re.compile(r"(?:abbrev |unfoldable )?pub (?:record |data |abbrev |unfoldable )?([^\s:(]+)|(?:abbrev|unfoldable|record|data) (\w+)")
WORD = re.compile(r"[A-Za-z_][\w'-]*(?:\.[A-Za-z_][\w'-]*)?")
# A definition with its file, as in `Commits` (`fe_hall/Commits`).
PLACED = re.compile(r"`(\w+)` \(`(fe_\w+)/(\w+)`\)")


# What the clauses of the promise cite: each has to be counted.
CITED = {
    ("fe_desk.specs.Crash", "Advances"), ("fe_keeper.specs.Stands", "LeavesPrefix"),
    ("fe_desk.specs.Acknowledged", "AnswersStand"), ("fe_desk.specs.Lives", "FinishOnceIn"),
    ("fe_desk.specs.Lives", "StopsAreLives"), ("fe_server.specs.Acknowledged", "HasCommitted"),
    ("fe_server.specs.Acknowledged", "IsAcknowledged"), ("fe_keeper.specs.Opened", "IsOpenedFrom"),
}


class Module:
    """A file of specs/: its definitions, each as its lines without comments, and the names that it imports."""

    def __init__(self, lines):
        self.definitions, self.names, self.modules = {}, {}, {}
        current = None
        for line in lines:
            found = DEFINITION.match(line)
            if line.startswith("use "):
                self.take_import(line)
            elif line.startswith("pub mod"):
                continue
            elif found and not line.startswith(" "):
                current = self.definitions.setdefault(found[1] or found[2], [])
            if current is not None and line.strip() and not line.strip().startswith(("--", "use ", "pub mod")):
                current.append(line)

    def take_import(self, line):
        if found := re.match(r"use Rattle\.(\S+?)\.\{(.*)\}$", line):
            for it in found[2].split(","):
                name, _, other = it.strip().partition(" as ")
                self.names[(other or name).strip()] = (found[1], name.strip())
        elif found := re.match(r"use Rattle\.(\S+) as (\w+)$", line):
            self.modules[found[2]] = found[1]


@functools.cache
def modules():
    """The files of specs/ of all crates, by their module's name."""
    names = {it.removesuffix(".antt").replace("/", "."): it for it in matching("crates/*/specs/**/*.antt")}
    return {name.removeprefix("crates."): Module(text_of(it).split("\n")) for name, it in names.items()}


def meant(module, word):
    """The definitions that a word of a module may mean: itself, or, where it has a dot, either part."""
    here = modules()[module]
    head, _, tail = word.partition(".")
    for name in {word, head}:
        if name in here.definitions:
            yield module, name
        elif name in here.names:
            yield here.names[name]
    if tail and head in here.modules:
        yield here.modules[head], tail


def closure(start, opaque):
    """The definitions on which these rest, themselves among them. What the opaque ones rest on is left out."""
    found, todo = set(), list(start)
    while todo:
        key = todo.pop()
        known = modules().get(key[0])
        if key in found or not known or key[1] not in known.definitions:
            continue
        found.add(key)
        if key not in opaque:
            for word in set(WORD.findall("\n".join(known.definitions[key[1]]))):
                todo += meant(key[0], word)
    return found


def placed(text):
    """The definitions that a text names with their files."""
    found = [(f"{crate}.specs.{file}", name) for name, crate, file in PLACED.findall(text)]
    for module, name in found:
        holds(module in modules() and name in modules()[module].definitions, f"{module} defines {name}")
    return found


def headline(_place):
    """docs/headline.md counts the definitions and lines that its promise cites and rests on, and leaves out just the insides that it names"""
    lines = [line for _, line in split(text_of("docs/headline.md"))[0]]
    opaque = [placed(line) for line in lines if line.startswith("The insides of ")]
    same(len(opaque), 1, "one sentence names the insides that are left out")
    begin = lines.index("| what | definitions | lines |")
    rows = []
    for line in lines[begin + 2 :]:
        if not line.startswith("|"):
            break
        rows.append([cell.strip() for cell in line.strip("|").split("|")])
    names = []
    for what, definitions, count in rows:
        names += placed(what)
        found = closure(names, set(opaque[0]))
        said = [len(found), sum(len(modules()[module].definitions[name]) for module, name in found - set(opaque[0]))]
        same([int(definitions), int(count)], said, what)
    missing = CITED - set(names)
    holds(not missing, f"the table counts what the promise cites: {sorted(missing)}")
    return ", ".join(f"{definitions} definitions of {count} lines" for _, definitions, count in rows[-2:])
