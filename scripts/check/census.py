"""The public contracts are those of scripts/check/clauses.txt, and so are the definitions and constants that they rest on: what is dropped,
renamed or reworded shows as a line of the change itself.

`scripts/census` writes that file. It has a line for each public function and each method of a trait: its crate, the `impl` or `trait`
that it stands in, its name, and each clause, as `e` (ensures) or `r` (requires), its name, and the first digits of a sum of its text.
Other lines are `CRATE constant NAME VALUE` for each constant, also a private one; `CRATE ghost BLOCK NAME SUM` for each member of a
type or trait that only clauses see, as an invariant; and `CRATE definition FILE NAME SUM` for each definition in specs/."""

import hashlib
import re

from . import closure
from .texts import matching, text_of, told

KEPT = "scripts/check/clauses.txt"
BLOCK = re.compile(r"(?:pub )?(?:unsafe )?(impl|trait)\b.*")
FUNCTION = re.compile(r"\s*(pub )?(?:const )?(?:unsafe )?fn (\w+)")
CLAUSE = re.compile(r"\n\s*(?=(?:requires|ensures)\b)")
CONSTANT = re.compile(r"^\s*(?:pub(?:\(crate\))? )?const ([A-Z]\w*): [^=]+ = ([^;]+);", re.M)
GHOST = re.compile(r"\s*(?:pub )?ghost (?!use\b)(\w+)\s*[:=]")
OWNER = re.compile(r"(?:pub(?:\(crate\))? )?(?:unsafe )?(?:struct|enum|impl|trait)\b.*")


def sum_of(text):
    """The first digits of a sum of a text, whatever its white space."""
    return hashlib.sha256(" ".join(text.split()).encode()).hexdigest()[:6]


def header(lines, at):
    """A function's lines up to its body, without comments."""
    end = at
    if not lines[at].rstrip().endswith(("{", "}")):
        while not (re.match(r"\s*\{\s*(?:\}.*)?$", lines[end]) or lines[end].rstrip().endswith(";")):
            end += 1
    return re.sub(r"//.*", "", "\n".join(lines[at : end + 1]))


def clauses_of(text):
    """The clauses of a function, each as its kind, its name and the sum of its text."""
    for clause in CLAUSE.split(text)[1:]:
        kind, name = re.match(r"(requires|ensures)\*?\s*(\w*)", clause).groups()
        words = " ".join(re.sub(r"\n\s*\{\s*(?:\}.*)?$", "", clause.rstrip()).split())
        yield f"{kind[0]}:{name or '-'}:{sum_of(words)}"


def ghosts_of(crate, lines):
    """The lines of the members that only clauses see, each with the sum of its text, which ends where its braces close."""
    inside = "-"
    for at, line in enumerate(lines):
        if OWNER.match(line):
            inside = re.sub(r"\s+", "_", line.strip(" {"))
        if found := GHOST.match(line):
            end = at
            text = line
            while text.count("{") > text.count("}") or not text.rstrip().endswith((";", ",")):
                end += 1
                text += f"\n{lines[end]}"
            yield f"{crate} ghost {inside} {found[1]} {sum_of(text)}"


def definitions():
    """The lines of all definitions in specs/."""
    for module, known in sorted(closure.modules().items()):
        crate, _, file = module.split(".", 2)
        if not crate.startswith("test_"):
            yield from (f"{crate} definition {file} {name} {sum_of(' '.join(lines))}" for name, lines in known.definitions.items())


def rows_of(crate, text):
    """The lines of one source."""
    lines = text.split("\n")
    inside, is_trait = "-", False
    for at, line in enumerate(lines):
        if BLOCK.match(line):
            inside, is_trait = re.sub(r"\s+", "_", line.strip(" {")), re.search(r"\btrait\b|\bfor\b", line) is not None
        elif line.startswith("}"):
            inside, is_trait = "-", False
        found = FUNCTION.match(line)
        if found and (found[1] or is_trait):
            yield " ".join([crate, inside, found[2], *clauses_of(header(lines, at))])
    yield from ghosts_of(crate, lines)
    yield from (f"{crate} constant {name} {' '.join(value.split())}" for name, value in CONSTANT.findall(text))


def rows():
    """All lines, in order."""
    names = [it for it in matching("crates/*/src/**/*.rt") if not it.startswith("crates/test_")]
    return [*(row for name in names for row in rows_of(name.split("/")[1], text_of(name))), *definitions()]


def kept(_place):
    """each public contract, constant and definition is the one that scripts/check/clauses.txt has, line by line"""
    wanted, found = text_of(KEPT).splitlines(), rows()
    missing = [f"gone or changed: {it}" for it in sorted(set(wanted) - set(found))]
    missing += [f"new or changed: {it}" for it in sorted(set(found) - set(wanted))]
    if len(missing) > 12:
        missing = [*missing[:12], f".. and {len(missing) - 12} more"]
    return told([*missing, "`scripts/census` writes the file anew: look at each line that it changes"] if missing else [], len(found), 2_000, "functions, constants and definitions")


ALSO = ("closure",)
