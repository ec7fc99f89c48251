"""The files, functions and definitions that documents name exist."""

import functools
import os
import re
import subprocess

from .sources import below, has_item, source_of
from .texts import ANY, NAME, PAGES, TOP, bases, exists, is_path, prose, text_of, told


# What comes before the name of a definition in specs.
KINDS_OF_DEFINITION = "(?:abbrev|unfoldable|pub|record|data)"
# One or more `NAME`, followed by `CRATE/FILE` in parentheses.
FILED = re.compile(r"((?:`\w+`(?:, | and )?)+)(?: and (?:its|the) \w+(?: that it names)?)? \((?:[^()`]* )?`(\w+)/(\w+)`")
# What comes before the name of a declaration in specs and sources.
DECLARED = "(?:abbrev|unfoldable|pub|pub\\(crate\\)|record|data|enum|struct|trait|fn|ghost)"


def is_specs(word):
    """Whether `CRATE/FILE` names a file of specs."""
    crate, _, file = word.partition("/")
    return re.fullmatch(r"fe_[a-z]+/[A-Z][A-Za-z]*", word) is not None and exists("crates", crate, "specs", file + ".antt")


def paths(_place):
    """each path that a document names exists"""
    missing, count = [], 0
    for page, where, line in prose(PAGES):
        # (texts of links are not paths; another check follows the targets)
        words = NAME.findall(re.sub(r"\[[^\]]*\]\([^)]*\)", "", line))
        for at, word in enumerate(ANY.sub("*", it) for it in words):
            if is_path(word) and not is_specs(word):
                count += 1
                missing += [] if any(exists(base, word) for base in bases(page, word, words[:at])) else [f"{where}: {word}"]
    return told(missing, count, 150, "paths")


def items(_place):
    """each function or definition that a document names after its file, `FILE` (`NAME`), is in that file"""
    missing, count = [], 0
    for page, where, line in prose(PAGES):
        for found in re.finditer(r"`([\w/.]+\.(?:rt|antt))` \(((?:`\w+`(?:, |; |\)))+)", line):
            named = NAME.findall(line[: found.start()])
            path = next((it for base in bases(page, found[1], named) if exists(it := os.path.join(base, found[1]))), None)
            names = NAME.findall(found[2])
            count += len(names)
            missing += [f"{where}: {found[1]} has no {it}" for it in names if path is None or not has_item(path, it)]
    return told(missing, count, 40, "functions and definitions")


def definitions(_place):
    """each definition that docs/headline.md and docs/store.md cite as `NAME` (`CRATE/FILE`) is in that file"""
    missing, count = [], 0
    for _, where, line in prose(("docs/headline.md", "docs/store.md")):
        for names, crate, file in FILED.findall(line.split("|")[1] if line.startswith("|") else line):
            path = f"crates/{crate}/specs/{file}.antt"
            text, named = text_of(path) if exists(path) else "", NAME.findall(names)
            count += len(named)
            lost = [it for it in named if not re.search(rf"^(?:{KINDS_OF_DEFINITION} )*{it}\b", text, re.M)]
            missing += [f"{where}: {path} does not define {it}" for it in lost]
    return told(missing, count, 70, "definitions")


def model(_place):
    """each definition that docs/model.md names under a crate's heading is in that crate or in those below it"""
    missing, count, text = [], 0, ""
    for _, where, line in prose(("docs/model.md",)):
        if line.startswith("## "):
            crates = re.findall(r"`(fe_\w+)`", line)
            crates += [it for crate in crates for it in below(crate) if it not in crates]
            text = "\n".join(source_of(it, folder) for it in crates for folder in ("specs", "src"))
        elif not line.startswith("|"):
            for name in re.findall(r"`([A-Z]\w+|\w+_\w+)`", re.sub(r"\(as in [^)]*\)", "", line)):
                count += 1
                form = rf"^\s*(?:{DECLARED} )+{name}\b|^\s*(?:pub )?{name}\b(?: :|,|\(| \{{)"
                there = exists("crates", name) if name.startswith("fe_") else re.search(form, text, re.M)
                missing += [] if there else [f"{where}: no {name} in {crates[0] if crates else 'any crate'} and below"]
    return told(missing, count, 200, "definitions")


# Words in backticks that are of other programs, of the toolchain, or of an example that is not in the repository.
OF_OTHERS = set(
    "BLPOP Builder INCR StateDirectory activating blocklist ceph chrt dac dmesg docker fua lemma logic mdadm mypy nobarrier noerror osd reflink rlwrap sparse stonith ulimit writexe".split()
)
LETTERS = re.compile("[A-Za-z]{3,}")


@functools.cache
def listed():
    """The files of the repository."""
    return subprocess.run(["git", "-C", TOP, "ls-files"], capture_output=True, text=True, check=True).stdout.split()


@functools.cache
def vocabulary():
    """The words of the repository's files, but of documents, proofs and pictures, and of all paths."""
    there = set(OF_OTHERS)
    for name in listed():
        there.update(LETTERS.findall(name))
        if not name.endswith((".md", ".svg", ".edit", "clauses.txt")) and "/proofs/" not in name and exists(name):
            there.update(LETTERS.findall(text_of(name)))
    return there


def words(_place):
    """each word in backticks in any document is a word of the repository's own files, or one of the few of others"""
    missing, count = [], 0
    for _, where, line in prose(it for it in listed() if it.endswith(".md")):
        found = LETTERS.findall(" ".join(NAME.findall(line)))
        count += len(found)
        missing += [f"{where}: no file has {it}" for it in found if it not in vocabulary()]
    return told(missing, count, 5000, "words")
