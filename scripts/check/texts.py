"""The documents as texts: their prose, blocks, headings and tables, and the files that they name."""

import glob
import os
import re

from .harness import holds, same
from .tables import TOP, text as text_of

TITLES = ("README.md", "ARCHITECTURE.md", "CONTRIBUTING.md")
PAGES = (*TITLES, *sorted(os.path.relpath(it, TOP) for it in glob.glob(os.path.join(TOP, "docs", "*.md"))))
READMES = ("packaging/README.md", "clients/c/README.md", "clients/python/README.md")

# A word in backticks.
NAME = re.compile(r"`([^`]+)`")
# A path without a leading slash (paths of the machine have one).
PATH = re.compile(r"[A-Za-z0-9_*-][A-Za-z0-9_.*+-]*(?:/[A-Za-z0-9_.*+-]+)*/?")
KINDS = (".rt", ".antt", ".py", ".c", ".h", ".md", ".toml", ".txt", ".out", ".edit", ".dot", ".svg", ".sh")
# A placeholder in a path. Files made by a build or filled in by an installation are not in the repository.
ANY = re.compile(r"\b(?:NAME|CRATE|FILE)\b")
MADE = re.compile(r"out/|PREFIX/|PATH\.")


def matching(*patterns):
    """The files that patterns name, by their paths from the top, in order."""
    return sorted(it for pattern in patterns for it in glob.glob(pattern, root_dir=TOP, recursive=True))


def split(text):
    """A document's lines of prose, with their numbers, and its blocks of code, without their indent."""
    prose, blocks, lines, at = [], [], text.split("\n"), 0

    def is_code(line):
        return line.startswith("    ")

    while at < len(lines):
        line = lines[at]
        if line.startswith("```"):
            end = next(it for it in range(at + 1, len(lines)) if lines[it].startswith("```"))
            blocks.append("\n".join(lines[at + 1 : end]) + "\n")
            at = end + 1
        elif is_code(line) and not lines[at - 1].strip():
            end = at
            # (an empty line between two lines of a block is part of the block)
            while end < len(lines) and (is_code(lines[end]) or not lines[end].strip() and is_code("".join(lines[end : end + 2]))):
                end += 1
            blocks.append("".join(it[4:] + "\n" for it in lines[at:end]))
            at = end
        else:
            prose.append((at + 1, line))
            at += 1
    return prose, blocks


def prose(pages):
    """The lines of prose of pages, each with its page and where it is."""
    return [(page, f"{page}:{number}", line) for page in pages for number, line in split(text_of(page))[0]]


def block(name, first):
    """The one block of a document that has this beginning."""
    found = [it for it in split(text_of(name))[1] if it.startswith(first)]
    same(len(found), 1, f"{name}: blocks that begin with {first}")
    return found[0]


def told(missing, count, least, what):
    holds(not missing, "\n        ".join(missing))
    holds(count >= least, f"only {count} {what}")
    return f"{count} {what}"


def is_path(word):
    """Whether a word in backticks names a file or folder of the repository."""
    return PATH.fullmatch(word) is not None and ("/" in word or word.endswith(KINDS)) and not MADE.match(word)


def exists(*parts):
    return bool(glob.glob(os.path.join(TOP, *parts)))


def bases(page, word, before):
    """The folders in which a path may begin: the top, `crates`, the page's own, the checks', and those named before it in its
    line. A folder alone, such as `specs/`, may be in any crate."""
    found = ["", "crates", os.path.dirname(page), "scripts/check"]
    for named in before:
        for base in ("", "crates", *found[4:]):
            path = os.path.join(base, named.rstrip("/"))
            if os.path.isdir(os.path.join(TOP, path)):
                found.append(path)
            elif exists(path):
                found += [os.path.dirname(path), os.path.dirname(os.path.dirname(path))]
    return found if word.endswith(KINDS) else [*found, "crates/*"]


def headings(name):
    """The anchors that a link to a document may name: its headings as GitHub writes them."""
    lines = [line for _, line in split(text_of(name))[0]]
    titles = [re.sub(r"^#+ ", "", line) for line in lines if re.match(r"#+ ", line)]
    return {slug(it) for it in titles} | {slug(re.sub(r" \(`[^)]*\)$", "", it)) for it in titles}


def slug(heading):
    text = re.sub(r"\[([^\]]*)\]\([^)]*\)", r"\1", heading).lower()
    return re.sub(r"[^\w\- ]", "", text).replace(" ", "-")


def rows_of(text, heading):
    """The rows of the table below a heading, with the numbers of their lines."""
    lines = text.split("\n")
    begin = lines.index(heading)
    end = next((it for it in range(begin + 1, len(lines)) if lines[it].startswith("## ")), len(lines))
    rows = [at for at in range(begin, end) if lines[at].startswith("|")]
    return [(at + 1, [cell.strip() for cell in lines[at].strip("|").split("|")]) for at in rows[2:]]
