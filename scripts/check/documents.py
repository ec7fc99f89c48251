"""The documents: their blocks run, what they name exists, and their links lead somewhere."""

import html
import os
import re
from pathlib import Path

from .texts import NAME, PAGES, READMES, TOP, bases, exists, headings, is_path, matching, prose, slug, text_of, told
from .wire import OPS


def listed(heading):
    """The files and folders that a section of CONTRIBUTING.md names."""
    page = "CONTRIBUTING.md"
    lines = text_of(page).split("\n")
    begin = lines.index(heading)
    end = next((at for at in range(begin + 1, len(lines)) if lines[at].startswith("## ")), len(lines))
    found = set()
    for line in lines[begin:end]:
        named = NAME.findall(line)
        for at, word in enumerate(named):
            found |= {os.path.normpath(it) for base in bases(page, "x.rt", named[:at]) if exists(it := os.path.join(base, word))}
    return found


def naming(words, roots):
    """The files below these folders that contain every word, whatever its case and underscores."""
    found = []
    for root in roots:
        for folder, folders, files in os.walk(os.path.join(TOP, root)):
            folders[:] = [it for it in folders if it not in ("out", ".git", "__pycache__")]
            for file in files:
                text = Path(os.path.join(folder, file)).read_bytes().lower().replace(b"_", b"")
                if all(re.search(word, text) for word in words):
                    found.append(os.path.relpath(os.path.join(folder, file), TOP))
    return found


def touched(_place):
    """each file that names all operations, or all settings, is in CONTRIBUTING.md's list of files to change for a new one"""
    ops = [it.replace(b"_", b"") for it in OPS]
    keys = [rb"\b" + it + rb"\b" for it in (b"socket", b"store", b"connections", b"format", b"accepts", b"turns")]
    missing, count = [], 0
    for words, roots, heading in (
        (ops, ("crates", "clients", "scripts", "examples", "docs", "packaging"), "## Add an operation"),
        (keys, ("crates", "scripts", "examples"), "## Add a setting"),
    ):
        known = listed(heading)
        # (what earlier versions of the C library had stays as it is)
        earlier = ("clients/c/abi/", "clients/c/libfemem.map", os.path.relpath(os.path.realpath(__file__), TOP))
        found = [it for it in naming(words, roots) if not it.startswith(earlier)]
        count += len(found)
        # (a test folder in the list covers its files)
        known |= {it for it in found if os.path.dirname(it) in known and "tests" in it}
        missing += [f"{heading} lacks {it}" for it in found if it not in known]
    return told(missing, count, 35, "files")


def crates(_place):
    """each crate is in ARCHITECTURE.md and, unless it is a test, in docs/proved.md, and these pages and the README name no other crate"""
    there = [it.split("/")[1] for it in matching("crates/*/src")]
    missing = []
    for page, spared in (("ARCHITECTURE.md", ()), ("docs/proved.md", ("test_",)), ("README.md", ("fe", "test_"))):
        named = set(re.findall(r"\b(?:fe|test)_[a-z_]+\b|\bfemem\b", text_of(page)))
        named = {it for it in named if it.startswith("fe") or it in there}
        missing += [f"{page} lacks {it}" for it in there if it not in named and not it.startswith(spared)]
        missing += [f"{page} names {it}, which is no crate" for it in sorted(named) if it not in there]
    return told(missing, len(there), 30, "crates")


def versions(_place):
    """no document names a package's version, which each commit changes"""
    missing = []
    for page in (*PAGES, *READMES):
        missing += [f"{page}: {it}" for it in re.findall(r"\bfemem[\w-]*_[0-9][0-9.~]*|[Tt]his is version [0-9.]+", text_of(page))]
    return told(missing, len(PAGES) + len(READMES), 25, "documents")


def pictures(_place):
    """each picture has the texts of its source, `docs/NAME.dot`"""
    missing, count = [], 0
    for name in matching("docs/*.dot"):
        shown = html.unescape(text_of(f"{name[:-4]}.svg")).replace("\xa0", " ")
        for label in re.findall(r'label = "([^"]*)"', text_of(name)):
            lines = [it for it in re.split(r"\\n|[|{}]", label) if it]
            count += len(lines)
            missing += [f"{name[:-4]}.svg lacks: {it}" for it in lines if f">{it}<" not in shown]
    return told(missing, count, 60, "texts")


LINK = re.compile(r"\[([^\]]*)\]\(([^)\s]+)\)")
# A document, followed by one or more titles of sections in quotes.
QUOTED = re.compile(r"([\w/]+\.md)`?(?:\]\([^)]*\))?, (\"[^\"]+\"(?: and \"[^\"]+\")*)")


def wrong_in_link(page, text, target):
    """What is wrong in a link of a page: its text is the path of another file, or its target does not exist."""
    file, _, part = target.partition("#")
    named = text.strip("`")
    path = os.path.normpath(os.path.join(os.path.dirname(page), file)) if file else page
    if text != named and is_path(named) and not path.endswith(re.sub(r"^(\.\./)+|/$", "", named)):
        yield f"{named} leads to {target}"
    if not exists(path) or part and part not in headings(path):
        yield target


def has_section(page, file, title):
    """Whether the document that a page names has a section or a bold paragraph with that title."""
    path = next((it for it in (file, f"docs/{file}", os.path.join(os.path.dirname(page), file)) if exists(it)), None)
    bold = rf"^(?:- |[0-9]+\. )?\*\*{re.escape(title)}\.?\*\*"
    return path is not None and (slug(title) in headings(path) or re.search(bold, text_of(path), re.M) is not None)


def links(_place):
    """each link of a document leads to a file and a heading, and each section named in quotes exists"""
    missing, count = [], 0
    for page, where, line in prose((*PAGES, *READMES)):
        targets = [it for it in LINK.findall(line) if not re.match(r"[a-z]+:", it[1])]
        sections = [(file, title) for file, titles in QUOTED.findall(line) for title in re.findall(r"\"([^\"]+)\"", titles)]
        count += len(targets) + len(sections)
        missing += [f"{where}: {it}" for text, target in targets for it in wrong_in_link(page, text, target)]
        missing += [f'{where}: {file}, "{title}"' for file, title in sections if not has_section(page, file, title)]
    return told(missing, count, 100, "links")


ALSO = ("blocks", "names", "clauses", "headers", "places", "measured", "rules", "imports", "promises")
