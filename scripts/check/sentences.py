"""The sentences of pages for operators and for authors of clients that have numbers, or words of a promise. Each is owned: by a row of OWNED, whose numbers are
those of a source; by a check that reads it; or by sentences.txt, with the reason why no source can own it (`scripts/counts` writes it).

A sentence of that list that changes, and a new one, shows as a line of the change itself, and fails until it is looked at."""

import hashlib
import re

from .harness import holds
from .owned import OWNED
from .tables import Lacks, number
from .texts import matching, split, text_of, told

FILE = "scripts/check/sentences.txt"
# Why no source owns the numbers of a page's other sentences.
PAGES = {
    "README.md": "a claim, or a figure of the machines that docs/performance.md names",
    "docs/operating.md": "what an operator saw or should do, or what the checks of faults measured once",
    "docs/commands.md": "words of a text that lines.py compares as it is printed",
    "docs/settings.md": "the meaning of a setting; its bounds and default are in the table",
    "docs/formats.md": "an example, or a rule that frames, records and refusals are checked by",
    "docs/store.md": "an example of offsets and places, which tables.py reads in part",
    "docs/session-file.md": "bytes that the clients' own tests of the format write by hand",
    "docs/patterns.md": "steps of a pattern, which the explorer and the model of the line try",
    "docs/cli.md": "words of a command that the tests of femem-cli compare as they are printed",
    "docs/femem-store.md": "words of a command that backups.py and rescues.py compare as they are printed",
    "docs/performance.md": "measured on the machine and in the hour that the page names",
    "clients/c/README.md": "an example, or a bound that the tests of the C client try",
    "clients/python/README.md": "an example, or a bound that the tests of the Python client try",
}
WORDS = dict(zip("a one two three four five six seven eight nine ten eleven twelve".split(), (1, *range(1, 13))))
VALUE = re.compile(
    r"(?<![\w.#-])(?:\d[\d,]*(?:\.\d+)*(?!\w)|0[0-7]{3})|\b(?:[Ff]ive|[Ss]ix|[Ss]even|[Ee]ight|[Nn]ine|[Tt]en|[Ee]leven|[Tt]welve"
    # (words of a promise)
    r"|[Aa]lways|[Nn]ever|at most once|Not claimed|No test|one more premise|drops|before you)\b"
)
SAID = re.compile(r'said\("([^"]+)", f?"([^"]+)"')


def found_in(name, form):
    """The numbers that a text has where a form has #."""
    is_page = name.endswith(".md")
    some = rf"(\d[\d,]*(?:\^\d+)?|\b(?:{'|'.join(WORDS)})\b)" if is_page else r"(\d[\d_]*)"
    shape = re.escape(form).replace(r"\#", some)
    shape = shape if is_page else shape.replace(r"\ \.\.\ ", ".*?")
    found = {it.groups() for it in re.finditer(shape, text_of(name), re.S)}
    if len(found) != 1:
        raise Lacks(f"{name} says {len(found)} things of the form: {form}")
    return [WORDS[it] if it in WORDS else number(it.replace("_", "")) for it in found.pop()]


def wrong_of(page=None):
    """What the rows of all pages, or of one, have otherwise than their sources."""
    for name, form, source, text, *of in OWNED:
        if page in (None, name):
            here, there = found_in(name, form), found_in(source, text)
            due = of[0](*there) if of else there if "#" in text else here
            if here != due:
                yield f"{name}: {form}: {here}, and {source} has {due}"


def owned(_place):
    """each number that a page has from a source is the source's"""
    return told(list(wrong_of()), len(OWNED), 100, "rows")


def forms():
    """The forms of sentences that a check reads, by page, as patterns."""
    read = [(page, form) for page, form, *_ in OWNED]
    for source in map(text_of, matching("scripts/check/*.py")):
        page = re.search(r'^PAGE = ("[^"]+")', source, re.M)
        read += SAID.findall(source.replace("said(PAGE", f"said({page[1]}") if page else source)
    return [(page, re.compile(re.sub(r"\\#|N|\\\{.*?\\\}", r"[\\w,^]+", re.escape(form)))) for page, form in read]


def rows():
    """What sentences.txt should have: a line for each sentence of prose with a number or a promise that no form owns, with a sum of it and how it begins."""
    known = forms()
    for page in PAGES:
        lines = [re.sub(r"^ *\d\. ", "", line) for _, line in split(text_of(page))[0] if not line.lstrip().startswith("|")]
        for shape in (shape for name, shape in known if name == page):
            lines = [shape.sub("..", line) for line in lines]
        found = [it.strip() for line in lines for it in re.split(r"(?<=[.:;])\s+(?=[^a-z])", line)]
        for it in dict.fromkeys(it for it in found if VALUE.search(it)):
            yield f"{page} {hashlib.sha256(it.encode()).hexdigest()[:8]} {it[:60].strip()}"


def listed(_place):
    """each sentence with a number or a promise, in pages for operators and authors of clients, is a source's, a check's, or as it is listed"""
    here, kept = list(rows()), text_of(FILE).splitlines()
    changed = [f"new: {it}" for it in here if it not in kept] + [f"gone: {it}" for it in kept if it not in here]
    holds(not changed, "\n        ".join([*changed, "if each is true, let scripts/counts write the list anew"]))
    return f"{len(here)} sentences"


ALSO = ("wrong_sentences",)
