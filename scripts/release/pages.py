"""Makes the man pages from the documents in docs/, so that both say the same.

Usage: scripts/man_pages FOLDER

Each page is a list of sections of documents, whose links lead to other pages or to files of the package femem-doc. A table with narrow columns stays a table; in other tables each row becomes a
paragraph under its first cell, in which the cells from the third on follow the heads of their columns. The date is that of
SOURCE_DATE_EPOCH, or of the last commit.
"""

import os
import re
import sys
import time
from pathlib import Path

from .versions import TOP, epoch, version

WIDTH = 70  # columns of text on a terminal of 80
LONG_PAGE = ".if n .pl 1000i"  # on a terminal: long enough that no table is split over two pages
# The page that has a document, or a section of it; what is in none is in the package femem-doc.
MANUALS = {
    "docs/commands.md": "femem(1)", "docs/schedules.md": "femem-run(1)", "docs/settings.md": "femem.toml(5)", "docs/femem-store.md": "femem-store(1)",
    "docs/cli.md": "femem-cli(1)", "docs/formats.md": "femem-store(5)", "docs/formats.md#frames": "femem-frames(5)", "docs/formats.md#codes": "femem-frames(5)",
    "docs/operating.md#starting": "femem-serve(1)", "docs/operating.md#stopping": "femem-serve(1)", "docs/operating.md#what-a-server-says": "femem-serve(1)",
    "docs/commands.md#operations": "femem-call(1)", "clients/python/README.md#shell": "femem-shell(1)",
}
DOCUMENTS = "/usr/share/doc/femem"

# The page, its number, its description in a line, its documents, each with the sections taken from it, and the pages to see also.
SERVE, CALL, LOOK, RUN = (f"### `femem {it}`" for it in ("serve --settings FILE", "call --socket PATH", "look --store PATH", "run"))
PAGES = (
    (
        "femem", 1, "recoverable server of full/empty memory",
        (("commands.md", ("Synopsis", "Description", "Commands", "Exit status", "Files", "Example")),),
        ("femem-serve(1)", "femem-call(1)", "femem-look(1)", "femem-run(1)", "femem-store(1)", "femem.toml(5)"),
    ),
    (
        "femem-serve", 1, "serve a store of femem at a socket",
        (("commands.md", (SERVE,)), ("operating.md", ("Starting", "Stopping", "What a server says"))),
        ("femem(1)", "femem-store(1)", "femem.toml(5)"),
    ),
    ("femem-call", 1, "send lines to a femem server", (("commands.md", (CALL, "Operations", "Example")),), ("femem(1)", "femem-run(1)", "femem-cli(1)")),
    ("femem-look", 1, "show what is in a store of femem", (("commands.md", (LOOK,)),), ("femem(1)", "femem-serve(1)", "femem-store(1)")),
    ("femem-run", 1, "run a schedule of many clients of femem", (("commands.md", (RUN,)), ("schedules.md", None)), ("femem(1)", "femem-call(1)")),
    ("femem-store", 1, "make, copy, check and mend stores of femem", (("femem-store.md", None),), ("femem(1)", "femem-store(5)")),
    ("femem.toml", 5, "settings of femem serve", (("settings.md", None),), ("femem(1)", "femem-serve(1)")),
    (
        "femem-store", 5, "format of a store of femem",
        (("formats.md", ("Entry record", "Image", "Device", "Journal area")),), ("femem-store(1)", "femem-frames(5)"),
    ),
    ("femem-frames", 5, "frames between clients and a femem server", (("formats.md", ("Codes", "Frames")),), ("femem-serve(1)", "femem-store(5)")),
)
# The page of the Python client's command, which is installed with that client.
SHELL = (
    "femem-shell", 1, "show what waits at a femem server", (("../clients/python/README.md", ("Shell",)),), ("femem(1)", "femem-cli(1)"),
)


def document(name):
    return Path(os.path.join(TOP, "docs", name)).read_text("utf-8").splitlines()


def sections_of(lines, wanted):
    """The lines below the document's title, or those of the named sections. A section within another one, `### NAME`, comes without
    its title."""
    body = lines[1:]
    if wanted is None:
        return body
    found = []
    for name in wanted:
        within = name.startswith("### ")
        begin = body.index(name if within else f"## {name}")
        ends = ("## ", "### ") if within else ("## ",)
        end = next((at for at in range(begin + 1, len(body)) if body[at].startswith(ends)), len(body))
        found += body[begin + within : end]
    return found


def escaped(text):
    text = text.replace("\\", "\\e").replace("'", "\\(aq").replace("`", "\\(ga").replace("^", "\\(ha").replace("~", "\\(ti")
    return "".join(it if ord(it) < 128 else f"\\[u{ord(it):04X}]" for it in text)


def slug(heading):
    """A heading as a link names it."""
    return re.sub(r"[^\w\- ]", "", heading.strip().lower()).replace(" ", "-")


def section_of(path, part):
    """The section of a document, as a link names it, in which that heading is."""
    section = part
    for line in document(f"../{path}"):
        if found := re.match(r"(##+) (.*)", line):
            section = slug(found[2]) if len(found[1]) == 2 else section
            if slug(found[2]) == part:
                return section
    return part


class Links:
    """Where the links of a document lead on a terminal: to a page of the manual, or to a file of femem-doc. One within the page is its
    text alone."""

    def __init__(self):
        self.source, self.page = "docs/commands.md", None

    def leads(self, target):
        file, _, part = target.partition("#")
        path = os.path.normpath(os.path.join(os.path.dirname(self.source), file)) if file else self.source
        section = section_of(path, part) if part else ""
        return MANUALS.get(f"{path}#{section}") or MANUALS.get(path) or f"{DOCUMENTS}/{path}"

    def __call__(self, found):
        text, target = found
        if target.startswith("http"):
            return f"{text} <{target}>"
        leads = self.leads(target)
        if leads == self.page:
            return text
        named = os.path.basename(target.partition("#")[0])
        return leads if text.strip("`") in (named, named.removesuffix(".md")) else f"{text} [{leads}]"


linked = Links()


def inline(text):
    """A paragraph's text as roff: code and strong text in bold, emphasis in italic, links as their text."""
    text = re.sub(r"\[([^\]]*)\]\(([^)]*)\)", lambda found: linked(found.groups()), text)
    out = []
    for at, piece in enumerate(re.split(r"(``.+?``|`[^`]+`)", text)):
        if at % 2:
            out.append("\\fB" + escaped(piece.strip("`")).replace("-", "\\-") + "\\fP")
            continue
        piece = escaped(piece)
        piece = re.sub(r"\*\*(.+?)\*\*", r"\\fB\1\\fP", piece)
        out.append(re.sub(r"\*(.+?)\*", r"\\fI\1\\fP", piece))
    text = "".join(out)
    return "\\&" + text if text[:1] in (".", "'") else text


def plain(text):
    """A cell's text as a reader sees it."""
    text = re.sub(r"\[([^\]]*)\]\(([^)]*)\)", lambda found: linked(found.groups()), text)
    return re.sub(r"\*\*|`", "", text)


def cells_of(line):
    return [cell.strip() for cell in line.strip().strip("|").split("|")]


def table(lines):
    head, *rows = (cells_of(line) for line in lines if not re.fullmatch(r"[|\-\s:]+", line))
    widths = [max(len(plain(row[at])) for row in [head, *rows]) for at in range(len(head))]
    gaps = 3 * (len(head) - 1)
    if sum(widths) + gaps <= WIDTH:
        return aligned(head, rows, ["l"] * len(head))
    widest = widths.index(max(widths))
    left = WIDTH - gaps - (sum(widths) - widths[widest])
    longest = max((len(word) for row in rows for word in plain(row[widest]).split()), default=0)
    if len(head) > 2 and left >= max(22, longest):
        return aligned(head, rows, [f"lw({left}n)" if at == widest else "l" for at in range(len(head))], widest)
    return described(head, rows)


def aligned(head, rows, form, wrapped=None):
    out = [".PP", ".TS", "tab(\t);", " ".join("lb" + it[1:] for it in form), " ".join(form) + "."]
    for row in [head, *rows]:
        cells = [inline(cell) for cell in row]
        if wrapped is not None:
            cells[wrapped] = f"T{{\n.na\n{cells[wrapped] or chr(92) + '&'}\nT}}"
        out += "\t".join(cells).split("\n")
    return [*out, ".TE"]


def described(head, rows):
    out = []
    for row in rows:
        out += [".TP", inline(row[0]) or "\\&", inline(row[1]) or "\\&"]
        for name, cell in zip(head[2:], row[2:]):
            if cell:
                out += [".IP", (f"\\fI{inline(name)}:\\fP " if name else "") + inline(cell)]
    return out


def code(lines):
    body = [escaped(line).replace("-", "\\-") for line in lines]
    return [".PP", ".in +4n", ".EX", *("\\&" + line if line[:1] in (".", "'") else line for line in body), ".EE", ".in"]


def blocks_of(lines):
    """The blocks of a text: their kind and lines."""
    blocks = []
    at = 0
    while at < len(lines):
        line = lines[at]
        begin = at
        at += 1
        if not line.strip():
            continue
        if line.startswith("#"):
            blocks.append(("head", [line]))
        elif line.startswith("```"):
            while not lines[at].startswith("```"):
                at += 1
            blocks.append(("code", lines[begin + 1 : at]))
            at += 1
        elif line.startswith("    "):
            while at < len(lines) and (lines[at].startswith("    ") or not lines[at].strip() and at + 1 < len(lines) and lines[at + 1].startswith("    ")):
                at += 1
            blocks.append(("code", [it[4:] for it in lines[begin:at]]))
        elif line.startswith("|"):
            while at < len(lines) and lines[at].startswith("|"):
                at += 1
            blocks.append(("table", lines[begin:at]))
        elif found := re.match(r"([-*]|[0-9]+\.) +", line):
            indent = len(found[0])
            while at < len(lines) and (lines[at].startswith(" " * indent) or not lines[at].strip() and at + 1 < len(lines) and lines[at + 1].startswith(" " * indent)):
                at += 1
            blocks.append((found[1], [line[indent:], *(it[indent:] for it in lines[begin + 1 : at])]))
        else:
            while at < len(lines) and lines[at].strip() and not re.match(r"#|\||```|[-*] |[0-9]+\. ", lines[at]):
                at += 1
            blocks.append(("text", lines[begin:at]))
    return blocks


def roff(lines):
    out = []
    for kind, body in blocks_of(lines):
        if kind == "head":
            depth, name = body[0].split(" ", 1)
            out.append((".SH " if len(depth) == 2 else ".SS ") + '"' + (inline(name).upper() if len(depth) == 2 and "\\" not in inline(name) else inline(name)) + '"')
        elif kind == "code":
            out += code(body)
        elif kind == "table":
            out += table(body)
        elif kind == "text":
            out += [".PP", inline(" ".join(it.strip() for it in body))]
        else:
            out += item("\\(bu" if kind in "-*" else kind, body)
    return out


def item(mark, body):
    """An item of a list, with its nested blocks."""
    first, *rest = roff(body)
    return [f".IP {mark} 4", *rest[:1], *([".RS 4", *rest[1:], ".RE"] if rest[1:] else [])]


def page(name, number, line, parts, others):
    date = time.strftime("%Y-%m-%d", time.gmtime(epoch()))
    out = ["'\\\" t", f'.\\" Made by scripts/man_pages of {", ".join(os.path.normpath(f"docs/{it}") for it, _ in parts)}.']
    out += [".nr HY 0", f'.TH {name.upper()} {number} {date} "femem {version()}"', ".ad l", LONG_PAGE, ".SH NAME", f"{name} \\- {line}"]
    for at, (source, wanted) in enumerate(parts):
        linked.source, linked.page = os.path.normpath(f"docs/{source}"), f"{name}({number})"
        lines = sections_of(document(source), wanted)
        first = next(it for it in lines if it.strip())
        if not first.startswith("## "):
            title = document(source)[0].lstrip("# ")
            out.append(".SH DESCRIPTION" if at == 0 else f'.SH "{title.upper()}"')
        out += roff(lines)
    see = ", ".join(f".BR {it[:-3]} {it[-3:]}" for it in others).replace(", ", " ,\n")
    return "\n".join([*out, '.SH "SEE ALSO"', see]) + "\n"


def main():
    if len(sys.argv) != 2:
        sys.exit("usage: scripts/man_pages FOLDER")
    os.makedirs(sys.argv[1], exist_ok=True)
    for name, number, *rest in PAGES:
        Path(os.path.join(sys.argv[1], f"{name}.{number}")).write_text(page(name, number, *rest), "ascii")
