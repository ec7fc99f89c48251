"""docs/store.md: its orders of writes and syncs are those that records.py compares with a server's calls, and its costs those of the proofs."""

import re

from . import records, store
from .harness import holds, same
from .model import State
from .sources import source_of
from .store import TWO, image_of
from .tables import number, rows, text
from .texts import block

PAGE = "docs/store.md"


def in_order(calls):
    """The reads, writes and syncs of some calls, and each byte that is written alone."""
    kinds = {"pwrite": "write", "pread": "read", "fdatasync": "sync"}
    return [(kinds[it[0]], it[2] if it[0] == "pwrite" and len(it[2]) == 1 else b"") for it in calls if it[0] in kinds]


def on_page(first):
    """The same of a block of the page. A line about both headers is two calls. `a closed gate` alone is a byte."""
    found = []
    for line in block(PAGE, first).splitlines():
        if word := re.match(r"(write|read|sync)\b(.*)", line):
            byte = re.search(r"0x([0-9a-f]{2})$", word[2])
            byte = bytes.fromhex(byte[1]) if byte else b"\0" if re.search(r"journal area +a closed gate$", line) else b""
            found += [(word[1], byte)] * (2 if "both header" in line else 1)
    return found


def orders(_place):
    """the blocks of docs/store.md that append, finish, open and format have the writes, reads and syncs that a server's calls are compared with"""
    image = image_of(State(), TWO)
    journal = lambda: records.Journal(TWO, 1)
    entry = ("attached", 7, 1)
    found = {
        "at offset o": journal().group(entry), "write   journal area": records.finishing(1, journal(), [entry]),
        "sync\nread    both headers": records.opening(1, len(image)), "write   both header gates": records.formatting(),
    }
    for first, calls in found.items():
        same(on_page(first), in_order(calls), first)
    same(re.search(r"generation (\d), format (\d)\n", block(PAGE, "write   both header gates")).groups(), ("1", str(TWO.number)), "a new store")
    same(re.search(r"slot 0, generation (\d)\n", block(PAGE, "format ")).groups(), ("1",), "a new store")
    return f"{len(found)} blocks"


def layout(_place):
    """the layout of docs/store.md has the areas of docs/formats.md, with their sizes, in both slots"""
    found = re.findall(r"^    ([\d,]+) {2,}([\d,]+) {2,}([\d,]+) {2,}(header|image|journal area)\b", text(PAGE), re.M)
    same({name: (number(at), number(other) - number(at), number(size)) for at, other, size, name in found}, {name: (at, store.SLOT, size) for name, (at, size) in store.AREAS.items()})


# How the page writes the calls that make a store's file, and the steps in which a backup reads a slot with what does each there.
CALLED = {"open": "made", "flock": "locked", "write": "filled", "fsync": "synced", "link": "a second name", "unlink": "removed"}
STEPS = (
    ("the header's fields, and then its gate", "layout.counting(read)"), ("its image", "read(base + IMAGE"), ("its groups", "layout.groups(read"),
    ("its journal area, whole", "read(base + JOURNAL"), ("its header's fields once more", "Header(read, header.slot).fields !="),
)


def life(_place):
    """docs/store.md makes a store's file by the calls that a server's are compared with, has the keeper's calls, and copies as a backup reads"""
    said = re.findall("|".join(CALLED.values()), block(PAGE, "PATH.new "))
    # (of the opens only that of the file is a step, not those of its folder)
    calls = [it.split() for it in (*records.new_file("PATH.new"), *records.renamed("PATH.new", "PATH"))]
    same(said, [CALLED[it[0]] for it in calls if it[0] in CALLED and it[:2] != ["open", "."]], "how a store's file is made")
    names, begun = [], ""
    for head, word in re.findall(r"^(\w*) +(\w+)", block(PAGE, "format "), re.M):
        begun = head or begun
        names.append(f"{begun}_{word}" if begun == "checkpoint" else begun)
    there = re.findall(r"\bpub fn (\w+)", source_of("fe_keeper", "src"))
    same([it for it in names if it not in there], [], "calls that the keeper lacks")
    shown = re.findall(r"^\d +(?:of each slot +)?(.*?)(?: {2,}.*)?$", block(PAGE, "sync\n1 "), re.M)
    same([it.startswith(words) for it, (words, _) in zip(shown, STEPS, strict=True)], [True] * len(STEPS), shown)
    tool = text("packaging/tools/femem_store/backup.py")
    places = [tool.index(code) for _, code in STEPS]
    same(places, sorted(places), "the order in which a backup reads")
    return f"{len(said) + len(names) + len(shown)} steps"


COUNTED = re.compile(r"(\d) (read|write|sync)s?\b")


def costs(_place):
    """the device calls of docs/store.md's table of costs are the most that the contracts of fe_journal allow"""
    source = source_of("fe_journal", "src") + source_of("fe_journal", "specs")
    count = 0
    for name, calls, _ in rows(PAGE, "| call | device calls |"):
        said = {"read": 0, "write": 0, "sync": 0}
        for many, kind in COUNTED.findall(calls):
            said[kind] += int(many)
        begin = re.search(rf"^    pub fn {name}\b.*?^    \{{", source, re.M | re.S)
        holds(begin, f"fe_journal has no {name}")
        if ends := re.search(r"ensures ends \{ CallEnds D\.Disk (\d) (\d) (\d) ", begin[0]):
            same(list(said.values()), [int(it) for it in ends.groups()], name)
        else:
            relation = re.search(r"ensures (?:ends|device) \{ (\w+) ", begin[0])[1]
            text_of_it = re.search(rf"^pub (?:record )?{relation}\b.*?(?=^\S|\Z)", source, re.M | re.S)[0]
            most = re.search(r"Makes\w* (\d) (\d) (\d)\b", text_of_it)
            holds(most, f"{relation} bounds no calls: {text_of_it}")
            same(list(said.values()), [int(it) for it in most.groups()], name)
        count += 1
    words = "none one two three four five six seven eight nine ten".split()
    number_format, writes, syncs = re.search(r"an empty store of format (\d), by (\w+) writes and (\w+) syncs", text("docs/proved.md")).groups()
    table = {name: COUNTED.findall(calls) for name, calls, _ in rows(PAGE, "| call | device calls |")}
    same((int(number_format), words.index(writes), words.index(syncs)), (TWO.number, *(int(it[0]) for it in table["format"])), "docs/proved.md")
    same(number(re.search(r"the buffer of ([\d,]+) bytes", text(PAGE))[1]), store.AREAS["image"][1], "the buffer")
    return f"{count} calls"
