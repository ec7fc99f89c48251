"""Rules of the sources: one record for the disk model, one meaning for a type's name in a file, one width."""

import os
import re

from .sources import source_of
from .texts import TOP, matching, text_of, told

PRODUCT = sorted(it for it in os.listdir(os.path.join(TOP, "crates")) if it.startswith("fe"))
# Members of the trait `Disk`, of any type parameter, that follow one another as arguments.
MEMBER = r"\b[A-Z]\w*\.(?:size|failures|calls|honest|seen|may_leave|moment|left_since)\b"
HANDED = re.compile(rf"{MEMBER}\s+{MEMBER}")
TYPE = re.compile(r"^\s*(?:pub(?:\([a-z]+\))? )?(?:struct|enum|trait) (\w+)", re.M)
# What an `OutOfMemory` is made from, and the files that name it: the crate that makes them, the command line, whose crate of the kit
# wants std's error, and the one call of the system whose error is a number.
MADE_FROM = re.compile(r"\b(?:AllocError|AllocFailed|fmt::Error|ErrorKind::OutOfMemory|from_raw_os_error)\b")
MAKERS = ("crates/fe_memory/", "crates/fe_options/", "crates/femem/", "crates/fe_disk/src/system_file.rt")
# The calls for files that fe_store makes, in their order.
NAMED = re.compile(r"(?:\bfs::|\bFile::|\bOpenOptions::|\bFileDisk(?:::<\w+>)?::|\bF::|\b(?:add|remove)_name|\brenamed)(?:\w*\([^<>{]*?\))")
NAMES = [
    "FileDisk::at(self.rt,self.path,DEVICE_BYTES)",
    "FileDisk::at(self.rt,new,size)",
    "FileDisk::read_only(self.rt,name,DEVICE_BYTES)",
    "fs::symlink_metadata(self.rt,name)",
    "FileDisk::create(self.rt,new,DEVICE_BYTES)",
    "renamed(self.rt,new,self.path)",
    "renamed(self.rt,new,kept)",
    "remove_name(self.rt,new)",
    "remove_name(self.rt,new)",
    "add_name(rt,new,name)",
    "remove_name(rt,new)",
    "fs::metadata(rt,path)",
]
# How wide a line may be, in columns; and what can't be broken: an attribute, and a line of a text in bytes.
WIDTH = 110
WHOLE = re.compile(r"\s*(#\[|\\0)")
USED = re.compile(r"^\s*(?:pub )?use (fe_\w+)::(?:\{([^}]*)\}|(\w+));", re.M)


def sources():
    """The sources of the product's crates: the path and the text of each."""
    return [(it, text_of(it)) for it in matching("crates/fe*/src/**/*.rt")]


def device(_place):
    """no clause hands on two members of the disk model one by one: the record `D.Disk` has them all"""
    count, wrong = 0, []
    for path, text in sources():
        count += len(re.findall(r"\bD\.Disk\b", text))
        wrong += [f"{path}:{text[: it.start()].count(chr(10)) + 1}: {it[0]}" for it in HANDED.finditer(text)]
    return told(wrong, count, 100, "uses of the record")


def types(_place):
    """no file of a product crate uses two types of one name that two product crates declare"""
    declared = {crate: set(TYPE.findall(source_of(crate, "src"))) for crate in PRODUCT}
    count, wrong = 0, []
    for path, text in sources():
        here = {name: path.split("/")[1] for name in TYPE.findall(text)}
        for use in USED.finditer(text):
            for item in re.split(r",\s*", (use[2] or use[3]).strip().rstrip(",")):
                name = item.split(" as ")[0].strip()
                if name not in declared.get(use[1], ()):
                    continue
                count += 1
                if here.setdefault(name, use[1]) != use[1]:
                    wrong.append(f"{path}: {name} of {here[name]} and of {use[1]}")
    return told(wrong, count, 400, "types taken from other crates")


def memory(_place):
    """no file makes an error from which an OutOfMemory can be made, but those that MAKERS names"""
    count, wrong = 0, []
    for path, text in sources():
        count += len(re.findall(r"\bOutOfMemory\b", text))
        if not path.startswith(MAKERS):
            wrong += [f"{path}:{text[: it.start()].count(chr(10)) + 1}: {it[0]}" for it in MADE_FROM.finditer(text)]
    return told(wrong, count, 200, "uses of OutOfMemory")


def names(_place):
    """of fe_store only store_path.rt calls the system for files, with the names that its clauses require"""
    count, wrong = 0, []
    for path, text in sources():
        if not path.startswith("crates/fe_store/src/"):
            continue
        made = [re.sub(r"\s+", "", it) for it in NAMED.findall(text)]
        count += len(made)
        if made != (NAMES if path.endswith("/store_path.rt") else []):
            wrong.append(f"{path}: {made}")
    return told(wrong, count, len(NAMES), "calls")


def widths(_place):
    """no line of a crate's sources and definitions is wider than 110 columns"""
    count, wrong = 0, []
    for path in matching("crates/*/src/**/*.rt", "crates/*/specs/**/*.antt"):
        lines = text_of(path).split("\n")
        count += len(lines)
        wrong += [f"{path}:{k}: {len(it)}" for k, it in enumerate(lines, 1) if len(it) > WIDTH and not WHOLE.match(it)]
    return told(wrong, count, 40000, "lines")
