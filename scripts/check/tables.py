"""The tables of the documents, by which the checks speak to the program, read its stores and compare its ends.

So a false code, offset, limit or status in a document fails every check that uses it."""

import functools
import os
import re
import struct
from pathlib import Path

TOP = os.path.normpath(os.path.join(os.path.dirname(os.path.realpath(__file__)), "..", ".."))


class Lacks(Exception):
    """A document lacks a table or a sentence, or says two things."""


# Pages as they are read otherwise than they are (wrong_sentences.py).
PLANTED = {}


@functools.cache
def text(name):
    if name in PLANTED:
        return PLANTED[name]
    return Path(os.path.join(TOP, name)).read_text("utf-8")


def rows(name, first):
    """The rows of the tables of a document whose head begins with these words, as lists of cells without backticks."""
    found, on = [], False
    for line in text(name).split("\n"):
        head = line.startswith(first)
        on = line.startswith("|") and (on or head)
        if on and not head and not re.fullmatch(r"[|\- ]+", line):
            found.append([cell.strip().replace("`", "") for cell in line.strip("|").split("|")])
    if not found:
        raise Lacks(f"{name} has no table {first}")
    return found


def number(said):
    """A number as documents write it: 65,536 or 2^40."""
    base, _, power = said.replace(",", "").partition("^")
    return int(base) ** int(power or 1)


def said(name, form, count=1):
    """The numbers in the one sentence of a document that has this form; `N` in the form stands for a number."""
    pattern = re.escape(form).replace("N", r"([\d,]+(?:\^\d+)?)")
    found = set(re.findall(pattern, text(name)))
    if len(found) != 1:
        raise Lacks(f"{name} says {len(found)} things of the form: {form}")
    numbers = found.pop()
    numbers = [number(it) for it in ((numbers,) if isinstance(numbers, str) else numbers)]
    return numbers[0] if count == 1 else numbers


def codes(name, first):
    """The table of two pairs of columns, code and name, as a dictionary from name to code."""
    return {row[at + 1]: int(row[at]) for row in rows(name, first) for at in (0, 2) if row[at]}


FIELD = re.compile(r"([a-z][a-z ]*?) (\d+)(?: \((\d+) to (\d+)\))?")
SIZES = {1: "B", 2: "H", 4: "I", 8: "Q"}


def packing(sizes):
    """The struct format of fields of these sizes: numbers up to 8 bytes, else bytes."""
    return ">" + "".join(SIZES.get(size, f"{size}s") for size in sizes)


class Kind:
    """A kind of frame: its name, its body's fields and form, and the least and greatest value of each field that has such bounds."""

    def __init__(self, name, body, other):
        fields = FIELD.findall(body)
        self.name = name
        self.fields = other.fields if other else [it[0] for it in fields]
        self.form = other.form if other else packing([int(it[1]) for it in fields])
        self.bounds = {it[0]: (int(it[2]), int(it[3])) for it in fields if it[2]}

    def packed(self, values):
        """A body with these values of its fields, which are named."""
        return struct.pack(self.form, *(values[it] for it in self.fields))

    def unpacked(self, body):
        """The values of a body's fields, by name."""
        return dict(zip(self.fields, struct.unpack(self.form, body)))


def kinds(first):
    """The frames of the tables of docs/formats.md whose head begins so, from kind to Kind. Where a kind has one length, it must be
    that of the fields."""
    found = {}
    for code, name, body, length in rows("docs/formats.md", first):
        alias = re.fullmatch(r"as for kind (\d+)", body)
        found[int(code)] = kind = Kind(name, body, found[int(alias[1])] if alias else None)
        if length.isdigit() and int(length) != 1 + struct.calcsize(kind.form):
            raise Lacks(f"docs/formats.md: kind {code} of length {length} has fields of {1 + struct.calcsize(kind.form)} bytes")
    return found


RECORD = "| at, format 1 | at, format 2 |"


def record_form(column, names):
    """The form of an entry record by docs/formats.md, and its size: from a column of offsets, 0 for format 1 and 1 for format 2. Its
    fields begin with these names."""
    sizes, at = [], 0
    for row, name in zip(rows("docs/formats.md", RECORD), names):
        size = row[2].split(" or ")
        sizes.append(int(size[min(column, len(size) - 1)]))
        if int(row[column]) != at or not row[3].startswith(name):
            raise Lacks(f"docs/formats.md: the field {name} is at {at}, not {row[3]} at {row[column]}")
        at += sizes[-1]
    return packing(sizes), at


def codes_in_record(name):
    """The codes that a field's row lists, such as `1 attached, 2 closed`, from a word to its code."""
    row = next(it[3] for it in rows("docs/formats.md", RECORD) if it[3].startswith(f"{name}: "))
    return {word: int(code) for code, word in re.findall(r"(\d+) ([a-z]+)", row)}


def limits():
    """The README's table of limits: from the first cell to the numbers in the second."""
    return {name: [number(it) for it in re.findall(r"[\d,]*\d", most)] for name, most in rows("README.md", "| | at most |")}


def operations():
    """The operation table of docs/commands.md: from a name to what it needs, its value after, its tag after, and its answer."""
    return {row[0]: tuple(row[1:]) for row in rows("docs/commands.md", "| operation | needs |")}


def statuses():
    """The exit statuses of docs/commands.md, with what each means."""
    return {int(status): meaning for status, meaning in rows("docs/commands.md", "| status | meaning |")}


def settings():
    """The settings of docs/settings.md: from a key to its value's text and its default's."""
    return {key: (value, default) for key, value, default in rows("docs/settings.md", "| key | value |")}
