"""docs/session-file.md: its tables read its example, which is the one that the tests of both clients read and write."""

import ast
import os
import re
import sys
import zlib

from .harness import holds, same
from .tables import rows, said, text
from .texts import TOP, split, text_of

sys.path.insert(0, os.path.join(TOP, "clients", "python"))

from femem import _sessionstate as sessionstate  # noqa: E402

PAGE = "docs/session-file.md"
SIZED = re.compile(r"([a-z][a-z' ]*?) (\d+)(?:,|$)")


def sizes_of(first):
    """The fields of a table of the page, with their sizes. One without a size has none."""
    found = [re.fullmatch(r"([a-z ]+?)(?: (\d+))?", row[0]).groups() for row in rows(PAGE, first)]
    return [(name, int(size) if size else None) for name, size in found]


def kinds():
    """The kinds of records: from a kind to its name and its fields, each with its size, or None for a key, a request or an answer."""
    found = {}
    for kind, name, fields in rows(PAGE, "| kind | name | fields |"):
        split_up = [re.fullmatch(r"(.*?)(?: (\d+))?", it).groups() for it in fields.split(", ") if it]
        found[int(kind)] = (name, [(it, int(size) if size else None) for it, size in split_up])
    return found


class Reader:
    """Reads fields from bytes by the page's sizes."""

    def __init__(self, content):
        self.content, self.at = content, 0
        answer = re.search(r"An \*answer\* .*code (\d) \(.*?\), value or id (\d), length (\d)\.", text(PAGE))
        self.answer = sum(int(it) for it in answer.groups())
        self.key = said(PAGE, "A *key* is its length N and")
        self.request = said(PAGE, "under number 0: length N, kind 1")

    def take(self, size):
        found = self.content[self.at : self.at + size]
        same(len(found), size, f"bytes at {self.at}")
        self.at += size
        return found

    def field(self, name, size):
        if name == "answer":
            return self.take(self.answer)
        if name in ("key", "request"):
            return self.take(int.from_bytes(self.take(getattr(self, name)), "big"))
        return self.take(size)


def example():
    """The bytes of the page's example: the header, and each block."""
    return [bytes.fromhex(it) for it in split(text_of(PAGE))[1]]


def tables(_place):
    """the tables of docs/session-file.md read its example: each sum is right, each record is whole, and the kinds are those of the client"""
    header, *blocks = example()
    head, rest = Reader(header), sizes_of("| header, 20 bytes |")
    magic, session, check = (head.take(size) for _, size in rest)
    same((magic, sum(size for _, size in rest)), (sessionstate.MAGIC, said(PAGE, "| header, N bytes |")), "the header")
    summed = [said(PAGE, "CRC-32 of the N bytes before it"), said(PAGE, "the session's number (N bytes), followed by the block's bytes")]
    same(summed, [len(magic + session), len(session)], "what a sum is of")
    holds(f"`{magic.decode()}`; the last byte is the version" in text(PAGE), "the page names the magic")
    same(int.from_bytes(check, "big"), zlib.crc32(magic + session), "the header's sum")
    fields = sizes_of("| block, 32 bytes and the payload |")
    same(sum(size or 0 for _, size in fields), said(PAGE, "| block, N bytes and the payload |"), "a block")
    met, blocks_of = [], []
    for content in blocks:
        length = int.from_bytes(content[: fields[0][1]], "big")
        reader = Reader(content)
        found = {name: reader.take(length if size is None else size) for name, size in fields}
        numbers = [int.from_bytes(found[name], "big") for name in ("floor", "asked", "next")]
        blocks_of += [numbers] if any(numbers) else []
        same((reader.at, int.from_bytes(found["sum"], "big")), (len(content), zlib.crc32(content[:-4], zlib.crc32(session))), "a block")
        records = Reader(found["payload"])
        while records.at < length:
            name, parts = kinds()[records.take(1)[0]]
            met.append(name)
            for part in parts:
                records.field(*part)
    same([said(PAGE, f"Block {at}: floor N, asked N, next N.", 3) for at in range(2, 2 + len(blocks_of))], blocks_of, "the blocks in words")
    same(int(re.search(r"of the text `123456789` it is (0x\w+)", text(PAGE))[1], 16), zlib.crc32(b"123456789"), "the CRC")
    same({name: kind for kind, (name, _) in kinds().items()}, {name: getattr(sessionstate, f"{name.upper()}_KIND") for _, (name, _) in kinds().items()})
    same(len(set(met)), 5, f"kinds in the example: {met}")
    return f"{len(met)} records"


def examples(_place):
    """the example of docs/session-file.md is, byte for byte, the one that the tests of both clients read and write"""
    whole = b"".join(example())
    same(len(whole), said(PAGE, "The file has N bytes"), "bytes of the example")
    in_c = re.search(r"\bexample\[[^\]]*\] = \{(.*?)\n\};", text_of("clients/c/test_format.c"), re.S)[1]
    same(bytes.fromhex("".join(re.findall(r'"([0-9a-f ]+)"', in_c))), whole, "clients/c/test_format.c")
    tree = ast.parse(text_of("clients/python/tests/test_sessionformat.py"))
    given = next(it.value for it in tree.body if isinstance(it, ast.Assign) and it.targets[0].id == "EXAMPLE")
    same(eval(compile(ast.Expression(given), "EXAMPLE", "eval")), whole, "clients/python/tests/test_sessionformat.py")
    return f"{len(whole)} bytes"
