"""The edits with which the canary makes wrong bodies: of the disk in a file, and of the edge that no clause sees."""

import itertools
import re

from .texts import text_of

FILES = ("wrong_disks", "wrong_edges")


def edits():
    """The edits of both files in order: a file, the text that it has once, and what replaces it, of a line each or of several."""
    found = []
    for name in FILES:
        path = old = None
        lines = [re.fullmatch(r"(file|old|new): ?(.*)", line).groups() for line in text_of(f"scripts/check/{name}.edit").splitlines()]
        for word, rows in itertools.groupby(lines, lambda it: it[0]):
            text = "\n".join(row for _, row in rows)
            if word == "file":
                path = text
            elif word == "old":
                old = text
            else:
                found.append((path, old, text))
    return found
