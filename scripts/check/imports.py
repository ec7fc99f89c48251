"""Imports of the sources: each name that one brings in stands again in its file."""

import re

from .texts import matching, text_of, told

# An import, in a contract's language or in Rust: the path, and the names in braces or the one after `as`.
USE = re.compile(r"^\s*(?:ghost )?use (\S+?)(?:(?:\.|::)\{(.*)\}| as ([\w-]+))?;?$", re.M)
PASSED_ON = re.compile(r"^\s*(?:unfoldable )?pub(?:\(\w+\))? use .*$", re.M)
COMMENT = re.compile(r"(?:^|\s)(?:--|//).*$", re.M)
# Names that a file uses without writing them: steps of `do`, and traits for their methods.
SILENT = {"◌>>=◌", "Abort", "AsRawFd", "ByteOrder", "CondvarTimeouts", "Copied", "Disk", "FileExt", "FileTypeExt", "MetadataExt", "OpenOptionsExt", "Write"}


def names_of(path, listed, alias):
    """The names that an import brings in. A module's is used with a dot behind it."""
    if listed is None:
        return [alias or re.split(r"\.|::", path)[-1]]
    return [it.split(" as ")[-1].strip() for it in listed.split(",")]


def stands(name, body):
    """Whether a name stands in a text: an operator's parts, or a whole word that is no field."""
    if "◌" in name or not re.match(r"\w", name):
        return all(part in body for part in name.split("◌"))
    return re.search(rf"(?<![\w'-])(?<![\w)\]]\.){re.escape(name)}(?![\w'-])", body) is not None


def imports(_place):
    """each name that a file of src, specs or proofs imports stands in it again"""
    count, wrong = 0, []
    for folder, kind in (("src", "rt"), ("specs", "antt"), ("proofs", "antt")):
        for path in matching(f"crates/*/{folder}/**/*.{kind}"):
            text = COMMENT.sub("", PASSED_ON.sub("", text_of(path)))
            body = USE.sub("", text)
            for use in USE.finditer(text):
                names = names_of(*use.groups())
                count += len(names)
                wrong += [f"{path}: {it}" for it in names if it not in SILENT and not stands(it, body)]
    return told(wrong, count, 10000, "names imported")
