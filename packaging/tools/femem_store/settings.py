"""What a tool takes of the server's settings. Where a tool wants a store or a socket, the path of the settings may be given instead."""

from __future__ import annotations

import tomllib
from typing import Any, Dict

from .files import Fault, named


def read(path: str) -> Dict[str, Any]:
    """The settings in a file."""
    with named(path), open(path, "rb") as file:
        try:
            return tomllib.load(file)
        except (tomllib.TOMLDecodeError, UnicodeDecodeError):
            raise Fault(f"{path} is no TOML document") from None


def path_of(given: str, key: str) -> str:
    """The store or the socket: the path that is given, or the one that the settings there have."""
    if not given.endswith(".toml"):
        return given
    found = read(given).get(key)
    if not isinstance(found, str):
        raise Fault(f"{given} has no {key}")
    return found


def store_of(given: str) -> str:
    return path_of(given, "store")


def may_format(given: str) -> bool:
    """Whether the server may make a store."""
    return given.endswith(".toml") and read(given).get("format") is True
