"""What the program `femem` says of a store."""

from __future__ import annotations

import os
import subprocess
from typing import Optional, Tuple

from .files import Fault

# The program that was installed with these tools, unless FEMEM names another.
PROGRAM = os.environ.get("FEMEM") or os.path.join(os.path.realpath(__file__).rsplit("/lib/", 1)[0], "bin", "femem")


def look(path: str, seconds: Optional[float] = None) -> Tuple[Optional[str], str]:
    """The text that `femem look` shows of a store; or None, and the line that it says instead."""
    try:
        process = subprocess.Popen(
            [PROGRAM, "look", "--store", path], stdin=subprocess.DEVNULL, stdout=subprocess.PIPE, stderr=subprocess.PIPE, text=True
        )
    except OSError as error:
        raise Fault(f"{PROGRAM}: {error.strerror}; FEMEM names the program") from None
    try:
        text, said = process.communicate(timeout=seconds)
    except subprocess.TimeoutExpired:
        # (one that a device keeps does not end, and is not waited for)
        process.kill()
        return None, f"no look within {seconds:g} s"
    if process.returncode == 0:
        return text, ""
    return None, said.strip() or f"{PROGRAM} ended with status {process.returncode}"


def first(text: str) -> int:
    """The place that a look shows."""
    return int(text.split("\n", 1)[0].removeprefix("place "))


def shown(path: str) -> str:
    """The place of a store, or what is wrong with it."""
    text, fault = look(path)
    return f"place {first(text)}" if text is not None else fault


def place_of(path: str) -> int:
    """The place of a store that opens."""
    text, fault = look(path)
    if text is None:
        raise Fault(f"{path} does not open: {fault}")
    return first(text)
