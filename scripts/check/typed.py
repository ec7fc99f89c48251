"""What mypy says of the Python client."""

import os
import subprocess
import sys

from .clients import CLIENTS
from .harness import Skipped, same, within

# The status of check_types.py where there is no mypy.
NONE = 77


@within(180)
def typed(place):
    """mypy finds no mistake in the Python client and its examples, and finds each forgotten `await` and other mistakes of a list"""
    words = [sys.executable, os.path.join(CLIENTS, "python", "check_types.py")]
    ran = subprocess.run(words, capture_output=True, text=True, timeout=170 * place.options.patience, check=False)
    if ran.returncode == NONE:
        raise Skipped("there is no mypy, of Debian's package mypy")
    same((ran.returncode, ran.stderr), (0, ""), ran.stdout + ran.stderr)
    return ran.stdout.strip().removeprefix("types: ")
