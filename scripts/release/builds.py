"""Builds what a release has besides the program: the Python client's wheel, and the C library with femem-cli."""

import os
import re
import shutil
import subprocess
import sys

from . import versions

TOP = versions.TOP

# The hooks of PEP 517, by which `pip` would build the package too.
BUILD = """
import importlib, os, sys
sys.path.insert(0, os.getcwd())
backend = importlib.import_module(sys.argv[1])
backend.build_wheel(sys.argv[2])
backend.build_sdist(sys.argv[2])
"""

# As Debian builds its packages, without debugging information. The same sources give the same bytes in any folder.
C_FLAGS = "-O2 -fstack-protector-strong -Wformat -Werror=format-security -D_FORTIFY_SOURCE=2"
LINK_FLAGS = "-Wl,-z,relro -Wl,-z,now"
LIBRARIES = "/usr/lib/x86_64-linux-gnu"


def sources(folder):
    """A copy of the clients with this build's version. Returns its path."""
    clients = os.path.join(folder, "clients")
    ignored = shutil.ignore_patterns("out", "build", "*.egg-info", "__pycache__")
    shutil.copytree(os.path.join(TOP, "clients"), clients, ignore=ignored)
    shutil.copy(os.path.join(TOP, "LICENSE"), folder)
    versions.filled(clients)
    return clients


def python(clients, folder):
    """Builds the Python client's wheel and source archive in the folder, from such a copy."""
    client = os.path.join(clients, "python")
    homepage = os.environ.get("FEMEM_HOMEPAGE")
    with open(os.path.join(client, "pyproject.toml"), "r+", encoding="utf-8") as file:
        backend = re.search(r'^build-backend = "(.*)"$', file.read(), re.M)[1]
        file.write(f'\n[project.urls]\nHomepage = "{homepage}"\n' if homepage else "")
    words = [sys.executable, "-c", BUILD, backend, os.path.abspath(folder)]
    env = {**os.environ, "SOURCE_DATE_EPOCH": str(versions.epoch()), "PYTHONDONTWRITEBYTECODE": "1"}
    subprocess.run(words, cwd=client, check=True, stdout=subprocess.DEVNULL, env=env)


def c(clients, room):
    """Builds the C library, and femem-cli over its shared form, as Debian has them, from such a copy. Returns the folder that is then
    the root."""
    for word in ("make", "strip", os.environ.get("CC", "cc")):
        if not shutil.which(word):
            sys.exit(f"femem: {word} is not on the PATH (on Debian: apt install gcc binutils make)")
    root = os.path.join(room, "root")
    flags = [f"CFLAGS={C_FLAGS}", f"LDFLAGS={LINK_FLAGS}", "PREFIX=/usr", f"DESTDIR={root}"]
    env = {it: value for it, value in os.environ.items() if it not in ("MAKEFLAGS", "MAKELEVEL", "MFLAGS")}
    for words in (["c", f"LIBDIR={LIBRARIES}"], ["cli", "LIBRARY=../c/out/libfemem.so.1"]):
        command = ["make", "-s", "-C", os.path.join(clients, words[0]), "install", *flags, *words[1:]]
        ran = subprocess.run(command, env=env, stdout=subprocess.PIPE, stderr=subprocess.STDOUT, text=True, check=False)
        if ran.returncode:
            sys.exit(f"femem: clients/{words[0]} can't be built: {ran.stdout[-1000:]}")
    libraries = root + LIBRARIES
    strip(os.path.join(libraries, f"libfemem.so.{versions.number()}"), "--strip-unneeded")
    strip(os.path.join(libraries, "libfemem.a"), "--strip-debug", "--enable-deterministic-archives")
    strip(os.path.join(root, "usr", "bin", "femem-cli"), "--strip-all")
    return root


def strip(path, *how):
    subprocess.run(["strip", *how, "--remove-section=.comment", "--remove-section=.note", path], check=True)
