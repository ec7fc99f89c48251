"""The C client's shared library beside its earlier versions: their functions, their structs, and programs that were built with them.

`clients/c/abi/NAME/femem.h` is the header of a version; the last of them is that of the last release. A struct that differs in size or
in a field's place has grown; then each function that takes it has two versions in the library.
"""

import os
import re
import signal
from pathlib import Path

from .harness import Server, compiler, done, holds, same, until, within
from .manuals import versions
from .texts import TOP, text_of, told

C = os.path.join(TOP, "clients", "c")
ABI = "clients/c/abi"
# The functions that take a struct of these. Others may not grow.
TAKERS = {"femem_settings": ("femem_open", "femem_open_file"), "femem_recovered": ("femem_recovered_at",)}
STRUCT = re.compile(r"^typedef struct (femem_\w+) \{\n(.*?)^\} \1;", re.M | re.S)
FIELD = re.compile(r"(\w+)(?:\[[^\]]*\])?;")
CODE = re.compile(r"\b(FEMEM_[A-Z_]+) = [0-9]+", re.M)
# May be changed: a program's own buffers have the size in its header, and the library takes longer keys too.
MAY_GROW = {"FEMEM_KEY"}


def earlier():
    """The earlier versions whose headers are kept."""
    return sorted(it for it in os.listdir(os.path.join(TOP, ABI)) if os.path.isdir(os.path.join(TOP, ABI, it)))


def functions(header):
    return set(re.findall(r"\b(femem_[a-z_]+)\(", header))


def of_library(place):
    """From each function of the shared library to its versions, the newest last; and the library's path."""
    compiler()
    root = place.path("root")
    done(place, ["make", "-s", "-C", C, "install", "PREFIX=/usr", f"DESTDIR={root}"])
    library = os.path.join(root, "usr", "lib", "libfemem.so.1")
    found = {}
    for line in done(place, ["nm", "-D", "--defined-only", library]).splitlines():
        if match := re.fullmatch(r"\S+ T (femem_\w+)@@?(\S+)", line):
            found.setdefault(match[1], set()).add(match[2])
    return {name: sorted(it) for name, it in found.items()}, library


def layout(place, folder):
    """Sizes, places of fields and codes, as a program sees them that is built with the header in a folder."""
    header = text_of(os.path.relpath(os.path.join(folder, "femem.h"), TOP))
    lines = [f'printf("{name} %d\\n", (int){name});' for name in sorted(set(CODE.findall(header)))]
    for name, body in STRUCT.findall(header):
        lines.append(f'printf("{name} %zu\\n", sizeof({name}));')
        for field in FIELD.findall(re.sub(r"/\*.*?\*/", "", body, flags=re.S)):
            lines.append(f'printf("{name}.{field} %zu\\n", offsetof({name}, {field}));')
    source = place.write("layout.c", ("#include <femem.h>\n#include <stdio.h>\nint main(void) {\n" + "\n".join(lines) + "\nreturn 0; }\n").encode())
    done(place, [compiler(), "-I", folder, "-o", place.path("layout"), source])
    return dict(line.split() for line in done(place, [place.path("layout")]).splitlines())


@within(120)
def keeps(place):
    """the library has each function of earlier versions, codes and structs are as they were, and what takes a grown one is there twice"""
    there, _ = of_library(place)
    today = layout(place, C)
    missing, count = [], 0
    for name in earlier():
        header = text_of(f"{ABI}/{name}/femem.h")
        missing += [f"{name}: no {it}" for it in sorted(functions(header) - set(there))]
        before = layout(place, os.path.join(TOP, ABI, name))
        count += len(before) + len(functions(header))
        changed = {it.split(".")[0] for it, value in before.items() if today.get(it) != value} - MAY_GROW
        missing += [f"{name}: {it} has changed" for it in sorted(changed - set(TAKERS))]
        for taker in (it for struct in sorted(changed & set(TAKERS)) for it in TAKERS[struct]):
            missing += [] if len(there[taker]) > 1 else [f"{name}: {taker} has one version"]
    return told(missing, count, 200, "names, sizes and places")


def numbered(place):
    """a function that the last release had is in the library under that version or an earlier one, and a new one under the coming version"""
    there, _ = of_library(place)
    coming = "FEMEM_" + versions.number().rsplit(".", 1)[0]
    holds(earlier_release() in earlier(), f"{ABI}/{earlier_release()} lacks its header: CONTRIBUTING.md says how the next version begins")
    had = functions(text_of(f"{ABI}/{earlier_release()}/femem.h"))
    wrong = [f"{it} is new, and has {node}" for it, node in there.items() if it not in had and node != [coming]]
    wrong += [f"{it} was there, and has only {coming}" for it in sorted(had) if it in there and there[it] == [coming]]
    same(sorted(there), sorted(functions(text_of("clients/c/femem.h"))))
    return told(wrong, len(there), 60, "functions")


def earlier_release():
    """The last release: the first dated heading of CHANGELOG.md that is not this text's own."""
    return next(number for number, date, _ in versions.entries()[0 if not versions.is_released() else 1:] if date)


def built_before(place, name):
    """A program built with an earlier version's header, and with a library whose names had no versions."""
    names = sorted(functions(text_of(f"{ABI}/{name}/femem.h")))
    stub = place.write("stub.c", "".join(f"void {it}(void) {{ }}\n" for it in names).encode())
    made = place.path(f"stub-{name}.so")
    done(place, [compiler(), "-shared", "-fPIC", "-Wl,-soname,libfemem.so.1", "-o", made, stub])
    program = place.path(f"program-{name}")
    words = [compiler(), "-std=c11", "-I", os.path.join(TOP, ABI, name), "-o", program, os.path.join(TOP, ABI, "program.c"), made]
    done(place, words)
    return program


@within(120)
def old_programs(place):
    """a program built with each earlier version's header runs with today's library: its settings hold, and its structs are not overrun"""
    _, library = of_library(place)
    env = {"LD_LIBRARY_PATH": os.path.dirname(library)}
    server = Server(place).start()
    for at, name in enumerate(earlier()):
        program = built_before(place, name)
        words = [program, server.socket, place.path(f"session-{at}")]
        waits = place.start([*words, "leave"], "waits", env)
        until(lambda: place.read("waits.out") == b"waits\n" and has_request(words[2]), 20, f"{name}: it waits")
        waits.send_signal(signal.SIGKILL)
        waits.wait()
        same(done(place, [*words, "look"], env=env), "16 0 the key whole\n42\n", name)
    return f"{len(earlier())} headers"


def has_request(path):
    """Whether a session file has the request under the key."""
    return b"the key" in Path(path).read_bytes()
