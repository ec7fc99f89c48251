"""Messages on standard error, and exit statuses."""

import os
import socket

from . import wire
from .harness import Server, holds, same, until
from .manuals import versions
from .store import SIZE, TWO, device_of

PATHS = 'socket = "x.socket"\nstore = "x.store"\n'


MORE = b"\n\nFor more information, try '--help'.\n"


def words(place):
    """wrong command lines are reported, with status 2 and no output"""
    name = os.path.basename(place.program).encode()
    usage = b"\n\nUsage: " + name
    missing = lambda option, command: b"the following required arguments were not provided:\n  " + option + usage + b" " + command + b" " + option
    for given, said in (
        ((), b"'" + name + b"' requires a subcommand but one was not provided\n  [subcommands: run, serve, call, look, help]" + usage + b" <COMMAND>"),
        (("jump",), b"unrecognized subcommand 'jump'" + usage + b" <COMMAND>"),
        (("serve",), missing(b"--settings <FILE>", b"serve")),
        (("call",), missing(b"--socket <PATH>", b"call")),
        (("look",), missing(b"--store <PATH>", b"look")),
        (("look", "--store"), b"a value is required for '--store <PATH>' but none was supplied"),
        (("run", "more"), b"unexpected argument 'more' found" + usage + b" run"),
        # (this error comes before the program's name is read from its arguments)
        (("look", "--store", b"\xff"), b"invalid UTF-8 was detected in one or more arguments\n\nUsage: femem <COMMAND>"),
    ):
        same(place.run(*given), (2, b"", b"error: " + said + MORE), given)


def commands(place):
    """an option's value follows a space or `=`, and may contain spaces"""
    store = place.write("a b", bytes(device_of(TWO)))
    for given in (("look", "--store", store), ("look", f"--store={store}")):
        same(place.run(*given), (0, b"place 0\n", b""), given)
    server = Server(place).start()
    for given in (("call", "--socket", server.socket), ("call", f"--socket={server.socket}")):
        same(place.run(*given, given=b"report\n"), (0, b"waiting 0\n", b""), given)


def help_and_version(place):
    """help and version are shown, with status 0; if they can't be written it is `femem: input`"""
    for given in (("--help",), ("help",), ("-h",)):
        status, output, errors = place.run(*given)
        same((status, errors), (0, b""), given)
        for command in (b"run", b"serve", b"call", b"look"):
            holds(command in output, f"{given}: {output}")
    for command in ("run", "serve", "call", "look"):
        status, output, errors = place.run(command, "--help")
        usage = f"Usage: {os.path.basename(place.program)} {command}".encode()
        holds(status == 0 and not errors and usage in output, f"{command}: {output}")
    shown = f"Shows what is in a store\n\nUsage: {os.path.basename(place.program)} look --store <PATH>\n\n"
    shown += "Options:\n      --store <PATH>  The file of the store\n  -h, --help          Print help\n"
    same(place.run("look", "--help"), (0, shown.encode(), b""))
    same(place.run("--version"), (0, f"femem {versions.of_sources()[0]}\n".encode(), b""))
    with open("/dev/full", "wb") as full:
        same(place.run("--help", stdout=full)[::2], (2, b"femem: input\n"))


def refused(place, text, line, status=2):
    file = place.write("refused.toml", text if isinstance(text, bytes) else text.encode())
    same(place.run("serve", "--settings", file), (status, b"", f"femem: {line}\n".encode()), text)


def settings_unreadable(place):
    """settings that can't be read, and settings that are not TOML"""
    same(place.run("serve", "--settings", place.path("none")), (2, b"", b"femem: settings: unreadable\n"))
    same(place.run("serve", "--settings", place.folder), (2, b"", b"femem: settings: unreadable\n"))
    refused(place, b'socket = "\xff"\n', "settings: unreadable")
    for text in ("socket", "other", "socket = ", PATHS + "accepts = 01\n", PATHS + 'socket = "twice"\n', "= 1\n", PATHS + "turns = 1__0\n", 'socket = "open\n'):
        refused(place, text, "settings: not toml")


def settings_in_order(place):
    """the first wrong key in the order of docs/settings.md is reported, and an unknown key last"""
    wrong = {"socket": "1", "store": "true", "connections": "0", "format": "1", "accepts": "-1", "turns": "0"}
    right = {"socket": '"x.socket"', "store": '"x.store"', "connections": "1", "format": "false", "accepts": "0", "turns": "1"}
    keys = list(wrong)
    for at, key in enumerate(keys):
        # (the later keys are wrong too, and come before it in the file)
        lines = ["more = 1"] + [f"{it} = {wrong[it]}" for it in reversed(keys[at:])] + [f"{it} = {right[it]}" for it in keys[:at]]
        refused(place, "\n".join(lines), f"settings: {key}")
    refused(place, "\n".join(["more = 1"] + [f"{it} = {right[it]}" for it in keys]), "settings: unknown key")
    refused(place, PATHS + "[more]\n", "settings: unknown key")
    refused(place, PATHS + "Format = true\n", "settings: unknown key")
    refused(place, "", "settings: socket")
    refused(place, 'socket = "x.socket"\n', "settings: store")


def settings_bounds(place):
    """the bounds of each setting, just inside and just outside"""
    for key, values in {
        "connections": ("257", "-1", "1.0", '"1"', "true", "[1]", "9223372036854775807"),
        "format": ("0", '"true"', "[]"),
        "accepts": ("65537", "-1", "0.0", '"0"'),
        "turns": ("1099511627777", "-1", "1e3", "false"),
        "socket": ("[]", "1979-05-27"),
        "store": ("{}", "0.5"),
    }.items():
        for value in values:
            others = "".join(line + "\n" for line in PATHS.splitlines() if not line.startswith(key))
            refused(place, f"{others}{key} = {value}\n", f"settings: {key}")
    # the store doesn't exist, so right settings end with `femem: store device`
    for line in ("connections = 1", "connections = 256", "format = false", "accepts = 0", "accepts = 65536", "turns = 1", "turns = 0x100_0000_0000", "accepts = 65_536", "# none"):
        refused(place, PATHS + line + "\n", "store device", 3)


def settings_values(place):
    """the server follows its settings, in each form of TOML; it serves 64 connections by default"""
    shown = b"waiting 0\n"
    report = lambda server: place.run("call", "--socket", server.socket, given=b"report\n")
    usual = Server(place, "usual").start()
    conns = [usual.connect() for _ in range(64)]
    same([conn.ask(wire.report())[0] for conn in conns], ["report"] * 64)
    with usual.connect() as late:
        holds(late.has_ended(), "the 65th connection was served")
    for conn in conns:
        conn.close()
    # (numbers in forms that no schedule has, and a literal string)
    few = Server(place, "few", connections="0x1", accepts="0b10", turns="0o2", store=place.path("a b")).start()
    with few.connect() as conn:
        same(conn.ask(wire.report())[0], "report")
        with few.connect() as late:
            holds(late.has_ended(), "a second connection was served")
        conn.send(wire.report())
        until(conn.has_ended, 20, "the second read was the last")
    until(lambda: report(few) == (0, shown, b""), 20, "the place is free")
    same(few.ended()[0], 0)
    same(few.looks(), "place 0\n")
    holds(usual.is_running(), "a server without `accepts` ended")


def store_refusals(place):
    """a store that is missing, of a wrong size, unformatted or not a file, with `serve` and `look`"""
    new = device_of(TWO)
    for name, content, line in (
        ("none", None, "store device"), ("ten", b"0123456789", "store size 10"), ("empty", b"", "store size 0"),
        ("short", bytes(SIZE - 1), f"store size {SIZE - 1}"), ("long", bytes(new) + b"\0", f"store size {SIZE + 1}"),
        ("zeros", bytes(SIZE), "store unformatted"),
    ):
        path = place.path(name) if content is None else place.write(name, content)
        wanted = (3, b"", f"femem: {line}\n".encode())
        same(place.run("look", "--store", path), wanted, f"look at {name}")
        refused(place, f'socket = "x.socket"\nstore = "{path}"\n', line, 3)
        if "size" in line:
            refused(place, f'socket = "x.socket"\nstore = "{path}"\nformat = true\n', line, 3)
            same(place.read(name), content, name)
    os.mkfifo(place.path("pipe"))
    for path in (place.path("pipe"), "/dev/null", "/dev/zero", place.folder):
        same(place.run("look", "--store", path), (3, b"", b"femem: store device\n"), f"look at {path}")
        for form in ("", "format = true\n"):
            refused(place, f'socket = "x.socket"\nstore = "{path}"\n{form}', "store device", 3)
    refused(place, f'socket = "x.socket"\nstore = "{place.path("no/folder")}"\nformat = true\n', "store device", 3)
    holds(not os.path.exists(place.path("x.socket")), "a refused server made its socket")


def sockets(place):
    """a socket path that is taken, too long or in a missing folder is `femem: socket`; a fault of the store comes first"""
    store = place.write("store", bytes(device_of(TWO)))
    with socket.socket(socket.AF_UNIX) as dead:
        dead.bind(place.path("dead"))
    place.write("file", b"mine")
    for path in (place.path("dead"), place.path("file"), place.folder, place.path("no/folder"), "/" + "x" * 200, ""):
        refused(place, f'socket = "{path}"\nstore = "{store}"\n', "socket", 4)
        for fault, content in (("store device", None), ("store size 10", b"0123456789"), ("store unformatted", bytes(SIZE))):
            other = place.path("none") if content is None else place.write("other", content)
            refused(place, f'socket = "{path}"\nstore = "{other}"\n', fault, 3)
    # the store is made, then the socket fails
    made = place.path("made")
    refused(place, f'socket = "{place.path("file")}"\nstore = "{made}"\nformat = true\n', "socket", 4)
    same(place.run("look", "--store", made), (0, b"place 0\n", b""))
    same(place.read("file"), b"mine")
    holds(os.path.exists(place.path("dead")), "the socket of another was removed")
