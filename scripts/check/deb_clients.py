"""The packages of the clients in a clean Debian, the upgrade from the one package that there was before, and a store elsewhere."""

import os
import re
import shutil
import subprocess
from pathlib import Path

from . import store
from .clean import DPKG, NAMES, SOCKET, STORE, Clean, Unit, installed
from .harness import compiler, holds, same, until, within
from .packages import built
from .texts import TOP, block

CLIENTS = "/var/lib/femem-clients"


def as_user(clean, name, words, umask="022"):
    """A shell's commands there, run by a user who has just logged in."""
    return clean.ask("runuser", "-u", name, "--", "sh", "-euc", f"umask {umask}; {words}")


def did(ran, output):
    same(ran, (0, output, ""))


def compiled(place, clean):
    """Builds the C client's example in the clean Debian, or else here against the packages' files. Its path there."""
    source = os.path.join(TOP, "clients", "c", "counter.c")
    shutil.copy(source, clean.path("/srv/counter.c"))
    flags = "-std=c11 -D_POSIX_C_SOURCE=200809L"
    if clean.ask("sh", "-c", "command -v cc pkg-config")[0] == 0:
        clean.shell(f"cc {flags} -o /srv/counter /srv/counter.c $(pkg-config --cflags --libs femem)")
        return "/srv/counter"
    root = place.path("tree")
    for name in ("libfemem1", "libfemem-dev"):
        file = next(it for it in os.listdir(built(place)) if it.startswith(f"{name}_"))
        subprocess.run(["dpkg-deb", "--extract", os.path.join(built(place), file), root], check=True)
    words = [compiler(), *flags.split(), f"-I{root}/usr/include", "-o", clean.path("/srv/counter"), source]
    subprocess.run([*words, f"-L{root}/usr/lib/x86_64-linux-gnu", "-lfemem"], check=True)
    return "/srv/counter"


def killed(clean, user, command, umask="022"):
    """Kills a user's client while it waits: its session's file is there."""
    waits = f'for it in $(seq 600); do test -z "$(ls {CLIENTS})" || break; sleep 0.1; done; sleep 2'
    as_user(clean, user, f"{command} & client=$!; {waits}; kill -s KILL $client; wait $client || true", umask)


def killed_leaves_nothing(clean):
    """A killed client of one user, whatever its umask, is ended by the next client, of another user."""
    script = f"from femem import Client\nwith Client('{SOCKET}') as it: it.readfe(it.find('box'), 0)"
    for user, command in (("alice", "femem-cli readfe box 0"), ("bob", f'python3 -c "{script}"')):
        killed(clean, user, command, "077")
        left = clean.shell(f"ls {CLIENTS}").split()
        same(len(left), 1, f"files of sessions after the kill of {command}")
        same(clean.shell(f"stat -c '%U %G %a' {CLIENTS}/*"), f"{user} femem 660\n", "the file")
        holds(f"session {left[0]} " in clean.do("femem-cli", "sessions"), "its session is not kept")
        did(as_user(clean, {"alice": "bob", "bob": "alice"}[user], "femem-cli counter hits"), "1\n")
        same((clean.shell(f"ls {CLIENTS}"), clean.do("femem-cli", "sessions")), ("", ""), f"what the kill of {command} leaves")


@within(240)
def clients(place):
    """all packages installed: femem-cli, a C program, Python and the pages work for the group and for nobody else; a kill leaves nothing"""
    with Clean(place, built(place)) as clean:
        unit = installed(clean, *NAMES[1:])
        for name in ("alice", "bob", "carol"):
            clean.do("useradd", "--no-create-home", name)
        clean.shell("for it in alice bob; do adduser --quiet $it femem; done")
        did(as_user(clean, "alice", "femem-cli counter hits +1"), "1\n")
        status, _, said = as_user(clean, "carol", "femem-cli counter hits +1")
        may = f"may not use {SOCKET}: members of its group femem may ('adduser carol femem', and a new login)"
        holds(status == 6 and may in said, f"a user outside the group: {status} {said}")
        did(as_user(clean, "alice", "femem-cli create box 1; femem-cli owner none || test $? = 3; ls /run/femem/femem.socket.clients/")[:2] + ("",), "")
        did(as_user(clean, "bob", "femem-cli lock nightly -- sh -c 'test $FEMEM_GENERATION -gt 0 && echo inside'"), "inside\n")
        did(as_user(clean, "bob", f"{compiled(place, clean)} {SOCKET} 7 3"), "0\n1\n2\n")
        clean.do(*DPKG[:1], "--triggers-only", "libc-bin")
        holds("libfemem.so.1 " in clean.do("ldconfig", "-p"), "ldconfig does not know the library")
        script = f"from femem import Client\nwith Client('{SOCKET}') as it: print(it.readff(it.find('hits'), 0))"
        did(as_user(clean, "alice", f'python3 -c "{script}"'), "1\n")
        did(as_user(clean, "bob", f"femem-shell {SOCKET} report"), "waiting 0\n")
        holds(clean.shell("ls /usr/lib/python3/dist-packages/femem/__pycache__ | wc -l").strip() > "3", "nothing is compiled")
        killed_leaves_nothing(clean)
        # (what a stop of the unit leaves is ended as well)
        killed(clean, "alice", "femem-cli readfe box 0")
        clean.do("systemctl", "stop", "femem")
        clean.do("systemctl", "start", "femem")
        unit.waits()
        did(as_user(clean, "bob", "femem-cli counter hits"), "1\n")
        same((clean.shell(f"ls {CLIENTS}"), clean.do("femem-cli", "sessions")), ("", ""), "sessions after a stop")
        clean.do(*DPKG, "--remove", *NAMES[1:])
        holds(not os.path.exists(clean.path("/usr/lib/python3/dist-packages/femem")), "Python's modules are left")


def old_package(place):
    """The one package that there was: an older version, with documents that femem-doc has now, and nothing for other clients."""
    tree, folder = place.path("old"), built(place)
    new = next(it for it in os.listdir(folder) if it.startswith("femem_"))
    subprocess.run(["dpkg-deb", "--raw-extract", os.path.join(folder, new), tree], check=True)
    control = os.path.join(tree, "DEBIAN", "control")
    text = re.sub(r"^(Version: ).*$", r"\g<1>0.9.0", Path(control).read_text("utf-8"), flags=re.M)
    Path(control).write_text(text, "utf-8")
    for name in ("operating.md.gz", "proved.md.gz"):
        Path(os.path.join(tree, "usr/share/doc/femem", name)).write_bytes(b"old")
    os.unlink(os.path.join(tree, "usr/lib/tmpfiles.d/femem.conf"))
    made = place.path("femem_0.9.0_amd64.deb")
    words = ["dpkg-deb", "--root-owner-group", "-Znone", "--build", tree, made]
    subprocess.run(words, check=True, stdout=subprocess.DEVNULL)
    return made


def named(clean):
    """The paths there that name the project, in the folders where the packages put something."""
    return clean.shell("find /etc /usr /var/lib /run -xdev -maxdepth 5 -name '*femem*' 2> /dev/null || true").split()


def keeps_choices(clean, unit):
    """A server that was stopped stays so over an upgrade, which makes no store in place of one that is not there; and one that was
    disabled stays so."""
    clean.do("systemctl", "stop", "femem")
    os.rename(unit.store, unit.store + ".aside")
    clean.install("femem")
    same(unit.shows("ActiveState"), ("inactive",), "a stopped server after an upgrade")
    holds(not os.path.exists(unit.store), "an upgrade made a store")
    os.rename(unit.store + ".aside", unit.store)
    # (what is disabled would not be started, so this comes after the other)
    clean.do("systemctl", "disable", "femem")
    clean.install("femem")
    same(unit.shows("ActiveState", "UnitFileState"), ("inactive", "disabled"), "a stopped and disabled server after an upgrade")
    clean.do("systemctl", "enable", "--now", "femem")
    unit.waits()


def keeps_waiting(clean, unit):
    """A client that waits, with a temporary session, is answered after an upgrade, which it does not notice."""
    clean.shell("femem-cli create box 1; femem-cli readfe box 0 > /srv/read 2>&1 &")
    waits = lambda: "readfe" in clean.ask("femem-cli", "report")[1]
    until(waits, 30, "a client waits")
    before = unit.pid()
    clean.install(*NAMES)
    until(lambda: unit.pid() not in (0, before) and unit.is_up(), 60, "the upgrade starts the server again")
    until(waits, 30, "the client waits after the upgrade")
    clean.do("femem-cli", "writeef", "box", "0", "42")
    until(lambda: clean.shell("cat /srv/read") == "42\n", 30, "the client that waited over an upgrade is answered")
    until(lambda: clean.do("femem-cli", "sessions") == "session 7 kept 0 waiting 0\n", 30, "only session 7 is kept")


@within(240)
def upgrades(place):
    """the one package that there was is upgraded to all six and keeps its store and who waits; a stopped server stays so; a purge leaves nothing"""
    with Clean(place, built(place)) as clean:
        same(named(clean), [], "what is there before")
        shutil.copy(old_package(place), clean.path("/srv/old.deb"))
        clean.do(*DPKG, "--install", "/srv/old.deb")
        unit = Unit(clean)
        unit.waits()
        unit.attached(7).close()
        first = unit.pid()
        clean.install(*NAMES)
        until(lambda: unit.pid() not in (0, first) and unit.is_up(), 60, "the upgrade starts the new program")
        holds(not os.path.exists(clean.path("/usr/share/doc/femem/operating.md.gz")), "an old document is left")
        holds(os.path.exists(clean.path("/usr/share/doc/femem/docs/operating.md")), "there is no new document")
        same(clean.do("femem-cli", "sessions"), "session 7 kept 0 waiting 0\n")
        same(clean.shell("dpkg --verify femem femem-cli libfemem1 libfemem-dev python3-femem femem-doc"), "", "dpkg --verify")
        keeps_choices(clean, unit)
        same(store.read_store(Path(unit.store).read_bytes())[2].looks(), "place 1\nsession 7 floor 1 kept 0\n")
        keeps_waiting(clean, unit)
        holds(len(named(clean)) > 20, "the packages left no trace")
        clean.do(*DPKG, "--purge", *NAMES, env={"FEMEM_PURGE_STORE": "yes"})
        same(named(clean), [], "what a purge leaves")


def sessions(clean, path):
    return [int(it) for it in re.findall(r"^session (\d+)", clean.do("femem", "look", "--store", path), re.M)]


@within(240)
def elsewhere(place):
    """the operating page's lines move the store to /srv, and below /home; /var/lib/femem may be a link; the unit then waits for its mount"""
    with Clean(place, built(place)) as clean:
        unit = installed(clean, "femem-cli", "libfemem1")
        lines = block("docs/operating.md", "folder=/srv/femem")
        last = STORE
        unit.attached(1).close()
        for session, folder in enumerate(("/srv/femem", "/home/femem/store"), 2):
            clean.shell("mkdir -p /home/femem")
            clean.shell(lines.replace("/srv/femem", folder).replace(STORE, last))
            unit.waits()
            last = f"{folder}/femem.store"
            holds(folder in unit.shows("RequiresMountsFor")[0], "the unit does not wait for the folder's mount")
            unit.attached(session).close()
            same(sessions(clean, last), list(range(1, session + 1)), f"the store in {folder}")
        clean.shell("rm -r /etc/systemd/system/femem.service.d; systemctl daemon-reload")
        # /var/lib/femem as a link to the folder
        clean.do("systemctl", "stop", "femem")
        clean.shell("rm -r /var/lib/femem /srv/femem; install -d -o femem -g femem -m 750 /srv/femem; ln -s /srv/femem /var/lib/femem")
        clean.shell(f"cp -p {last} {STORE}; sed -i 's|^store = .*|store = \"{STORE}\"|' /etc/femem.toml")
        kept = [it for it in lines.splitlines() if not it.startswith(("install ", "cp ", "sed "))]
        clean.shell("\n".join(kept))
        unit.waits()
        unit.attached(4).close()
        same(sessions(clean, "/srv/femem" + "/femem.store"), [1, 2, 3, 4], "the store where the link leads")
