"""The Debian packages: built, installed in a clean Debian, run by the unit, upgraded, removed and purged."""

import os
import random
import re
import time
from pathlib import Path

from . import store, wire
from .clean import DPKG, NAMES, SOCKET, STORE, Clean, Unit, installed
from .harness import Skipped, done, holds, same, until, within
from .manuals import versions
from .kills import Crew, Storm
from .model import LIMITS
from .packages import built
from .texts import TOP, block

KILLS = 6
MOST_EXPOSED = 2.5


def is_whole(unit):
    """The store that the installation made is empty, has the right size, belongs to femem, and is alone in its folder."""
    clean = unit.clean
    same(clean.do("stat", "--format=%s %U %G %h", STORE), f"{store.SIZE} femem femem 1\n")
    same(clean.do("stat", "--format=%a %U %G", "/var/lib/femem"), "750 femem femem\n")
    same(clean.shell("find /var/lib/femem -mindepth 1 | sort"), f"{STORE}\n{STORE}.place\n", "what the installation left")
    same(clean.do("stat", "--format=%a %U %G", "/var/lib/femem-places", "/var/backups/femem"), "755 femem femem\n700 femem femem\n")
    same(store.read_store(Path(unit.store).read_bytes())[2].looks(), "place 0\n")


def confined(unit):
    """The process has no privilege and no network, and its system calls are filtered. Returns systemd's exposure level for the unit."""
    status = unit.status()
    same([status[it] for it in ("CapPrm", "CapEff", "CapBnd", "CapAmb")], ["0" * 16] * 4, "capabilities")
    same((status["NoNewPrivs"], status["Seccomp"]), ("1", "2"), "no new privileges, and a filter of system calls")
    user = unit.clean.do("id", "-u", "femem").strip()
    same(set(status["Uid"].split()), {user}, "the user")
    same(unit.clean.do("stat", "--format=%a %U %G", "/run/femem", SOCKET), "750 femem femem\n770 femem femem\n")
    network = [os.readlink(unit.clean.path(f"/proc/{it}/ns/net")) for it in (1, unit.pid())]
    holds(network[0] != network[1], "the server has the machine's network")
    said = unit.clean.do("systemd-analyze", "security", "--no-pager", "femem")
    level = float(re.search(r"Overall exposure level for femem.service: ([0-9.]+)", said)[1])
    holds(level < MOST_EXPOSED, f"the unit is exposed {level}")
    return level


@within(120)
def serves(place):
    """installed in a clean Debian, it serves under its unit's filter, and loses nothing over kills; systemd restarts it after each"""
    with Clean(place, built(place)) as clean:
        unit = Unit(clean)
        same(clean.ask("id", "-u", "femem")[0], 1, "the user is there before")
        installed(clean)
        is_whole(unit)
        level = confined(unit)
        same(clean.do("systemctl", "is-enabled", "femem"), "enabled\n")
        clean.do("sh", "-c", f"femem call --socket {SOCKET} < /dev/null")
        crew = Crew(unit, (), [Storm(40)])
        load = crew.load
        for _ in range(KILLS):
            load.begin()
            random.choice((load.wait_for_some, load.wait_for_checkpoint))(1)
            unit.kill()
            load.join()
            crew.compare(unit)
        clean.do("systemctl", "restart", "femem")
        crew.finish()
        clean.do("systemctl", "stop", "femem")
        holds(not os.path.exists(clean.path("/run/femem")), "the socket's folder is left")
        crew.judge(unit)
        state = crew.history.state
        same(clean.do("femem", "look", "--store", STORE), state.looks())
        most = all_at_once(unit)
    return f"{KILLS} kills, {state.place} entries, {most} connections at once, exposed {level}"


def all_at_once(unit):
    """As many connections as a server may have are served through the unit, with its limits. Returns how many."""
    most = LIMITS["connections"][0]
    settings = Path(unit.clean.path("/etc/femem.toml")).read_text("ascii")
    unit.settings(re.sub(r"^connections = .*$", "", settings, flags=re.M) + f"connections = {most}\n")
    unit.clean.do("systemctl", "restart", "femem")
    unit.waits()
    conns = [unit.connect() for _ in range(most)]
    for conn in conns:
        same(conn.ask(wire.report())[0], "report")
    with unit.connect() as late:
        holds(late.has_ended(), "one connection too many was served")
    for conn in conns:
        conn.close()
    return most


@within(120)
def statuses(place):
    """after status 2 or 0 the server stays down; after status 3 it is started again until the store is back, and needs nobody"""
    with Clean(place, built(place)) as clean:
        unit = installed(clean)
        settings = Path(clean.path("/etc/femem.toml")).read_text("ascii")
        unit.settings(settings + "connection = 1\n")
        holds(clean.ask("systemctl", "restart", "femem")[0] in (0, 1), "systemctl")
        until(lambda: unit.shows("ActiveState") == ("failed",), 60, "the unit has failed")
        time.sleep(6)  # (a restart would come after five seconds)
        same(unit.shows("ActiveState", "ExecMainStatus", "NRestarts"), ("failed", "2", "0"))
        unit.settings(settings)
        os.rename(unit.store, unit.store + ".aside")
        clean.do("systemctl", "reset-failed", "femem")
        clean.ask("systemctl", "start", "femem")
        before = int(unit.shows("NRestarts")[0])
        until(lambda: int(unit.shows("NRestarts")[0]) >= before + 3, 60, "three tries")
        said = clean.do("journalctl", "-u", "femem", "-o", "cat", "--no-pager").splitlines()
        same(set(said[1:]), {f"femem-store: {STORE}: no file is there"}, "the log of a store that is away")
        tries = int(unit.shows("NRestarts")[0]) + 1
        holds(tries - 1 <= len(said[1:]) <= tries + 1, f"{len(said) - 1} lines for {tries} tries")
        holds(not os.path.exists(unit.store), "a unit whose store is missing made another")
        os.rename(unit.store + ".aside", unit.store)
        unit.waits()
        clean.do("systemctl", "stop", "femem")
        unit.settings(settings + "accepts = 1\n")
        clean.do("systemctl", "start", "femem")
        unit.waits()
        unit.attached(7).close()
        until(lambda: unit.shows("ActiveState") == ("inactive",), 60, "the server came to its end")
        same(clean.do("femem", "look", "--store", STORE), "place 1\nsession 7 floor 1 kept 0\n")


@within(120)
def removed(place):
    """removing keeps the store, installing again uses it, and purging removes it only after a yes"""
    with Clean(place, built(place)) as clean:
        unit = installed(clean)
        unit.attached(7).close()
        looks = "place 1\nsession 7 floor 1 kept 0\n"
        clean.do(*DPKG, "--remove", "femem")
        holds(not os.path.exists(unit.socket), "the server is still there")
        holds(not os.path.exists(clean.path("/usr/bin/femem")), "the program is still there")
        kept = Path(unit.store).read_bytes()
        same(store.read_store(kept)[2].looks(), looks)
        installed(clean)
        unit.attached(7).close()
        clean.do(*DPKG, "--purge", "femem")
        holds(not os.path.exists(clean.path("/etc/femem.toml")), "the settings are still there")
        same(store.read_store(Path(unit.store).read_bytes())[2].looks(), "place 2\nsession 7 floor 1 kept 0\n", "after a purge")
        installed(clean)
        clean.do(*DPKG, "--purge", "femem", env={"FEMEM_PURGE_STORE": "yes"})
        holds(not os.path.exists(clean.path("/var/lib/femem")), "the store is still there after a purge that was told to take it")
        installed(clean)
        is_whole(unit)
        clean.do("sh", "-c", "echo femem femem/purge_store boolean true | debconf-set-selections")
        clean.do(*DPKG, "--purge", "femem")
        holds(not os.path.exists(clean.path("/var/lib/femem")), "the store is still there after a purge whose answer was yes")


@within(240)
def first_screen(place):
    """`scripts/try_packages` runs the README's program with the packages alone, by an ordinary user, in a Debian that it does not change"""
    if os.geteuid() != 0:
        raise Skipped("its user is not root, who alone may mount a clean Debian")
    words = [os.path.join(TOP, "scripts", "try_packages"), "--root", os.environ.get("FEMEM_CLEAN_ROOT", "/"), built(place)]
    said = done(place, words)
    versions_of = f"femem {versions.version()}\npython3-femem {versions.version()}\n"
    same(said, versions_of + block("README.md", "before: "))
    holds(not os.path.exists("/srv/try"), "the machine was changed")
    # a folder without them
    os.mkdir(place.path("none"))
    holds("not one package femem" in done(place, [*words[:-1], place.path("none")], status=1), "a folder without packages")


# Another package of the same files: a release before this text, and a build of an earlier commit.
EARLIER = ("1.0.0", f"{versions.number()}~git20000101000000.00000000")
# A file that only the earlier package has, and one that only today's has.
ONLY_EARLIER, ONLY_NOW = "/usr/lib/femem/earlier", "/usr/share/man/man5/femem.toml.5.gz"


def repacked(clean, name, version):
    """A package of `/srv` with another version, in a folder there."""
    made = f"/srv/earlier/{name}_{version}.deb"
    clean.shell(
        f"mkdir -p /srv/earlier; rm -rf /srv/tree; dpkg-deb -R /srv/{name}_[0-9]*.deb /srv/tree; touch /srv/tree{ONLY_EARLIER}; rm /srv/tree{ONLY_NOW};"
        f"sed -i 's/^Version: .*/Version: {version}/; s/ (= [^)]*)/ (= {version})/' /srv/tree/DEBIAN/control; dpkg-deb -Znone -b /srv/tree {made}"
    )
    return made


@within(240)
def upgraded(place):
    """apt installs today's package over the last release and over an earlier build: with its words, its server restarted, and every file"""
    with Clean(place, built(place)) as clean:
        same(clean.ask("dpkg", "--compare-versions", EARLIER[0], "lt", EARLIER[1])[0], 0)
        for version in EARLIER:
            clean.do(*DPKG, "--install", repacked(clean, "femem", version))
            unit = Unit(clean)
            unit.waits()
            unit.attached(7).close()
            before = unit.pid()
            clean.shell("apt-get -q -y -o Dpkg::Options::=--force-unsafe-io install /srv/femem_[0-9]*.deb")
            unit.waits()
            holds(unit.pid() != before, "the old server goes on")
            same(clean.do("dpkg-query", "-W", "-f", "${Version}", "femem"), versions.version())
            same([os.path.exists(clean.path(it)) for it in (ONLY_EARLIER, ONLY_NOW)], [False, True], "files")
            clean.do("systemctl", "stop", "femem")
            same(clean.do("femem", "look", "--store", STORE), "place 1\nsession 7 floor 1 kept 0\n", version)
            clean.do(*DPKG, "--purge", "femem", env={"FEMEM_PURGE_STORE": "yes"})
    return f"{len(EARLIER)} versions"


# What other packages, and the system's own life, change meanwhile; the user femem stays, since a kept store would belong to it.
OTHERS = r"/(?:proc|sys|dev|run|tmp|srv|root|opt)/|/var/(?:cache|log|tmp|lib/(?:dpkg|apt|systemd|ucf|man-db))/|/etc/(?:passwd|group|g?shadow|sub[ug]id)-?$|/etc/(?:machine-id|\.pwd\.lock|ld\.so\.cache)|/var/lib/(?:debconf|dbus)/"


def all_files(clean):
    return set(it for it in clean.shell("find / -xdev \\( -path /proc -o -path /sys -o -path /dev \\) -prune -o -print").splitlines() if not re.match(OTHERS, it) and not it.startswith(f"{TOP}/"))


@within(240)
def leaves_nothing(place):
    """all packages, a second server, timers, and root's use of every tool leave no file behind after a purge that may take the store"""
    with Clean(place, built(place)) as clean:
        before = all_files(clean)
        unit = installed(clean, *(it for it in NAMES if it != "femem"))
        clean.do("systemctl", "enable", "--now", "femem-watch.timer", "femem-backup.timer")
        second = block("docs/operating.md", "name=test")
        clean.shell(second)
        until(lambda: os.path.exists(clean.path("/run/femem-test/femem.socket")), 60, "the second server serves")
        with wire.Connection(clean.path("/run/femem-test/femem.socket")) as conn:
            same(conn.ask(wire.attach(9))[:2], ("welcome", 9))
        clean.shell(
            f"export FEMEM_SOCKET={SOCKET}; femem-cli create hits 1; femem-cli write -h > /dev/null 2>&1 || true; femem-shell {SOCKET} report;"
            f"femem-store probe {SOCKET}; femem-store backup {STORE} /root/copy; femem-store verify /root/copy; femem-store why {STORE} || true;"
            "/usr/lib/femem/femem-backup /etc/femem.toml /root/again; python3 -c 'import femem.patterns, femem.aio'; rm /root/copy* /root/again*"
        )
        clean.do("systemctl", "start", "femem-backup.service", "femem-watch.service")
        clean.do(*DPKG, "--purge", *NAMES, env={"FEMEM_PURGE_STORE": "yes"})
        holds(not os.path.exists(clean.path("/run/femem-test")), "the second server still runs")
        # (what an administrator made for the second server, and the backup's folder, are the administrator's)
        own = {"/etc/femem-test.toml", "/etc/tmpfiles.d/femem-test.conf"}
        left = {it for it in all_files(clean) - before if it not in own and not it.startswith(("/var/lib/femem-test", "/var/backups/femem"))}
        same(sorted(left), [], "what a purge left")
        # (systemd's helpers remove a folder of links once it is empty)
        took = {it for it in before - all_files(clean) if not re.fullmatch(r"/etc/systemd/system/[^/]*\.wants", it)}
        same(sorted(took), [], "what a purge took")
    return f"{len(before):,} files before and after"


ALSO = ("packages", "deb_source", "deb_clients", "deb_pages", "year")
