"""What `femem-store rescue` and `verify` say of rot in each region of a store, and of bytes that can't be read."""

import contextlib
import os
import re
import struct
from pathlib import Path

from . import store, wire
from .crowds import adding
from .harness import Server, holds, preload, same, within
from .storetool import ran, sum_of, words_of
from .texts import block

ROUNDS = 220


def changed(content, at, *values):
    return content[:at] + bytes(values) + content[at + len(values) :]


def filled(place, name="s", words=4096, rounds=60, adds=lambda _step: [adding(1, it, 1) for it in range(24)]):
    """A stopped server whose store has groups behind a checkpoint, of rounds of additions, with its store's bytes."""
    server = Server(place, name).start()
    with server.attached(7) as conn:
        conn.ask(wire.call(1, ("create", b"cells", words, 1)))
        conn.ask(wire.settle(2))
        number = 2
        for made in map(adds, range(rounds)):
            conn.send(b"".join(wire.call(number + it, request) for it, request in enumerate(made)))
            for _ in made:
                conn.reply()
            number += len(made)
            conn.ask(wire.settle(number))
    server.stop()
    return server, Path(server.store).read_bytes()


def busy(place):
    """The bytes of a store with a checkpoint behind it, of place 7,263, and of 6,569 in the older slot: a few hundred words were added to."""
    return filled(place, "busy", 3000, ROUNDS, lambda step: [adding(1, (step * 31 + it) % 3000, step) for it in range(32)])[1]


@contextlib.contextmanager
def bad_sector(place, path, begin, end):
    """The environment in which a read of these bytes of a file fails."""
    yield {"LD_PRELOAD": preload(place, "sector.c"), "BAD_FILE": os.path.realpath(path), "BAD_BEGIN": str(begin), "BAD_END": str(end)}


class Store:
    """A busy store's bytes: its slots, and the states that they lead to."""

    def __init__(self, content):
        self.content = content
        counts, older = store.slots_of(content)
        self.at, self.older = counts.at, older.at
        self.state = store.read_store(content)[2]
        self.old = store.read_store(content, older)[2]
        self.gates, at = [], self.at + store.JOURNAL
        while content[at] == 1:
            self.gates.append(at)
            at += 5 + int.from_bytes(content[at + 1 : at + 5], "big")
        self.image = store.read_store(changed(content, self.gates[0], 0))[2]

    def up_to(self, byte):
        """The state before the group that has this byte."""
        return store.read_store(changed(self.content, max(it for it in self.gates if it <= byte), 0))[2]


def table(it):
    """For each kind of rot: the changes, the places of the ways by their texts, and the place that is taken without a choice."""
    slot, other = it.at // store.SLOT, it.older // store.SLOT
    both = {f"slot {slot}": it.state.place, f"slot {other}": it.old.place}
    hidden = lambda what: ({f"slot {other}": it.old.place, f"slot {slot}, behind {what}": it.state.place}, None)
    all_hidden = lambda what: ({f"slot {slot}, behind {what}": it.state.place, f"slot {other}, behind {what}": it.old.place}, None)
    old = ({f"slot {other}": it.old.place}, it.old)
    cut = lambda byte, said: ({f"slot {slot}, up to the damage at byte {said}": it.up_to(byte).place, f"slot {other}": it.old.place}, it.up_to(byte))
    middle = next(gate for gate in it.gates if gate > it.at + store.JOURNAL + 20480)
    begin = max(gate for gate in it.gates if gate < middle)
    first, second = it.at + store.IMAGE + 16, it.older + store.IMAGE + 16
    return {
        "nothing": ((), both, None),
        "magic": (((it.at, b"\x47"),), *hidden("a wrong magic")),
        "generation: a high bit": (((it.at + 8, b"\x40"),), *hidden("a wrong generation")),
        "generation: 0": (((it.at + 8, bytes(8)),), *hidden("a wrong generation")),
        "gate": (((it.at + store.GATE, b"\x03"),), *hidden("a closed gate")),
        "both magics": (((0, b"\x47"), (store.SLOT, b"\x47")), *all_hidden("a wrong magic")),
        "both gates": (((store.GATE, b"\0"), (store.SLOT + store.GATE, b"\0")), *all_hidden("a closed gate")),
        "image length too big": (((it.at + 16, b"\xff"),), *hidden("a wrong image length")),
        "image length one less": (((it.at + 19, bytes([it.content[it.at + 19] - 1])),), *hidden("a wrong image length")),
        "image length one more": (((it.at + 19, bytes([it.content[it.at + 19] + 1])),), *hidden("a wrong image length")),
        "the whole header": (
            ((it.at, bytes(store.IMAGE)),), *hidden("a closed gate, behind a wrong magic, behind a wrong generation, behind a wrong image length"),
        ),
        "zeros in the image": (((it.at + store.IMAGE, bytes(4096)),), *old),
        "image, and journal of the other": (
            ((first, b"\xff"), (it.older + store.JOURNAL + 5, b"\x09")), {f"slot {other}, up to the damage at byte {it.older + store.JOURNAL + 5}": 0}, store.State(),
        ),
        "both images": (((first, b"\xff"), (second, b"\xff")), {}, None),
        "a record": (((begin + 5, b"\x09"),), *cut(begin, begin + 5)),
        "a group's length": (((begin + 4, b"\x01"),), *cut(begin, begin)),
        "the first gate": (
            ((it.gates[0], b"\0"),),
            {f"slot {other}": it.old.place, f"slot {slot}": it.image.place, f"slot {slot}, with the groups behind the closed gate at byte {it.gates[0]}": it.state.place}, None,
        ),
    }


WAY = re.compile(r"^way \d+: (.*?)(?: \(these may be [^)]*\))?: place (\d+)$", re.M)


@within(180)
def rot(place):
    """rot in each region: a rescue lists what each slot gives with its header put right, and up to the damage; takes what is surely right, and lets the operator choose else"""
    it = Store(busy(place))
    holds(it.old.place < it.image.place + 100 and it.old.place < it.state.place, f"{it.old.place} {it.image.place} {it.state.place}")
    for name, (changes, ways, taken) in table(it).items():
        content = it.content
        for at, value in changes:
            content = changed(content, at, *value)
        path, copy = place.write("rotten", content), place.path("copy")
        status, text, errors = ran(place, "rescue", path, copy)
        same({what: int(at) for what, at in WAY.findall(text)}, ways, f"{name}: {text}")
        same((status, os.path.exists(copy)), (0, True) if taken else (1, False), f"{name}: {text}{errors}")
        if taken:
            same(Server(place, "r", store=copy).looks(), taken.looks(), name)
        elif ways and changes:
            chosen(place, path, copy, text, it)
        holds(Path(path).read_bytes() == content, f"{name}: it is only read")
        with contextlib.suppress(FileNotFoundError):
            os.unlink(copy)
        of_verify(place, path, name, it, max([*ways.values(), -1]))
    return f"{len(table(it))} kinds of rot, {len(it.gates)} groups"


def chosen(place, path, copy, text, it):
    """The way with the most is the whole store."""
    number = next(line.split(":")[0].split(" ")[1] for line in text.splitlines() if line.endswith(f": place {it.state.place}"))
    same(ran(place, "rescue", "--way", number, path, copy)[::2], (0, ""), text)
    same(ran(place, "verify", copy)[1].splitlines()[-1], f"state {sum_of(it.state)}", "the whole store is rescued")
    same(ran(place, "rescue", "--way", "9", path, copy)[0], 1, "a way that is not there")


def of_verify(place, path, name, it, most):
    """A verification shows the sum of what opens, and the most that a rescue finds beyond it."""
    status, text, _ = ran(place, "verify", path)
    found = [int(at) for at in re.findall(r"^a rescue finds .*: place (\d+)$", text, re.M)]
    opens = re.search(r"^place (\d+)$", text, re.M)
    at = int(opens[1]) if opens else -1
    same(max([*found, at]), most, f"{name}: {text}")
    same(status, 1 if at < 0 else 3 if found else 0, f"{name}: {text}")
    if at == it.state.place:
        same(words_of(text)["state"], sum_of(it.state), name)


@within(120)
def sectors(place):
    """bytes that can't be read: in no use, they hinder neither a backup nor a rescue; in use, each tool names them, and a rescue gives what comes before"""
    it = Store(busy(place))
    path, copy = place.write("hurt", it.content), place.path("copy")
    # (the first gate of the page is behind its first sector, so the tools meet the fault in the middle of the page)
    ends = zip(it.gates[len(it.gates) // 2 :], it.gates[len(it.gates) // 2 + 1 :])
    used = next(gate // 4096 * 4096 for before, gate in ends if gate % 4096 >= 512 and before // 4096 < gate // 4096)
    unused = it.at + store.JOURNAL + 900000 // 4096 * 4096
    older = it.older + store.IMAGE + 4096
    first = it.gates[0] // 4096 * 4096
    for name, begin in (("unused", unused), ("older", older), ("used", used), ("first", first)):
        with bad_sector(place, path, begin, begin + 4096) as env:
            said = f"bytes {begin} to {begin + 4095} can't be read"
            status, text, errors = ran(place, "backup", path, copy, env=env)
            if name in ("used", "first"):
                holds(status == 1 and said in errors and "rescue" in errors, f"{name}: {errors}")
            else:
                same((status, text), (0, f"place {it.state.place}\nstate {sum_of(it.state)}\n"), f"{name}: {errors}")
                os.unlink(copy)
            status, text, errors = ran(place, "rescue", path, copy, env=env)
            wanted = {"used": it.up_to(used), "first": max(it.old, it.image, key=lambda it: it.place)}.get(name, it.state)
            holds(status == 0 and text.startswith(f"{said}\n"), f"{name}: {text}{errors}")
            same(Server(place, "r", store=copy).looks(), wanted.looks(), name)
            os.unlink(copy)
            status, text, errors = ran(place, "verify", path, env=env)
            in_use = name in ("used", "first")
            holds(said in text and (status, "bytes in use" in errors) == ((1, True) if in_use else (3, False)), f"{name}: {status} {text}{errors}")
            # (a start is refused where the server would refuse it, and else goes on)
            refused = int(place.run("look", "--store", path, env=env)[0] != 0)
            for command in ("why", "check"):
                status, text, errors = ran(place, command, path, env=env)
                holds(status == refused and said in text + errors, f"{name}, {command}: {status} {text}{errors}")
            same(refused, 0 if name == "older" else 1, name)
            if not refused:
                os.unlink(f"{path}.place")
    for kept in (struct.pack(">I", 5), b""):
        place.write("short", it.content[:4096] + kept)
        for words in (("verify", place.path("short")), ("rescue", place.path("short"), copy), ("backup", place.path("short"), copy)):
            status, _, errors = ran(place, *words)
            holds(status == 1 and "is no file of 4202496 bytes" in errors and errors.count("\n") == 1, f"{words}: {errors}")


def shown(place):
    """the listing of docs/femem-store.md is what a rescue prints of such a store, but for the places"""
    it = Store(busy(place))
    path = place.write("hurt", changed(it.content, it.at, 0x47))
    place.write("hurt.place", b"place %d\n" % it.state.place)
    places = dict(zip(("6569", "7263"), (str(it.old.place), str(it.state.place))))
    wanted = re.sub(r"\b(6569|7263)\b", lambda found: places[found[0]], block("docs/femem-store.md", "place 6569"))
    same(ran(place, "rescue", path), (0, re.sub(r"slot (\d)", lambda found: f"slot {int(found[1]) ^ (it.at == 0)}", wanted), ""))
