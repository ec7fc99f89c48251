"""The schedules of examples/ and of schedules/ against a real server: with `femem call` if one client can send them, and over sockets."""

import os
import re
import time
from pathlib import Path

from . import wire
from .harness import Server, holds, same
from .tables import number, rows
from .texts import NAME, TOP, text_of

# Where the schedules are that documents show, and those that are only tests.
FOLDERS = ("examples", "scripts/check/schedules")


def paths():
    """Each schedule's name, in order, and its path without `.txt`."""
    found = [os.path.join(TOP, folder, it[: -len(".txt")]) for folder in FOLDERS for it in os.listdir(os.path.join(TOP, folder)) if it.endswith(".txt")]
    names = {os.path.basename(it): it for it in found}
    same(len(names), len(found), "schedules, each with a name of its own")
    return dict(sorted(names.items()))


def content_of(name, kind):
    """A schedule, `txt`, what it prints, `out`, or its message, `err`, if it has one."""
    path = f"{paths()[name]}.{kind}"
    if kind == "err" and not os.path.exists(path):
        return b""
    return Path(path).read_bytes()


def schedules():
    """Each schedule without a fault: its name, lines and output."""
    for name in paths():
        if not content_of(name, "err"):
            yield name, content_of(name, "txt").splitlines(), content_of(name, "out").splitlines()


def one_client_can_send(lines, output):
    """Whether all lines are messages of c1, and each is answered before the next."""
    if any(line.split()[0] != b"c1" or line.endswith(b" gone") for line in lines):
        return False
    # (`call` would wait for ever after a line without a reply; a report has several lines)
    return len(lines) == len(output) and not any(line.endswith(b"report") for line in lines)


def by_call(place):
    """schedules that one client can send, through `femem call`, each on a new store"""
    count = 0
    for name, lines, output in schedules():
        if not one_client_can_send(lines, output):
            continue
        count += 1
        server = Server(place, f"{count}").start()
        strip = lambda lines: b"".join(line[3:] + b"\n" for line in lines)
        same(place.run("call", "--socket", server.socket, given=strip(lines)), (0, strip(output), b""), name)
        server.stop()
    holds(count >= 9, f"{count} schedules alone")
    return f"{count} schedules"


class Clients:
    """The connections of a schedule to a server, and the lines received but not compared yet."""

    def __init__(self, server):
        self.server = server
        self.conns = {}
        self.told = {}

    def do(self, words, wanted):
        """Carries out a line of a schedule, and compares its output."""
        if words == [b"stop"]:
            self.server.stop()
            self.conns, self.told = {}, {}
            self.server.start()
            return
        name = words[0]
        if words[1:] == [b"gone"]:
            self.conns.pop(name).close()
            return
        if name not in self.conns:
            self.conns[name], self.told[name] = self.server.connect(seconds=10), []
        self.conns[name].send(wire.message_of(words[1:]))
        if not wanted:
            # (a connection's messages are handled in order, and a report is answered at once)
            same(self.conns[name].ask(wire.report())[0], "report")
        # (a schedule sorts the replies to one line by number)
        told = [(line.split()[0], self.next_line(line.split()[0])) for line in wanted]
        same(sorted(b" ".join(it) for it in told), sorted(wanted))

    def next_line(self, name):
        if not self.told[name]:
            self.told[name] = wire.lines_of(self.conns[name].reply())
        return self.told[name].pop(0).encode()


def expected(place, lines):
    """The output of each line, from one run in which another connection's report follows each line."""
    marked = b"".join(line + b"\nc999 report\n" for line in lines)
    status, output, _ = place.run("run", given=marked)
    same(status, 0)
    told, found = [], []
    for line in output.splitlines():
        if line.startswith(b"c999 waiting "):
            told.append(found)
            found = []
        elif not line.startswith(b"c999 "):
            found.append(line)
    return told


def by_sockets(place):
    """schedules without `hold`, with a connection for each client and a kill for each `stop`: these replies come and no others"""
    count = 0
    for name, lines, output in schedules():
        if any(line in (b"hold", b"check") for line in lines):
            continue
        count += 1
        clients = Clients(Server(place, f"{count}", connections=100).start())
        told = expected(place, lines)
        same([line for it in told for line in it], output, name)
        for line, wanted in zip(lines, told):
            try:
                clients.do(line.split(), wanted)
            except (wire.Ended, wire.BadReply) as why:
                holds(False, f"{name}: {line.decode()}: {why}")
        time.sleep(0.05)
        for conn in clients.conns.values():
            holds(conn.is_quiet(0.01), f"{name}: more came than the schedule prints")
        clients.server.stop()
    return f"{count} schedules"


def in_patterns(place):
    """each table of docs/patterns.md shows the lines of its schedule in their order, and what each of them prints; it leaves out only attaches and finds"""
    name, left, at, count = "", [], 0, 0
    for line in text_of("docs/patterns.md").split("\n"):
        if links := re.findall(r"\]\(\.\./examples/(\w+)\.txt\)", line):
            name = links[-1]
        if line == "| line | printed | |":
            lines = content_of(name, "txt").splitlines()
            left, at = list(zip(lines, expected(place, lines))), 0
        elif left and line.startswith("| `c"):
            cells = [NAME.findall(cell) for cell in line.strip("|").split("|")]
            begin = at
            while at < len(left) and left[at][0].decode() != cells[0][0]:
                at += 1
            holds(at < len(left), f"docs/patterns.md: {name}.txt has no such line there: {line}")
            same([it.decode() for it in left[at][1]], cells[1], line)
            holds(all(b" attach " in it or b" find " in it for it, _ in left[begin:at]), f"docs/patterns.md: {name}.txt has more before: {line}")
            at, count = at + 1, count + 1
        elif left and not line.startswith("|"):
            same(left[at:], [], f"docs/patterns.md: what the table of {name}.txt leaves out")
            left = []
    holds(count >= 15, f"only {count} lines")
    return f"{count} lines"


# What stands for the capitals of docs/schedules.md.
VALUES = {"cN": "c1", "SESSION": "7", "NAME": "cells", "LENGTH": "2", "ARRAY": "1", "INDEX": "0", "OPERAND": "5", "FLOOR": "1", "NUMBER": "1"}


def in_the_syntax(place):
    """each line in the table of docs/schedules.md, with each operation that it names and no other, is one that `femem run` takes"""
    ops, lines = [], []
    for form, what in rows("docs/schedules.md", "| line | what |"):
        words = re.sub(r" \(.*", "", form)
        spelled = [words]
        if " OP " in words:
            spelled = [words.replace(" OP ", f" {it.decode()} ") for it in wire.OPS if re.search(rf"\b{it.decode()}\b", what)]
            ops += [it.split()[2] for it in spelled]
            same([it.endswith("OPERAND") for it in spelled], [wire.OPS[it.split()[2].encode()] in wire.WITH_OPERAND for it in spelled], form)
            same(len(spelled), len(re.findall(r"\w+_\w+|\w{5,}", what.replace(" of a word", ""))), f"operations of {form}")
        if words.startswith("the last two"):
            lines += [f"{it} nowait" for it in lines if it.split()[2].encode() in wire.OPS]
            continue
        lines += spelled
    same(sorted(ops), sorted(it.decode() for it in wire.OPS), "operations")
    for word, value in VALUES.items():
        lines = [re.sub(rf"\b{word}\b", value, it) for it in lines]
    same(place.run("run", given="".join(f"{line}\n" for line in lines).encode())[::2], (0, b""), "\n".join(lines))
    most = number(re.search(r"`cN` is one of `c1` to `c(\d+)`\.", text_of("docs/schedules.md"))[1])
    ends = [place.run("run", given=f"c{it} attach 7\n".encode())[0] for it in (most, most + 1)]
    same(ends, [0, 2], "the greatest connection")
    return f"{len(lines)} lines"


def in_the_replies(place):
    """each line that the schedules print has a form of the second table of docs/schedules.md, and each form is printed"""
    forms = {}
    for form, to in rows("docs/schedules.md", "| line | reply to |"):
        given = re.sub(r" before each line of a report", " .*", form)
        head, _, named = given.partition(" and one of ")
        for it in [f"{head} {name}" for name in named.split(", ")] if named else given.split(", "):
            pattern = re.sub(r"\b(SESSION|FLOOR|NUMBER|V|ID|LENGTH)\b", r"\\d+", it.replace("cN", r"c\d+"))
            forms[it] = re.compile(re.sub(r"\bNAME\b", "(?:" + "|".join(wire.REFUSALS.values()) + ")", pattern)), to
    met = set()
    for name, lines, output in schedules():
        is_told = any(line.endswith(b" report") for line in lines)
        for line in output:
            found = [it for it, (pattern, to) in forms.items() if pattern.fullmatch(line.decode()) and (is_told or to != "a report")]
            holds(found, f"docs/schedules.md has no such form: {name} prints {line.decode()}")
            met.update(found[:1])
    same(sorted(set(forms) - met), [], "forms that no schedule prints")
    none = re.search(r"a settle's floor, or (\d+) \|", text_of("docs/schedules.md"))[1]
    same(place.run("run", given=b"c1 bye\n")[1], f"c1 refused {none} not-attached\n".encode(), "the number in a refused bye")
    return f"{len(forms)} forms"


# What each row of the last table of docs/schedules.md is about, by its first words: lines that have it.
FAULTS = {
    "CR before": ["c1 attach 7\r"], "a tab, two": ["c1\tattach 7", "c1  attach 7", " c1 attach 7", "c1 attach 7 "], "07, +7, 1_000": None,
    "a number that": [f"c1 attach {2**64}", f"c1 1 create cells {2**32} full"], "a comment": ["# c1", "c1 attach 7 # c1"],
    "a missing word": ["c1 attach", "c1 attach 7 8", "c1 1 find cells nowait"], "capitals, or": ["C1 attach 7", "c1 Attach 7", "\ufeffc1 attach 7"],
}


def wrong_lines(place):
    """each row of docs/schedules.md on what is wrong with a line is of lines that end a run with status 2, and each of these is of a row"""
    table = rows("docs/schedules.md", "| the line has | what helps |")
    count = 0
    for (what, _), (begin, lines) in zip(table, FAULTS.items(), strict=True):
        holds(what.startswith(begin), f"docs/schedules.md: {what}, not {begin}")
        for line in lines or [f"c1 attach {it}" for it in what.split(", ")]:
            count += 1
            same(place.run("run", given=f"{line}\n".encode()), (2, b"", b"femem: line 1\n"), line)
    given = NAME.findall(text_of("docs/schedules.md").partition("after a name, as in ")[2])[0]
    same(place.run("run", given=f"c1 attach 7\n{given}\r\n".encode())[1].splitlines()[1:], [b"c1 1 bad-name"], given)
    return f"{count} lines"
