"""Facts of the documents that no other check rests on: the example frames and record, defaults, bounds, statuses, and the unit's limits.

The codes, frames, offsets, limits and the operation table are the ones by which all checks speak (tables.py)."""

import re

from . import calls, store, tables, wire
from .crowds import TALK
from .harness import holds, preload, same
from .model import LIMITS, TOP_FLOOR, TOP_PLACE
from .tables import number, rows, said, text


def exchange(_place):
    """the frames of the exchange in docs/formats.md are those of the first path, byte by byte"""
    frames = [[bytes.fromhex(cell.replace(" ", "")) for cell in row[1:]] for row in rows("docs/formats.md", "| | client | server |")]
    same(frames, [list(pair) for pair in zip(calls.MESSAGES, calls.REPLIES)])
    for what, asked, answered in rows("docs/formats.md", "| | client | server |"):
        named = set(re.findall(r"\w+", what)) - set("with floor words word of to that it length empty array".split())
        meant = wire.reply_of(bytes.fromhex(answered.replace(" ", ""))[4:])
        known = set(re.findall(r"\w+", f"{meant} {request_in(asked)}"))
        same(sorted(named - known), [], f"docs/formats.md: {what}: {known}")
    found = re.search(r"may ask not to wait: `([0-9a-f ]+)`, answered not-now, `([0-9a-f ]+)`", text("docs/formats.md"))
    asked, answered = (bytes.fromhex(it.replace(" ", "")) for it in found.groups())
    same(asked, wire.call(5, ("access", wire.OPS[b"readfe"], 1, 0, 0, True)))
    same(wire.reply_of(answered[4:]), ("answer", 5, ("not-now",)))


def request_in(frame):
    """A client's frame of the page in words: its kind, the values of its fields, and the operation."""
    content = bytes.fromhex(frame.replace(" ", ""))
    kind = wire.FROM_CLIENT[content[4]]
    fields_of = kind.unpacked(content[5:])
    name = fields_of.get("name", b"").rstrip(b"\0").decode()
    return [kind.name, wire.OP_NAMES.get(fields_of.get("operation code")), name, *fields_of.values()]


def kinds(_place):
    """each kind of frame that the tables spell has the bytes of the conversation that is written by hand (crowds.py)"""
    access = lambda number, op, operand=0, nowait=False: wire.call(number, ("access", wire.OPS[op], 1, 0, operand, nowait))
    long_name = b"seventeen_letters"
    spelled = [
        wire.attach(7), wire.call(1, ("create", b"cells", 2, 0)), access(2, b"writeef", 42), access(3, b"readfe"), access(4, b"readxx"),
        access(5, b"readfe", nowait=True), access(7, b"readfe"), wire.cancel(7), wire.cancel(5), wire.settle(5), wire.call(6, ("find", b"cells")),
        wire.call(8, ("remove", 1)), wire.call(9, ("create", long_name, 1, 1)), wire.call(10, ("find", long_name)), wire.report(), wire.bye(),
    ]
    same(spelled, [frame for frame, _ in TALK])
    meant = [
        ("welcome", 7, 1), ("answer", 1, ("array", 1, 2)), ("answer", 2, ("done",)), ("answer", 3, ("value", 42)), ("answer", 4, ("value", 42)),
        ("answer", 5, ("not-now",)), ("withdrawn", 7), ("refused", 5, "not-waiting"), ("settled", 5), ("answer", 6, ("array", 1, 2)),
        ("answer", 8, ("done",)), ("answer", 9, ("array", 2, 1)), ("answer", 10, ("array", 2, 1)), ("report", "waiting 0\n"), ("goodbye", 7),
    ]
    same([wire.reply_of(reply[4:]) for _, reply in TALK if reply], meant)
    return f"{len(spelled)} frames, {len(meant)} replies"


def examples(_place):
    """the record and the image that docs/formats.md shows are those of their entry and state"""
    shown = lambda first: bytes.fromhex("".join(re.findall(r"^    ((?:[0-9a-f]+ )*[0-9a-f]+)(?: \.\.)?(?:  |$)", part(first), re.M)).replace(" ", ""))
    entry = ("finished", 7, 2, ("access", wire.OPS[b"writeef"], 1, 0, 42, False), ("done",))
    record = store.record_of(entry, store.ONE)
    same(shown("    04 13 02 00"), record, "the record")
    state = store.State()
    state.place, state.next_id = 3, 2
    state.arrays[1] = store.Array(b"cells", [(42, 1), (7, 0)])
    state.sessions[7] = store.Session(1)
    state.sessions[7].kept[2] = (*entry[3:], 2)
    image = shown("    0000000000000003                place")
    same(image, store.image_of(state, store.ONE)[: len(image)], "the image")
    holds(len(image) > 100, "the image is shown")
    group = said("docs/formats.md", "at N and the record's 64 bytes; the gate at N is closed", 2)
    same(group, [store.JOURNAL, store.JOURNAL + 5 + store.ONE.record], "the first group")
    magics = re.search(r"the text `(\w+)` for format 1, `(\w+)` for format 2", text("docs/formats.md"))
    same([it.encode() for it in magics.groups()], [store.ONE.magic, store.TWO.magic])
    bounds = {form: said("docs/formats.md", f"N bytes each and at most N{ending}", 2) for form, ending in ((store.ONE, " of them in format 1"), (store.TWO, " in format 2."))}
    for form, found in bounds.items():
        same(found, [form.record, form.most_records], "the payload of a group")


def part(first):
    """The block of docs/formats.md that begins with these words."""
    page = text("docs/formats.md")
    begin = page.index(first)
    return page[begin : page.index("\n\n", begin)]


def never_wait(_place):
    """the operations that never wait are those of the table"""
    never = re.search(r"((?:`\w+`(?:, | and )?)+) never wait, nor do", text("docs/formats.md"))[1]
    wanted = [name for name, row in tables.operations().items() if row[0] == "any"]
    same(sorted(re.findall(r"`(\w+)`", never)), sorted(wanted))


def defined(crate, file):
    """The numbers that a file of definitions gives names to."""
    found = dict(re.findall(r"^(\w+) = (\d+)$", text(f"crates/{crate}/specs/{file}.antt"), re.M))
    holds(found, f"{crate}/{file} defines numbers")
    return {name: int(value) for name, value in found.items()}


def definitions(_place):
    """the definitions that the proofs rest on have the limits and the layout of the documents"""
    states = defined("fe_state", "Limits")
    wanted = {
        "most_sessions": LIMITS["sessions kept"][0], "window_length": LIMITS["request numbers of a session in use"][0],
        "greatest_floor": TOP_FLOOR, "most_arrays": LIMITS["arrays"][0], "most_words": LIMITS["words in all arrays"][0],
        "longest_name": LIMITS["name of an array"][1], "greatest_place": TOP_PLACE, "most_waiting": LIMITS["requests that wait"][0],
        "most_event_entries": said("docs/formats.md", "fewer than N places left"), "most_batch_entries": 2 * LIMITS["requests that wait"][0] + 1,
    }
    same(states, wanted, "fe_state/Limits")
    boxes = {"most_mails_in_box": LIMITS["replies queued for one connection"][0], "longest_report": wire.MOST_TEXT, "most_booked": 2**63 - 1}
    same(defined("fe_mail", "Limits"), boxes, "fe_mail/Limits")
    layout = defined("fe_journal", "Layout")
    areas = {
        "header_bytes": store.AREAS["header"][1], "area_begin": store.JOURNAL, "area_bytes": store.AREA, "slot_bytes": store.SLOT,
        "device_bytes": store.SIZE, "empty_area_room": store.AREA - 6, "slice_bytes": said("docs/store.md", "slices of at most N bytes"),
    }
    same(layout, areas, "fe_journal/Layout")
    same(layout["header_bytes"], store.GATE + 1, "the header's last byte is its gate")
    same(defined("fe_text", "Line"), {"longest_line": said("docs/schedules.md", "The longest line of the syntax has N bytes")}, "fe_text/Line")
    return f"{len(states) + len(boxes) + len(areas)} numbers"


def settings(place):
    """the defaults and bounds of docs/settings.md are those of `serve`: just inside they are taken, just outside refused; the package has those that it names"""
    table = tables.settings()
    source = text("crates/fe_options/src/reading.rt")
    usual = re.search(r"^const USUAL_TURNS: u64 = ([\d_]+);", source, re.M)[1]
    same(number(table["turns"][1]), int(usual.replace("_", "")), "the default of turns")
    same([number(table["connections"][1])], LIMITS["connections"][1:], "the default of connections")
    same((table["accepts"][1], table["format"][1]), ("0", "false"))
    shipped = {key: int(value) for key, value in re.findall(r"^(\w+) = ([\d_]+)$", text("packaging/femem.toml"), re.M)}
    turns = said("docs/settings.md", "and N, as in `/etc/femem.toml`")
    same(shipped, {"connections": number(table["connections"][1]), "turns": turns}, "packaging/femem.toml")
    for key in ("connections", "accepts", "turns"):
        least, most = (number(it) for it in re.match(r"([\d,^]+) to ([\d,^]+):", table[key][0]).groups())
        for value, line in ((least, "store device"), (most, "store device"), (least - 1, f"settings: {key}"), (most + 1, f"settings: {key}")):
            place.write("s.toml", f'socket = "{place.path("x")}"\nstore = "{place.path("none")}"\n{key} = {value}\n'.encode())
            ended = place.run("serve", "--settings", place.path("s.toml"))
            same(ended[2], f"femem: {line}\n".encode(), f"{key} = {value}")
    rate, hours, power = said("docs/settings.md", "At N reads a second the default lasts N hours, and N,", 3)
    same((round(number(table["turns"][1]) / rate / 3600), power), (hours, turns), "how long reads last")
    holds(3 <= turns / rate / 3600 / 24 / 365 < 4 and "`/etc/femem.toml`, three years" in text("docs/settings.md"), "three years")
    for key in ("socket", "store"):
        same(table[key][1], "refused", key)
    _, shown, _ = place.run("serve", "--help")
    lines = [line.split() for line in shown.decode().splitlines() if line.startswith("  ")]
    same([line[0] for line in lines if line[0] in table], list(table), "the keys in the help of serve")
    for key, (_, default) in table.items():
        line = next(line for line in lines if line[0] == key)
        same(line[-2:] == ["[default:", default.replace(",", "") + "]"], default != "refused", f"{key} in the help of serve")


def statuses(place):
    """each status of docs/commands.md is the one with which a fault of its kind ends the program"""
    meant = tables.statuses()
    said_of = lambda word: [status for status, meaning in meant.items() if word in meaning]
    with open("/dev/full", "wb") as full:
        ends = {
            "no fault": place.run("run"), "the command line": place.run("jump"),
            "the settings": place.run("serve", "--settings", place.path("none")),
            "a line of the input": place.run("run", given=b"c1 jump\n"),
            "standard input or output": place.run("run", given=b"c1 attach 7\n", stdout=full),
            "the store": place.run("look", "--store", place.path("none")),
            "the socket": place.run("call", "--socket", place.path("none")),
        }
    env = {"LD_PRELOAD": preload(place, "../refuse.c"), "REFUSE": "1", "REFUSED": place.path("refused")}
    ends["memory"] = place.run("run", given=b"c1 attach 7\n", env=env)
    for word, (status, _, errors) in ends.items():
        same(said_of(word), [status], f"{word}: {errors.decode()}")
    _, shown, _ = place.run("serve", "--help")
    listed = [int(it) for it in re.findall(r"^  (\d)  ", shown.decode(), re.M)]
    same(listed, list(meant), "the statuses in the help of serve")
    same(sorted(meant), sorted({status for status, _, _ in ends.values()}), "statuses of docs/commands.md")
    return f"{len(ends)} ends"


def unit(_place):
    """the unit's limits are those of docs/operating.md, and enough for as many connections as a server may have"""
    lines = dict(re.findall(r"^([A-Za-z]+)=(.*)$", text("examples/femem.service"), re.M))
    megabytes = lambda it: int(it.removesuffix("M"))
    page = text("docs/operating.md")
    most = LIMITS["connections"][0]
    same(said("docs/operating.md", "The unit's `MemoryMax` is N MB"), megabytes(lines["MemoryMax"]))
    worst = said("docs/operating.md", f"So {most} connections at their worst take some N MB")
    holds(megabytes(lines["MemoryMax"]) >= 1.5 * worst, "MemoryMax is more than the worst")
    # (two threads and one file a connection, and a few of the server's own)
    holds(2 * most + 50 <= int(lines["TasksMax"]) and most + 50 <= int(lines["LimitNOFILE"]), "threads and files")
    holds(megabytes(lines["LimitFSIZE"]) * 2**20 > store.SIZE, "LimitFSIZE is above a store")
    same(lines["RequiresMountsFor"], "/var/lib/femem")
    holds("RequiresMountsFor=" in page and "`MALLOC_ARENA_MAX=1`" in page and lines["Environment"] == "MALLOC_ARENA_MAX=1", "the page names them")


ALSO = ("fields", "writes", "sessions")
