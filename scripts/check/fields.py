"""The tables of docs/formats.md that the checks' own reader and writer of frames and stores do not take: the fields of an image and of
frames, codes and bounds, and which message gets which reply and refusal. And the table of operations of docs/commands.md, by runs."""

import re

from . import store, wire
from .crowds import TALK
from .harness import Server, in_turn, holds, preload, same
from .model import LIMITS, TOP_FLOOR, TOP_PLACE, State
from .sources import source_of
from .tables import codes_in_record, operations, rows, said, text

PAGE = "docs/formats.md"
HEADS = ("| 8 | place, at", "| 8 | id, at", "| 8 | session, above", "| 8 | place of the entry")


def image_tables():
    """The sizes in the four tables of an image: a size of two numbers is that of format 1 and that of format 2."""
    found = [[int(it) for it in row[0].removesuffix(" each").split(" or ")] for row in rows(PAGE, "| bytes | field |")]
    begins = [at for at, row in enumerate(rows(PAGE, "| bytes | field |")) if any(f"| {row[0]} | {row[1]}".startswith(it) for it in HEADS)]
    same(len(begins), len(HEADS), "tables of an image")
    return [found[begin:end] for begin, end in zip(begins, [*begins[1:], len(found)])]


def images(_place):
    """the tables of docs/formats.md give each field of the image that it shows its size, and make the greatest image as long as it says"""
    head, array, session, kept = image_tables()
    for at, form in enumerate((store.ONE, store.TWO)):
        size = lambda table: sum(it[min(at, len(it) - 1)] for it in table)
        names = ("arrays", "words in all arrays", "sessions kept", "request numbers of a session in use")
        arrays, words, sessions, window = (LIMITS[it][0] for it in names)
        most = size(head) + arrays * size(array[:-1]) + words * size(array[-1:]) + sessions * (size(session) + window * size(kept))
        same(most, form.most_image, f"the greatest image of format {form.number}")
        same([it[min(at, len(it) - 1)] for it in (array[2], kept[1])], [form.name, form.record], f"format {form.number}")
    shown = re.findall(r"^    ((?:[0-9a-f]+ )*[0-9a-f]+(?: \.\.)?) {2,}", text(PAGE)[text(PAGE).index("    0000000000000003 "):], re.M)
    sizes = [len(it.replace(" ", "")) // 2 for it in shown[:-1]]
    one = lambda table: [it[0] for it in table]
    wanted = [*one(head[:2]), sum(one(head[2:])), *one(array[:-1]), *one(array[-1:]) * 2, *one(session), *one(kept[:1])]
    same(sizes, wanted, "the fields of the image that is shown")
    return f"{len(sizes)} fields"


# How fe_wire/Spelling writes a field of a frame, and its size. What it names otherwise than docs/formats.md has the page's name here.
SPELLED = re.compile(r"to_be_bytes w(32|64) (?:\((\w+) \w+\)|(\w+))|(name_field) name|(\w+)(?: \w+)? ∷")
PAGE_NAMES = {
    "answer_number": "value or id", "answer_length": "length", "operand_of": "operand", "op_code": "operation code", "tag_code": "tag",
    "code": "refusal number",
}


def fields_of(spelling):
    """The fields in the body of a frame's spelling, each with its size; none of a text, and a name's field has the size of its kind."""
    found = []
    for width, of, plain, name, byte in SPELLED.findall(spelling):
        word = of or plain or byte
        found += ["name length 1", "name"] if name else [f"{PAGE_NAMES.get(word, word.replace('_', ' '))} {int(width or 8) // 8}"]
    return found


def frames(_place):
    """the tables of frames in docs/formats.md have the kinds, fields and sizes of the spellings that the proofs rest on, in their order"""
    lines = re.sub(r"\n {4,}", " ", text("crates/fe_wire/specs/Spelling.antt"))
    kinds_of = {name: re.findall(r"\d+", both) for name, both in re.findall(r"^(\w+)_kind \w+ = if \w+ then (.*)$", lines, re.M)}
    wanted = {}
    for name, kind, body in re.findall(r"^(?:reply_)?spelling \(?(?:server\.|Call number \()?(\w+).*? = frame (\d+|\(.*?_kind .*?\)+|\w+_kind \w+) (.*)$", lines, re.M):
        for code in kinds_of[name.lower()] if "_kind" in kind else [kind]:
            wanted[code] = (name.lower(), fields_of(body))
    found = {}
    for head in ("| kind | from the client", "| kind | from the server"):
        for code, name, body, _ in rows(PAGE, head):
            body = found[body.split()[-1]][1] if body.startswith("as for kind") else body.split(", ") if re.match(r"[a-z ]+ \d", body) else []
            found[code] = (name.split(",")[0], [re.sub(r"^name \d+$", "name", re.sub(r" \(.*\)", "", it)) for it in body])
    same(found, wanted, "frames")
    return f"{len(found)} frames"


def codes(_place):
    """the codes of requests, answers and refusals in docs/formats.md are those of the definitions that the proofs rest on"""
    lines = text("crates/fe_codes/specs/Codes.antt") + text("crates/fe_mail/specs/Refusal.antt")
    plain = lambda name: re.sub("[_-]", "", name).lower()
    of = lambda function: {plain(name): int(code) for name, code in re.findall(rf"^{function} \(?(\w+).* = (\d+)$", lines, re.M)}
    same({plain(name.decode()): code for name, code in wire.OPS.items()}, of("op_code"), "requests")
    same({plain(name): code for name, code in wire.ANSWERS.items()}, of("answer_code"), "answers")
    same({plain(name): code for code, name in wire.REFUSALS.items()}, of("code_of"), "refusals")
    return f"{len(wire.OPS) + len(wire.ANSWERS) + len(wire.REFUSALS)} codes"


def areas(_place):
    """the areas of a slot follow one another in the table of docs/formats.md and fill the slot"""
    ends = [at + size for at, size in store.AREAS.values()]
    same([at for at, _ in store.AREAS.values()], [0, *ends[:-1]], "where areas begin")
    same(ends[-1], store.SLOT, "where the last area ends")


def bounds(_place):
    """each bound in the tables of docs/formats.md is the limit of the README, or of the checks' model"""
    words, window = LIMITS["words in all arrays"][0], LIMITS["request numbers of a session in use"][0]
    longest, sessions = LIMITS["name of an array"][1], LIMITS["sessions kept"][0]
    for form, wanted in (
        ("| 8 | place, at most N - 1 |", TOP_PLACE + 1), ("next array id, 1 to place + N |", 1),
        ("length of the name, 1 to N in format 1 and to N in format 2;", [store.ONE.name, store.TWO.name]),
        ("| 4 | length, 1 to N, with the arrays before at most N words |", [words, words]),
        ("| 9 each | the words: tag (1), N or N, and value (8) |", [0, 1]), ("how many answers are kept, 0 to N |", window),
        ("| 8 | floor, 1 to N - N |", [2**63, 2**63 - TOP_FLOOR]), ("number (finished) or floor (attached, settled), below N |", 2**63),
        ("flag: N for an access that must not wait, else 0", 1), ("| attach | N sessions are kept, and", sessions),
        ("the number is N or more above the floor; the floor asked for is more than N above it, or above N - N |",
         [window, window, 2**63, 2**63 - TOP_FLOOR]),
        ("operation code 1 (N to N)", [min(wire.OPS.values()), max(wire.OPS.values())]),
        ("refusal number 1 (N to N)", [min(wire.REFUSALS), max(wire.REFUSALS)]),
        ("its number one of the N from the floor on", window), ("(the N numbers from the floor on)", window),
        ("UTF-8 text, 1 to N bytes | 2 to N |", [wire.MOST_TEXT, wire.MOST_TEXT + 1]),
    ):
        count = 1 if isinstance(wanted, int) else len(wanted)
        same(said(PAGE, form, count), wanted, form)
    same(longest, store.TWO.name, "the longest name")
    plain = "crates/fe_state/specs/Name.antt"
    wanted = [chr(int(it)) for it in re.findall(r"\d+", re.search(r"^is_plain_byte b = (.*)$", text(plain), re.M)[1])]
    for page in (PAGE, "README.md", "docs/schedules.md"):
        shown = re.findall(r"`(.)` to `(.)`, `(.)` to `(.)`(?:,| and) `(.)`", text(page))
        same([list(it) for it in shown], [wanted] * len(shown), f"{page}: plain bytes")
        holds(shown, f"{page}: plain bytes")


def replies(place):
    """each message gets the reply that the table of docs/formats.md says, and those that it sends at once are sent while nothing is stored"""
    told = {it[0]: it[1:] for it in rows(PAGE, "| message | reply |")}
    names = {it: row for row in told for it in row.split(", ")}
    kinds, found = {code: kind.name for code, kind in wire.FROM_CLIENT.items()}, {}
    for frame, reply in TALK:
        name = kinds[frame[4]].removesuffix(", not to wait")
        if reply and (got := wire.reply_of(reply[4:])[0]) != "refused":
            found.setdefault(names[name], set()).add(got)
    same({row: {re.match(r"\w+", told[row][0])[0]} for row in found}, found, "replies")
    holds(len(found) >= 6, f"only {len(found)} rows")
    before = "c1 attach 7\nc1 1 create cells 2 empty\nc1 2 readfe 1 0\n"
    tries = {
        "attach": "c2 attach 8", "create, find, remove, access": "c1 3 readxx 1 0", "the same again, once its answer is stored": "c1 1 create cells 2 empty",
        "cancel": "c1 cancel 2", "settle": "c1 settle 1", "bye": "c1 bye", "report": "c1 report", "any message that is refused": "c1 settle 0",
    }
    for row, line in tries.items():
        plain = place.run("run", given=f"{before}{line}\n".encode())[1]
        held = place.run("run", given=f"{before}hold\n{line}\n".encode())[1]
        holds(plain.count(b"\n") > 2, f"{line}: no reply")
        same(told[row][1].startswith("at once"), plain == held, row)
    same(set(told) - set(tries), {"the same again, before that"}, "messages that were not tried")
    return f"{len(tries)} messages"


# A schedule before a message that is refused, for each refusal that a schedule can bring about, and the messages that are tried. A session
# that is being ended is ended within a hold.
SIXTY_FOUR = "".join(f"c{it} attach {it}\n" for it in range(1, 65))
BEGIN = "c1 attach 7\nc1 1 create cells 2 empty\nc1 settle 2\nc1 2 readfe 1 0\n"
TRIES = {
    "not-attached": ("", {"call": "5 find cells", "cancel": "cancel 5", "settle": "settle 1", "bye": "bye"}),
    "closing": (BEGIN + "hold\nc1 bye\n", {
        "attach": "attach 7", "call": "5 find cells", "cancel": "cancel 2", "settle": "settle 2", "bye": "bye"}),
    "session-limit": (SIXTY_FOUR, {"attach": "attach 65"}),
    "below-floor": (BEGIN, {"call": "1 find cells", "settle": "settle 1", "cancel": "cancel 1"}),
    "beyond-window": (BEGIN, {"call": "34 find cells", "settle": "settle 35", "cancel": "cancel 34"}),
    "number-used": (BEGIN, {"call": "2 find cells", "settle": "settle 2", "cancel": "cancel 3"}),
    "still-waiting": (BEGIN, {"settle": "settle 3", "call": "3 find cells"}),
    "not-waiting": (BEGIN, {"cancel": "cancel 3", "settle": "settle 2"}),
}


def refusals(place):
    """the messages that get each refusal are those that the table of docs/formats.md says"""
    table = {row[1]: row for row in rows(PAGE, "| refusal | name |")}
    for name, (before, messages) in TRIES.items():
        conn = "c99" if name == "session-limit" else "c1"
        refused = []
        for kind, line in messages.items():
            status, output, errors = place.run("run", given=f"{before}{conn} {line}\n".encode())
            same((status, errors), (0, b""), f"{name}: {line}")
            refused += [kind] if re.search(rf"^{conn} refused \d+ {name}$", output.decode(), re.M) else []
        same(sorted(refused), sorted(table[name][2].split(", ")), f"{name} is the refusal of")
    for name, kinds in (("spent", spent(place)), ("no-memory", short_of_memory(place))):
        same(sorted(kinds), sorted(table[name][2].split(", ")), f"{name} is the refusal of")
    same(set(table) - set(TRIES), {"spent", "no-memory"}, "refusals that were not tried")
    return f"{len(table)} refusals"


def spent(place):
    """The messages that are refused `spent` once fewer places are left than one message may need."""
    state = State()
    state.place = TOP_PLACE - said(PAGE, "fewer than N places left")
    server = Server(place, store=place.write("s.store", bytes(store.device_of(store.TWO, state))), format=False).start()
    lines = {"cancel": "cancel 5", "settle": "settle 1", "call": "5 find cells", "bye": "bye", "report": "report", "attach": "attach 7"}
    given = "".join(f"{it}\n" for it in ("attach 7", *lines.values()))
    output = place.run("call", "--socket", server.socket, given=given.encode())[1].decode()
    server.stop()
    replies = output.splitlines()
    same(replies[0], "welcome 7 1", "the last place but those that are kept")
    return [kind for kind, reply in zip(lines, replies[1:]) if reply.endswith(" spent")]


def short_of_memory(place):
    """The messages that are refused `no-memory` if one allocation of a run is refused, each in turn."""
    library = preload(place, "../refuse.c")
    lines = {
        "attach": "attach 7", "create": "1 create cells 2 empty", "find": "2 find cells", "access": "3 readxx 1 0", "cancel": "cancel 3",
        "settle": "settle 2", "report": "report", "remove": "4 remove 1", "bye": "bye",
    }
    given = "".join(f"c1 {it}\n" for it in lines.values()).encode()
    runs = in_turn(place, lambda more: place.run("run", given=given, env={"LD_PRELOAD": library, **more})[1].decode())
    return {kind for _, output in runs for kind, reply in zip(lines, output.splitlines()) if reply.endswith(" no-memory")}


OLD, OPERAND = 5, 2**64 - 2
VALUES = {"same": OLD, "operand": OPERAND, "0": 0, "(value + operand) mod 2^64": (OLD + OPERAND) % 2**64}


def operation_table(place):
    """each operation does to a full and to an empty word what its row in the table of docs/commands.md says"""
    for name, (needs, value, tag_after, answer) in operations().items():
        for tag in ("full", "empty"):
            operand = f" {OPERAND}" if wire.OPS[name.encode()] in wire.WITH_OPERAND else ""
            before = f"c1 attach 7\nc1 1 create cells 1 empty\nc1 2 writexf 1 0 {OLD}\n" + ("c1 3 readfe 1 0\n" if tag == "empty" else "")
            given = f"{before}c1 4 {name} 1 0{operand} nowait\nc1 5 readxx 1 0\nc1 6 readff 1 0 nowait\n"
            found = re.findall(r"^c1 [456] (.*)$", place.run("run", given=given.encode())[1].decode(), re.M)
            runs = needs in ("any", tag)
            after, left = (VALUES.get(value, value), tag if tag_after == "same" else tag_after) if runs else (OLD, tag)
            wanted = [("done" if answer == "done" else f"value {OLD}") if runs else "not-now", f"value {after}", f"value {after}" if left == "full" else "not-now"]
            same(found, wanted, f"docs/commands.md: {name} on a word that is {tag}")
    return f"{len(operations())} operations"


# Messages to which two refusals apply.
ENDING = BEGIN + "hold\nc1 bye\n"
BOTH = (
    (ENDING, "1 find cells", {"closing", "below-floor"}), (ENDING, "34 find cells", {"closing", "beyond-window"}),
    (ENDING, "2 find cells", {"closing", "number-used"}), (ENDING, "settle 3", {"closing", "still-waiting"}),
    (ENDING, "cancel 3", {"closing", "not-waiting"}), (BEGIN, "settle 40", {"beyond-window", "still-waiting"}),
)


def first_refusal(place):
    """of two refusals that apply to a message, the reply names the one that comes first in the table of docs/formats.md"""
    order = [row[1] for row in rows(PAGE, "| refusal | name |")]
    for before, line, names in BOTH:
        output = place.run("run", given=f"{before}c1 {line}\n".encode())[1].decode()
        found = re.findall(r"^c1 refused \d+ (.*)$", output, re.M)
        same(found, [it for it in order if it in names][:1], line)
    return f"{len(BOTH)} messages"


def told_again(_place):
    """the files beside a store, the kinds of entries and the number of operations are on other pages as docs/formats.md and the README have them"""
    beside = set(re.findall(r"`STORE(\.[\w-]+)`", text("docs/operating.md")))
    sources = source_of("fe_store", "src") + text("packaging/tools/femem_store/restore.py") + text("packaging/tools/femem_store/places.py")
    same(sorted(it for it in beside if not re.search(rf"\{it}(?![\w-])", sources)), [], "files beside a store")
    holds(len(beside) >= 2, "docs/operating.md names the files beside a store")
    entries = re.findall(r"^\| \*(\w+)\* \|", text("docs/model.md"), re.M)
    same(sorted(entries), sorted(codes_in_record("kind")), "entries of docs/model.md")
    counted = {"seven": 7, "eight": 8, "nine": 9}
    for page, form in (("docs/headline.md", r"\| the (\w+) rows \|"), ("README.md", r"#operations\) are (\w+)\.")):
        same(counted[re.search(form, text(page))[1]], len(operations()), f"operations of {page}")
    return f"{len(entries)} entries"
