"""`femem run`: the schedules of examples/ and of schedules/, the syntax of lines, and streams that pass few bytes, fail or are closed."""

import os
import re
import resource
import subprocess

from . import schedules
from .harness import holds, in_turn, preload, same, within
from .stops import commits

# The worked schedules, each as a file of one of the two folders.
WORKED = (
    "empty_input first_path broadcast turns_of_writers arithmetic_wraps purge_wakes_writer bad_index_is_kept kept_over_stop "
    "kept_over_checkpoint waiter_gone_after_stop number_used window_edges remove_answers_waiters unsynced_is_lost "
    "resend_on_hold cancel_one_of_three create_refusals taken_over wait_report bye_and_return bad_line not_attached "
    "session_limit settle_moves_window cancel_waiter closing no_wait long_name"
).split()

# The syntax of docs/schedules.md, without the bounds of numbers.
NUMBER = rb"(0|[1-9][0-9]{0,19})"
NAME = rb"[^ \n]{1,32}"
REQUEST = (
    rb"create %(name)s %(number)s (full|empty)|find %(name)s|remove %(number)s|(readfe|readff|readxx|purge) %(number)s "
    rb"%(number)s( nowait)?|(writeef|writeff|writexf|int_fetch_add) %(number)s %(number)s %(number)s( nowait)?"
) % {b"name": NAME, b"number": NUMBER}
MESSAGE = rb"attach %(number)s|%(number)s (%(request)s)|cancel %(number)s|settle %(number)s|bye|report" % {b"number": NUMBER, b"request": REQUEST}
LINE = re.compile(rb"c[1-9][0-9]{0,2} (%s|gone)|hold|flush|stop|check|" % MESSAGE, re.DOTALL)

# Lines outside the syntax.
STRAY = (
    b"c1 attach 7\r", b"c1\tattach 7", b"c1 attach\t7", b"c1  attach 7", b"c1 attach  7", b" c1 attach 7", b"c1 attach 7 ",
    b"c1 attach 7 8", b"c1 attach 07", b"c1 attach +7", b"c1 attach -7", b"c1 attach 0x7", b"c1 attach 18446744073709551616",
    b"c1 attach", b"c1 attach ", b"c1", b"c1 jump", b" ", b"c01 attach 7", b"c0 attach 7", b"c1000 attach 7", b"c attach 7",
    b"C1 attach 7", b"c1 00 readxx 1 0", b"c1 1", b"c1 1 readfe 1", b"c1 1 readfe 1 0 5", b"c1 1 readfe 1 4294967296",
    b"c1 1 readfe 1 0 nowait ", b"c1 1 readfe 1 0 Nowait", b"c1 1 nowait readfe 1 0", b"c1 1 writeef 1 0",
    b"c1 1 writeef 1 0 nowait", b"c1 1 writeef 1 0 18446744073709551616", b"c1 1 create a_name_of_thirty_three_characters 1 full",
    b"c1 1 create  1 full", b"c1 1 create a 4294967296 full", b"c1 1 create a 1 Full", b"c1 1 create a 1",
    b"c1 1 create a 1 full nowait", b"c1 1 find ", b"c1 1 find a b", b"c1 1 remove", b"c1 cancel 01", b"c1 settle", b"c1 bye 1",
    b"c1 report ", b"hold ", b"c1 hold", b"check ", b"c1 stop", b"c1 1 \xff 1 0",
)

FIRST_PATH = b"c1 attach 7\nc1 1 create cells 2 empty\nc1 2 writeef 1 0 42\nc1 3 readfe 1 0\nc1 4 readxx 1 0\n"
FIRST_ANSWERS = b"c1 welcome 7 1\nc1 1 array 1 2\nc1 2 done\nc1 3 value 42\nc1 4 value 42\n"


def in_syntax(line):
    """Whether a line is in the syntax, apart from the bounds of its numbers."""
    return LINE.fullmatch(line) is not None


def worked_schedules(place):
    """each schedule of examples/ and of scripts/check/schedules/ through `femem run`: its output, its message on standard error and its status"""
    names = schedules.paths()
    for name in WORKED:
        holds(name in names, f"no schedule {name}")
    for name in names:
        given, output, errors = (schedules.content_of(name, kind) for kind in ("txt", "out", "err"))
        same(place.run("run", given=given), (2 if errors else 0, output, errors), name)
    return f"{len(names)} schedules"


def full_cascade(place):
    """one write lets 2,047 requests be served, in one batch"""
    lines = ["c1 attach 1", "c1 1 create cells 1 empty", "c1 settle 2"]
    answers = ["c1 welcome 1 1", "c1 1 array 1 1", "c1 settled 2"]
    for conn in range(2, 65):
        lines.append(f"c{conn} attach {conn}")
        answers.append(f"c{conn} welcome {conn} 1")
    waiting = [(conn, number) for conn in range(1, 65) for number in range(1, 33) if (conn, number) != (1, 1)]
    lines += [f"c{conn} {number} readff 1 0" for conn, number in waiting]
    lines += ["c65 report", "hold", "c1 33 writeef 1 0 9", "c65 report", "flush", "c1 34 readxx 1 0"]
    answers += ["c65 waiting 2047"] + [f"c65 word 1 0 session {conn} number {number} readff" for conn, number in waiting]
    answers += [f"c65 session {conn} waits {31 if conn == 1 else 32}" for conn in range(1, 65)] + ["c65 all-wait yes"]
    answers += ["c65 waiting 0"]
    answers += [f"c{conn} {number} value 9" for conn, number in waiting if conn == 1] + ["c1 33 done"]
    answers += [f"c{conn} {number} value 9" for conn, number in waiting if conn > 1] + ["c1 refused 34 beyond-window"]
    same(place.run("run", given=text_of(lines)), (0, text_of(answers), b""))


def text_of(lines):
    return "".join(line + "\n" for line in lines).encode()


def stray_lines(place):
    """a line outside the syntax ends the run and its number is reported; the earlier output stays, and no later line runs"""
    for line in STRAY:
        holds(not in_syntax(line) or re.search(rb"4294967296|18446744073709551616", line), f"this check's own syntax, {line}")
        given = b"c1 attach 7\n\n" + line + b"\nc1 1 create a 1 full\n"
        same(place.run("run", given=given), (2, b"c1 welcome 7 1\n", b"femem: line 3\n"), line)
    return f"{len(STRAY)} lines"


def names_are_bytes(place):
    """a name that is not plain is answered `bad-name`, whatever its bytes; plain names have 1 to 32 bytes"""
    given = (
        b"c1 attach 7\nc1 1 create a\0b 1 full\nc1 2 create a\tb 1 full\nc1 3 create \xff\xfe 1 full\nc1 4 create a\r 1 full\n"
        b"c1 5 create sixteen__letters 4294967295 full\nc1 6 create sixteen__letters 1 full\n"
        b"c1 7 create seventeen_letters 1 full\nc1 8 create name_of_thirty_two_letters______ 1 full\n"
        b"c1 9 find name_of_thirty_two_letters______\nc1 10 find \xff\nc1 11 find a\r\n"
    )
    output = (
        b"c1 welcome 7 1\nc1 1 bad-name\nc1 2 bad-name\nc1 3 bad-name\nc1 4 bad-name\nc1 5 bad-length\nc1 6 array 1 1\n"
        b"c1 7 array 2 1\nc1 8 array 3 1\nc1 9 array 3 1\nc1 10 bad-name\nc1 11 bad-name\n"
    )
    same(place.run("run", given=given), (0, output, b""))


def longest_lines(place):
    """the longest line of the syntax, with the greatest numbers; and a line of 300,000 bytes, whose number is printed"""
    given = (
        b"c999 18446744073709551615 int_fetch_add 18446744073709551615 4294967295 18446744073709551615 nowait\n"
        b"c999 18446744073709551615 create name_of_thirty_two_letters______ 4294967295 empty\n"
    )
    same(place.run("run", given=given), (0, b"c999 refused 18446744073709551615 not-attached\n" * 2, b""))
    long = b"c1 attach 7\nc1 1 find " + b"a" * 300000
    same(place.run("run", given=long), (2, b"c1 welcome 7 1\n", b"femem: line 2\n"))


def peak_of(place, given):
    """The peak memory in kB of a run of these lines."""
    path = place.write("given", given)
    with open(path, "rb") as source, open(os.devnull, "wb") as output:
        process = subprocess.Popen([place.program, "run"], stdin=source, stdout=output)
        _, status, used = os.wait4(process.pid, 0)
    process.returncode = os.waitstatus_to_exitcode(status)
    same(process.returncode, 0)
    return used.ru_maxrss


def printed_is_let_go(place):
    """what was printed is let go: a hundred times as many reports, of 1,000 requests that wait, take no more memory"""
    waiting = b"".join(
        b"c%d attach %d\n" % (conn, conn) + b"".join(b"c%d %d readfe 1 0\n" % (conn, number) for number in range(2, 33)) for conn in range(1, 33)
    )
    begin = b"c1 attach 1\nc1 1 create cells 1 empty\n" + waiting
    few, many = (peak_of(place, begin + b"c1 report\n" * count) for count in (10, 1000))
    holds(many < few + 1000, f"{many} kB, and {few} with a hundredth of the reports")
    return f"{many} kB, {few} with a hundredth"


def mixed_lines(count):
    """Lines in groups of nine: two requests that are stored, a settle that is, refused ones, waits that are cancelled or end with their connection."""
    for number in range(2, 2 + 2 * (count // 9), 2):
        yield b"c1 settle %d\nc1 %d writeef 1 0 42\nc1 %d readfe 1 0\nc1 %d find other\n" % (number, number, number + 1, number)
        yield b"c1 %d readfe 1 1\nc1 cancel %d\nc2 attach 8\nc2 1 readfe 1 1\nc2 gone\n" % (number + 2, number + 2)


def synced_is_let_go(place):
    """the store in memory forgets what was synced: 100,000 lines have enough memory with 24 MiB of data, some 20 of which a few lines take"""
    lines = place.write("given", b"c1 attach 7\nc1 1 create cells 2 empty\n" + b"".join(mixed_lines(100_000)))
    with open(lines, "rb") as source:
        process = place.start([place.program, "run"], "run", stdin=source, limit=(resource.RLIMIT_DATA, 24 << 20))
    same((process.wait(30 * place.options.patience), place.read("run.err")), (0, b""))
    same(place.read("run.out").count(b"\n"), 2 + 100_000 // 9 * 6)


def woken_among_many(place):
    """a write among 300 connections wakes all 59 that wait, and then the one that may go on: the replies are those, by connection"""
    numbers = range(1, 301)
    attached = [it for it in numbers if it % 5 == 0]
    lines = [f"c{it} attach {it}" if it in attached else f"c{it} 1 readxx 1 0" for it in numbers]
    wanted = [f"c{it} welcome {it} 1" if it in attached else f"c{it} refused 1 not-attached" for it in numbers]
    waiting = attached[1:]
    lines += ["c5 1 create w 2 empty", *(f"c{it} 1 readff 1 0" for it in waiting), "c5 2 writeef 1 0 9"]
    wanted += ["c5 1 array 1 2", "c5 2 done", *(f"c{it} 1 value 9" for it in waiting)]
    # The first of two that wait empties the word, so the second waits for the next write.
    lines += ["c300 2 readfe 1 1", "c10 2 readff 1 1", "c5 3 writeef 1 1 4", "c5 4 writeef 1 1 6"]
    wanted += ["c5 3 done", "c300 2 value 4", "c5 4 done", "c10 2 value 6"]
    given = place.write("given", text_of(lines))
    with open(given, "rb") as source:
        process = place.start([place.program, "run"], "run", stdin=source)
    same((process.wait(30 * place.options.patience), place.read("run.err")), (0, b""))
    same(place.read("run.out"), text_of(wanted))


def cut_anywhere(place):
    """an input cut at each byte: the cut line runs if it is a line of the syntax, or its number is printed"""
    given = b"c1 attach 7\nc1 1 create cells 2 empty\nc1 2 writeef 1 0 42\nc1 cancel 2\nhold\nc1 gone\nflush\n"
    # (`whole` is the output of whole lines, `shorter` that of cut lines still in the syntax)
    whole = (b"c1 welcome 7 1\n", b"c1 1 array 1 2\n", b"c1 2 done\n", b"c1 refused 2 not-waiting\n", b"", b"", b"")
    shorter = {b"c1 2 writeef 1 0 4": b"c1 2 done\n"}
    for count in range(len(given)):
        *before, last = given[:count].split(b"\n")
        printed = b"".join(whole[: len(before)])
        if last in given.split(b"\n"):
            wanted = (0, printed + whole[len(before)] if last else printed, b"")
        elif in_syntax(last):
            wanted = (0, printed + shorter[last], b"")
        else:
            wanted = (2, printed, b"femem: line %d\n" % (len(before) + 1))
        same(place.run("run", given=given[:count]), wanted, given[:count])
    return f"{count + 1} inputs"


def with_streams(place, library, given, **how):
    """A run with the preload: its status, output and errors, and whether a call failed."""
    mark = place.path("mark")
    env = {"LD_PRELOAD": library, "MARK": mark, **{key: str(value) for key, value in how.items()}}
    ran = place.run("run", given=given, env=env)
    failed = os.path.exists(mark)
    if failed:
        os.unlink(mark)
    return ran, failed


def until_none_fails(place, library, call, most, wanted):
    """Fails each call of that kind in turn, with at most `most` bytes for each call, and counts them."""
    env = {"LD_PRELOAD": library, "CALL": call, "SHORT": str(most)}
    count = 0
    for number, ran in in_turn(place, lambda more: place.run("run", given=FIRST_PATH, env={**env, **more}), "FAIL", "MARK"):
        due = (2, wanted(count * most), b"femem: input\n") if number else (0, FIRST_ANSWERS, b"")
        same(ran, due, f"{call} {number}, {most} bytes")
        count += number is not None
    return count


def short_streams(place):
    """streams that pass few bytes in a read or a write, or interrupt every second call"""
    library = preload(place, "streams.c")
    sizes = (1, 2, 3, 7, 64)
    for call in ("read", "write"):
        for most in sizes:
            same(with_streams(place, library, FIRST_PATH, CALL=call, SHORT=most), ((0, FIRST_ANSWERS, b""), False), f"{call}, {most} bytes")
            same(with_streams(place, library, FIRST_PATH, CALL=call, SHORT=most, BREAK=1), ((0, FIRST_ANSWERS, b""), False), f"{call}, interrupted")


@within(90)
def streams_fail(place):
    """each read of the input and each write of the output fails in turn: `femem: input`, after a prefix of the output"""
    library = preload(place, "streams.c")
    answers = FIRST_ANSWERS.splitlines(keepends=True)
    printed = lambda count: b"".join(answers[: FIRST_PATH[:count].count(b"\n")])
    told = []
    for most in (1, 5):
        # (the last read returns nothing)
        reads = until_none_fails(place, library, "read", most, printed)
        same(reads, -(-len(FIRST_PATH) // most) + 1, "reads")
        writes = until_none_fails(place, library, "write", most, lambda count: FIRST_ANSWERS[:count])
        same(writes, -(-len(FIRST_ANSWERS) // most), "writes")
        told.append(f"{reads} reads and {writes} writes of {most} bytes")
    return ", ".join(told)


# What some schedules print where a creation or a report is refused for lack of memory: later requests are answered as usual.
ARRAY, WAITS = b"c1 1 array 1 2\n", b"c1 waiting 1\nc1 word 1 0 session 7 number 2 readfe\nc1 session 7 waits 1\nc1 all-wait yes\n"
REST, NO_ARRAY, NO_REPORT = b"c1 2 value 5\nc1 3 done\n", b"c1 refused 1 no-memory\n", b"c1 refused 0 no-memory\n"
NO_MEMORY = {
    "first_path": (NO_ARRAY + b"c1 2 no-array\nc1 3 no-array\nc1 4 no-array\n",),
    "asked_again": tuple(
        b"".join(it) + b"c1 4 array 1 2\n" for it in (
            (NO_ARRAY, ARRAY, WAITS, WAITS, REST, b"c1 waiting 0\n"), (ARRAY, ARRAY, NO_REPORT, WAITS, REST, b"c1 waiting 0\n"),
            (ARRAY, ARRAY, WAITS, NO_REPORT, REST, b"c1 waiting 0\n"), (ARRAY, ARRAY, WAITS, WAITS, REST, NO_REPORT),
        )
    ),
}
ENDS = (b"femem: memory\n", b"femem: store device\n")


@within(300)
def refuse_each(place):
    """each allocation of two schedules, and of five more by turns of commits, is refused in turn: the run ends with status 3, or does without, or refuses a creation or a report with `no-memory`"""
    library, told = preload(place, "../refuse.c"), []
    names, first, count = [it for it in schedules.paths() if it not in NO_MEMORY], commits() * 5, place.options.turns or 5
    for name in (*NO_MEMORY, *dict.fromkeys(names[(first + it) % len(names)] for it in range(count))):
        given, output, errors = (schedules.content_of(name, kind) for kind in ("txt", "out", "err"))
        wanted, named, tried = (2 if errors else 0, output, errors), 0, 0
        for number, ran in in_turn(place, lambda more: place.run("run", given=given, env={"LD_PRELOAD": library, **more})):
            what, tried = f"{name}, allocation {number} refused: {ran}", number or tried
            if number is None:
                same(ran, wanted, name)
            elif ran[2] in ENDS:
                holds(ran[0] == 3 and output.startswith(ran[1]), what)
            elif ran != wanted:
                named += 1
                holds(ran[::2] == wanted[::2] and is_refused(output, ran[1]), what)
                holds(name not in NO_MEMORY or ran[1].removeprefix(b"c1 welcome 7 1\n") in NO_MEMORY[name], what)
        is_enough = (tried > 50 or not output) and (named or name not in NO_MEMORY)
        holds(is_enough, f"{name}: {tried} allocations, {named} told no-memory")
        told.append(f"{name} {tried}")
    return ", ".join(told)


def is_refused(output, found):
    """Whether the first differing line is a refusal in place of the request's answer; of a report it has the number 0."""
    wanted, line = next(it for it in zip(output.splitlines(), [*found.splitlines(), b""]) if it[0] != it[1])
    conn, number, *_ = wanted.split()
    return line == conn + b" refused " + number.replace(b"waiting", b"0") + b" no-memory"


def streams_closed(place):
    """an input or output that is closed, a folder, or a pipe without a reader is `femem: input`"""
    told = (2, b"", b"femem: input\n")
    shell = lambda text: ended(place, ["/bin/sh", "-c", text, "sh", place.program, place.folder])
    same(shell('exec "$1" run <&-'), told, "no input")
    same(shell('exec "$1" run < "$2"'), told, "a folder")
    same(shell('echo c1 attach 7 | "$1" run >&-'), told, "no output")
    same(shell('echo c1 attach 7 | "$1" run > /dev/full'), told, "a full device")
    ours, theirs = os.pipe()
    os.close(ours)
    with os.fdopen(theirs, "wb") as pipe:
        same(place.run("run", given=b"c1 attach 7\n", stdout=pipe), told, "a pipe that nobody reads")
        # (a run that prints nothing needs no output)
        same(place.run("run", given=b"hold\n", stdout=pipe), (0, b"", b""))


def ended(place, words):
    """Runs a process without input: its status, output and errors."""
    process = place.start(words, "shell")
    status = process.wait(30 * place.options.patience)
    return status, place.read("shell.out"), place.read("shell.err")
