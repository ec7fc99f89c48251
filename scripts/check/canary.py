"""Whether the checks notice wrong bodies that no clause sees: the switches of one unproved program, and wrong lines of the clients, of
femem-cli, of the package and of the checks themselves.

wrong_disks.edit and wrong_edges.edit, in the format of must-fail edits, have the bodies. `is("NAME")` is true in a process in whose
folder the file ../../wrong/NAME is, so one program has them all. A body is noticed if its check fails, by what it looks for and
not because it breaks. The gate tries one check of each body in GATE, scripts/try_disks all checks of all bodies.
"""

import hashlib
import os
import re
import shutil
import subprocess
import sys
import tempfile
from concurrent.futures import ThreadPoolExecutor
from pathlib import Path

from . import wrong_disks
from .harness import compiler, holds, same, within
from .targets import copy_of
from .texts import TOP

GROUPS = ("records.appended", "records.migrated", "records.migrated_by_a_name")
COPIED = ("files.overwritten_early", "files.equal_groups")
RENAMED = ("files.changed_meanwhile", "files.renamed_in_a_group")
# The bodies of the disk in a file, and the checks each of which has to notice it.
DISKS = {
    "never_syncs": (*GROUPS, "records.made", "records.replies_wait", "faults.new_stores", "faults.syncs_that_lose", "copies.copy_goes_on"),
    "syncs_once": (*GROUPS, "records.made", "records.replies_wait", "faults.new_stores", "faults.syncs_that_lose", "copies.copy_goes_on"),
    "takes_failed_sync": ("faults.new_stores", "faults.in_checkpoints", "faults.syncs_that_lose"),
    "pages_not_dropped": ("records.made", "records.opened", "faults.syncs_that_lose"),
    "not_watched": (*GROUPS, *RENAMED),
    "watches_payloads": (*GROUPS, *RENAMED),
    "path_not_watched": (*GROUPS, "records.made", "records.opened", *RENAMED),
    "takes_other_size": ("files.changed_meanwhile",),
    "leaves_a_hole": ("records.made", "records.kept", "faults.new_stores"),
    "new_file_not_synced": ("records.made", "records.kept", "faults.new_stores"),
    "folder_not_synced": ("records.made", "records.kept", "faults.new_stores"),
    "name_not_synced": ("records.made", "records.kept", "faults.new_stores"),
    "one_byte_off": GROUPS,
    "others_may_read": ("records.made", "records.kept", "files.modes", "files.kept_bytes"),
    "not_compared": (*GROUPS, "files.overwritten", *COPIED),
    "relies_on_nothing": (*GROUPS, "files.overwritten_early"),
    "short_samples": (*GROUPS, "files.overwritten_early"),
    "samples_the_front": ("records.appended", "records.migrated", "files.equal_groups"),
    "takes_any_kind": ("lines.store_refusals",),
    "takes_replaced": ("files.while_it_starts",),
    "takes_nameless": ("files.while_it_starts",),
    "formats_without_copy": ("records.kept", "files.kept_bytes", "stops.keeping"),
}
# The bodies of the server's edge.
EDGES = {
    "writer_leaves_silently": ("ends.closed_with_reports",), "reader_leaves_silently": ("crowds.bad_frames",),
    "drained_rings_nobody": ("ends.half_closed_replies",), "rest_rings_nobody": ("ends.half_closed_replies",),
    "empty_box_rings_nobody": ("ends.half_closed_replies",), "refusals_ring_nobody": ("crowds.refusals",),
    "room_rings_nobody": ("crowds.waits_for_room",), "room_rings_one": ("crowds.all_wait_for_room",),
    "stop_rings_no_work": ("crowds.held_call_holds_one",), "stop_rings_no_room": ("ends.fault_while_all_wait",),
    "keeps_baton": ("crowds.pipelines",), "sends_one_by_one": ("counts.a_window",),
    "accepts_without_a_pause": ("counts.no_files_left",), "admission_unannounced": ("ends.at_the_limit",),
    "never_ended": ("ends.at_the_limit",), "late_client_waits_half_a_minute": ("ends.door_behind_half_closed",),
    "ends_after_three_seconds": ("ends.fault_with_silent_clients",), "hangs_up_half": ("ends.fault_with_silent_clients",),
    "streams_not_shut": ("ends.fault_with_silent_clients",), "listener_not_shut": ("ends.told_before_a_fault",),
    "socket_not_reached": ("ends.two_at_one_socket",), "too_few_files_will_do": ("ends.few_descriptors",),
    "leaves_name_beside": ("ends.ready_socket",), "takes_anything_beside": ("ends.beside_another",),
    "stacks_of_128_megabytes": ("faults.little_memory",), "closed_streams_not_held": ("calls.closed_streams",),
    "leaves_new_store": ("files.left_over",), "waits_a_minute_for_a_reader": ("crowds.never_reads",),
    "waits_in_reads": ("counts.taken_replies",),
}
WRONG = {**DISKS, **EDGES}
# Bodies that no check notices, and why.
UNNOTICED = {
    "last_mail_rings_nobody": "the write side finds an empty box soon after, and rings then",
    "late_client_unannounced": "the accepting thread looks again after a second",
    "refusal_unannounced": "as late_client_unannounced, and memory has to be short",
    "end_unannounced": "clients that wait are sent away by their own second",
    "strange_post_rings_nobody": "a post that fails ends the server, which rings every bell",
    "sync_rings_nobody": "the next group that is stored wakes whoever waits for the sync",
    "checkpoints_early": "a checkpoint may begin at any time; counts of calls would show it, which the switches themselves change",
    "checkpoints_late": "a group that does not fit has a whole checkpoint made before it",
}
# What fails for one of these reasons has not noticed anything.
BROKEN = re.compile(r"^ {8}(?:Type|Attribute|Name|Key|Index|Import|ModuleNotFound|Syntax|Lacks|FileNotFound|Permission)\w*: ", re.M)
ENDED = ("1 passed, 0 failed", "0 passed, 1 failed")


def edited(copy):
    """Puts the wrong bodies into a copy of the sources."""
    named = {it for _, _, new in wrong_disks.edits() for it in re.findall(r'\bis\("(\w+)"\)', new)}
    same(named, {*WRONG, *UNNOTICED}, "wrong bodies")
    for name, old, new in wrong_disks.edits():
        replace(os.path.join(copy, name), old, re.sub(r'\bis\("(\w+)"\)', r'is_wrong("../../wrong/\1")', new))


def replace(path, old, new):
    content = Path(path).read_text("utf-8")
    same(content.count(old), 1, f"{path}: how often it has {old!r}")
    Path(path).write_text(content.replace(old, new), "utf-8")


def sum_of(folder):
    """A sum of all files below a folder."""
    found = hashlib.sha256()
    for place, folders, names in os.walk(folder):
        folders.sort()
        for name in sorted(names):
            with open(os.path.join(place, name), "rb") as file:
                found.update(f"{os.path.relpath(place, folder)}/{name} ".encode() + hashlib.sha256(file.read()).digest())
    return found.hexdigest()


def built():
    """The program that has all wrong bodies, in out/canary. It is built anew if a source or a body has changed (scripts/quick)."""
    kept = os.path.join(TOP, "out", "canary")
    program, text, known = (os.path.join(kept, it) for it in ("femem", "text", "sum"))
    os.makedirs(kept, exist_ok=True)
    shutil.rmtree(text, ignore_errors=True)
    for name in ("crates", "scripts"):
        shutil.copytree(os.path.join(TOP, name), os.path.join(text, name), symlinks=True, ignore=shutil.ignore_patterns("out", "__pycache__"))
    for name in ("crates.txt", "HANDLES"):
        shutil.copy2(os.path.join(TOP, name), text)
    edited(text)
    found = sum_of(os.path.join(text, "crates"))
    if not os.path.exists(program) or not os.path.exists(known) or open(known, encoding="ascii").read() != found:
        ran = subprocess.run([os.path.join(text, "scripts", "quick")], stdin=subprocess.DEVNULL, capture_output=True, text=True, check=False)
        same(ran.returncode, 0, ran.stdout + ran.stderr)
        os.replace(os.path.join(text, "out", "unproved", "femem-unproved"), program)
        Path(known).write_text(found, "ascii")
    shutil.rmtree(text)
    return program


def ran(top, program, check, patience, room):
    """The output of a check, run by the scripts of a repository, and whether it failed."""
    words = [os.path.join(top, "scripts", "check_programs"), "--jobs", "1", "--patience", str(patience), program, check]
    made = subprocess.run(words, stdin=subprocess.DEVNULL, capture_output=True, text=True, env={**os.environ, "TMPDIR": room}, check=False)
    last = (made.stdout.splitlines() or [""])[-1]
    holds((last, made.returncode) in zip(ENDED, (0, 1)), f"{check}: status {made.returncode}: {made.stdout[-500:]}{made.stderr[-500:]}")
    return made.stdout, last == ENDED[1]


def is_noticed(program, name, check, patience):
    """Whether a check fails over the program with a wrong body, for what it looks for. The body `right` is none."""
    # (a socket's path has at most 107 bytes)
    with tempfile.TemporaryDirectory(prefix="fc-", dir="/tmp") as room:
        os.mkdir(os.path.join(room, "wrong"))
        if name != "right":
            with open(os.path.join(room, "wrong", name), "wb"):
                pass
        said, has_failed = ran(TOP, program, check, patience, room)
    return has_failed and not BROKEN.search(said)


def tried(program, pairs, patience, jobs):
    """Of pairs of a body and a check, those in which the check does not notice the body."""
    with ThreadPoolExecutor(jobs) as pool:
        noticed = pool.map(lambda it: is_noticed(program, *it, patience), pairs)
    return [it for it, was in zip(pairs, noticed) if not was]


def wrong_passes(program, checks, patience, jobs):
    """The checks that fail over that program though no wrong body is on."""
    pairs = [("right", it) for it in sorted(set(checks))]
    return sorted({it for _, it in pairs} - {it for _, it in tried(program, pairs, patience, jobs)})


# The bodies that the gate tries, each by its first check. The others are tried by scripts/try_disks.
GATE = (
    "writer_leaves_silently", "reader_leaves_silently", "rest_rings_nobody", "refusals_ring_nobody", "room_rings_one", "stop_rings_no_room",
    "sends_one_by_one", "accepts_without_a_pause", "never_ended", "socket_not_reached", "too_few_files_will_do", "takes_anything_beside",
    "takes_any_kind", "takes_replaced", "others_may_read", "one_byte_off", "new_file_not_synced", "not_compared",
)


@within(1200)
def edges(place):
    """each of the chosen wrong bodies at the edge is noticed by its check, which passes without it"""
    program, patience = built(), place.options.patience
    pairs = [(it, WRONG[it][0]) for it in GATE]
    same(wrong_passes(program, (it for _, it in pairs), patience, 4), [], "checks that fail without a wrong body")
    same(tried(program, pairs, patience, 4), [], "bodies that no check noticed")
    return f"{len(pairs)} of {len(pairs)} wrong bodies noticed"


C, CLI, PYTHON, STORE = "clients/c/", "clients/cli/", "clients/python/femem/", "packaging/tools/femem_store/"
HARNESS = "scripts/check/harness.py"
UNITTEST = (sys.executable, "-B", "-W", "ignore", "-m", "unittest", "discover", "-s", "clients/python/tests", "-p")
MUST_FAIL, FAILED = ("scripts/must_fail", "PROGRAM"), "\n0 passed, 1 failed\n"


def check(name):
    return ("scripts/check_programs", "--jobs", "1", "PROGRAM", name)


# Wrong lines: the file, what it has, what it gets; the words that have to fail over it in a copy of the repository, and what they say.
LINES = {
    "Python, a note is not synced": (
        f"{PYTHON}_sessionfile.py", "            os.fdatasync(self._file)\n", "", (*UNITTEST, "test_sessionformat.py", "-k", "nothing_is_sent"), "FAILED (",
    ),
    "C, a note is not synced": (
        f"{C}session_file.c", "  return fdatasync(file->descriptor) == 0;", "  return true;", ("make", "-s", "-C", C, "run_test_calls"), " failed\n",
    ),
    "femem-cli, the status of a list": (
        f"{CLI}main.c", "    if (first == DONE) first = status;", "    first = status;", ("make", "-s", "-C", CLI, "run_lists", "PROGRAM=PROGRAM"), "a list's status",
    ),
    "package, a restart after a minute": ("examples/femem.service", "RestartSec=5\n", "RestartSec=60\n", check("sentences.owned"), FAILED),
    "package, what failed is not counted": (
        f"{STORE}probe.py", "counts[2] + (status not in (DONE, WITH_A_NOTE))", "counts[2]", check("backups.probed"), FAILED,
    ),
    "checks, `same` compares nothing": (HARNESS, "    if got != wanted:\n", "    if got != wanted and False:\n", MUST_FAIL, FAILED),
    "checks, `holds` holds": (HARNESS, "    if not condition:\n", "    if not condition and False:\n", MUST_FAIL, FAILED),
    "checks, what breaks has passed": (HARNESS, '            why = f"{type(error).__name__}: {error}{where(error)}"\n', "            why = None\n", MUST_FAIL, FAILED),
    "checks, what is late has passed": (HARNESS, '            why = f"no end within {seconds} seconds"\n', "            pass\n", MUST_FAIL, FAILED),
    "checks, a part that is not run": ("scripts/check_programs", '"stops", "kills", ', '"stops", ', check("outside.all_run"), FAILED),
    "checks, a test that is not there": ("scripts/check/ends.py", 'cost less than 20 MB"""', 'cost less than 20 MB."""', check("outside.all_run"), FAILED),
    "checks, any clause will do": ("crates/fe_words/must-fail/add_saturates.edit", "# clause: Op::rule (", "# clause: Op::rules (", check("edits.fit"), FAILED),
    "gate, its status is lost": (".ci/run", "exec make test", "make test || true", check("constants.lines"), FAILED),
    "gate, more handles": ("HANDLES", "Net.", "Net, Processes.", check("constants.lines"), FAILED),
    "gate, no sanitizers": (f"{C}Makefile", "SANITIZERS := -fsanitize=address,undefined -fno-sanitize-recover=all", "SANITIZERS :=", check("constants.lines"), FAILED),
    "gate, a kill": ("scripts/check_programs", "default=constants.KILLS", "default=1", check("constants.lines"), FAILED),
    "gate, two tests in C are left out": (f"{C}Makefile", " quiet loop\n", "\n", check("constants.test_files"), FAILED),
    "gate, what failed is recorded": ("scripts/gate", 'if [ "$failed" = 0 ]; then\n  mkdir', "if true; then\n  mkdir", check("targets.adds_up"), FAILED),
}


def has_noticed(place, top, name):
    """Whether the words of a wrong line fail over a copy that has it, and say what they should."""
    path, old, new, words, due = LINES[name]
    path = os.path.join(top, path)
    shutil.copy2(path, kept := place.path("kept"))
    replace(path, old, new)
    words = ["env", "-C", top, *(re.sub(r"(?<![A-Z])PROGRAM$", place.program, it) for it in words)]
    process = place.start(words, "line", stderr=subprocess.STDOUT, group=True)
    status = process.wait(240 * place.options.patience)
    shutil.copy2(kept, path)
    said = place.read("line.out").decode(errors="replace")
    return status != 0 and due in said and not BROKEN.search(said)


@within(1200)
def lines(place):
    """a wrong line of each client, of femem-cli, of the package, of the checks and of the gate is noticed"""
    compiler()
    top = copy_of(place)
    same([it for it in LINES if not has_noticed(place, top, it)], [], "wrong lines that nothing noticed")
    return f"{len(LINES)} of {len(LINES)} wrong lines noticed"
