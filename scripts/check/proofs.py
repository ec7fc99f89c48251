"""What a finished gate has proved and tried: each test by its name, each must-fail edit, and the tests of refused memory.

It reads what `rt ci` said, from `--log FILE`, and runs the test programs that it left. It also tries scripts/seed over the libraries
that it left."""

import os
import re
import shutil
import subprocess
from pathlib import Path

from .clients import output_of
from .edits import edits
from .harness import Skipped, compiler, holds, same, within
from .sources import all_below
from .texts import TOP, matching, text_of

# Each crate's tests, by name. A test that is renamed or removed is changed here too.
TESTS = {
    "test_calls": (
        "both_families", "broadcast_where_memory_ends", "checkpoint_where_memory_ends", "codec_where_memory_ends", "ends",
        "example_record", "example_record_of_format_2", "faults_where_memory_ends", "first_path_where_memory_ends",
        "frames_in_pieces", "frames_where_memory_ends", "full_mailbox", "largest_checkpoint_where_memory_ends",
        "offset_stands_still", "removal_where_memory_ends", "store_where_memory_ends", "strange_batch",
        "whole_checkpoint_where_memory_ends",
    ),
    "test_hall": (
        "bad_frame", "few_turns", "full_box", "groups_are_stored", "groups_where_memory_ends", "last_turn", "left_mail",
        "resend_between", "rows_over_threads", "store_fault", "strange_receipt", "taken_over", "two_lives", "windows",
    ),
    "test_sockets": ("each_reply_is_seen_before_the_next_line", "gate_holds_one"),
}
TEST = re.compile(r"#\[test\]\s*(?:#\[[^\]]*\]\s*)*(?:pub )?fn (\w+)")


def log_of(place):
    if not place.options.log:
        raise Skipped("there is no output of a gate (--log FILE)")
    return Path(place.options.log).read_text("utf-8", errors="replace")


def tests(place):
    """each test that the list names is in the sources, and the gate ran it; the sources have no other"""
    there = {}
    for name in matching("crates/*/src/**/*.rt"):
        there.setdefault(name.split("/")[1], []).extend(TEST.findall(text_of(name)))
    same({crate: sorted(names) for crate, names in there.items() if names}, {crate: sorted(it) for crate, it in TESTS.items()})
    log = log_of(place)
    ran = sorted(re.findall(r"^test (?:\w+::)*(\w+) \.\.\. ok$", log, re.M))
    same(ran, sorted(name for names in TESTS.values() for name in names), "tests that ran")
    for crate in TESTS:
        holds(f"rt: {crate}: its tests passed" in log, f"the tests of {crate} passed")
    return f"{len(ran)} tests"


def refused(place):
    """the gate's prover refused each must-fail edit, and none is bad"""
    log = log_of(place)
    found = {(it.crate, it.name) for it in edits()}
    for word in ("BAD EDIT", "NOT TRIED", "NOT REFUSED"):
        holds(word not in log, f"the gate said {word}")
    # Some kits count the edits in their last words, also those that they kept from an earlier run; the others name each.
    counted = re.findall(r"^rt: ok; .*must-fail edits: (\d+) refused", log, re.M)
    if counted:
        same(counted, [str(len(found))], "edits that the gate's last words count")
    else:
        named = re.findall(r"^rt: must-fail (\w+)/([\w.-]+)\.edit: refused, as it must be", log, re.M)
        same(sorted(named), sorted(found), "edits that the gate says it refused")
    return f"{len(found)} edits"


@within(600)
def memory_ends(place):
    """each test of refused memory passes with each of its allocations refused in turn"""
    log_of(place)
    compiler()
    programs = [os.path.join(TOP, "crates", crate, "out", f"{crate}_tests") for crate in ("test_calls", "test_hall")]
    wanted = sum(name.endswith("_where_memory_ends") for names in TESTS.values() for name in names)
    said = output_of(place, [os.path.join(TOP, "scripts", "refuse_test"), *programs], 600)
    refusals = int(re.search(r"^(\d+) allocations refused$", said, re.M)[1])
    same(said.splitlines()[-1], f"{wanted} passed, 0 failed", said[-2000:])
    holds(refusals >= 1000, f"only {refusals} allocations were refused")
    return f"{wanted} tests, {refusals} allocations"


# A crate that is soon proved, after all those below it: crates.txt lists a crate after what it stands on.
LAST = "fe_codes"
SEEDED = (*all_below(LAST), LAST)


def seedling(place):
    """A repository of these crates, as the gate leaves them: with libraries that have no stamps."""
    top = place.path("seedling")
    shutil.copytree(os.path.join(TOP, "scripts"), os.path.join(top, "scripts"))
    shutil.copy2(os.path.join(TOP, "HANDLES"), top)
    listed = [it for it in text_of("crates.txt").splitlines() if it.split(":")[0] in SEEDED]
    place.write("seedling/crates.txt", "".join(f"{it}\n" for it in listed).encode())
    for crate in SEEDED:
        for part in ("src", "specs", "proofs"):
            if os.path.isdir(os.path.join(TOP, "crates", crate, part)):
                shutil.copytree(os.path.join(TOP, "crates", crate, part), os.path.join(top, "crates", crate, part))
    os.makedirs(os.path.join(top, "out", "gate"))
    sources = subprocess.check_output([os.path.join(top, "scripts", "record"), "sources"])
    place.write("seedling/out/gate/sources", sources)
    for crate in SEEDED[:-1]:
        library = os.path.join("crates", crate, "out", "rlib")
        shutil.copytree(os.path.join(TOP, library), os.path.join(top, library), ignore=lambda _, names: set(names) & {"stamp"})
        os.utime(os.path.join(top, library))
    return top


@within(300)
def seeded(place):
    """after scripts/seed, `rt check` of a crate proves none below it; it stamps nothing once a source has changed"""
    log_of(place)
    top = seedling(place)
    words = [os.path.join(top, "scripts", "seed")]
    stamps = [os.path.join(top, "crates", it, "out", "rlib", "stamp") for it in SEEDED[:-1]]
    source = os.path.join(top, "crates", "fe_words", "src", "lib.rt")
    with open(source, "a", encoding="utf-8") as file:
        file.write("// changed\n")
    ran = subprocess.run(words, stdin=subprocess.DEVNULL, capture_output=True, text=True, check=False)
    same((ran.returncode, ran.stderr), (1, "femem: the sources are not those that the gate began with\n"))
    holds(not any(map(os.path.exists, stamps)), "a stamp for another text")
    shutil.copy2(os.path.join(TOP, "crates", "fe_words", "src", "lib.rt"), source)
    count, names = output_of(place, words, 60).split(" crates: ")
    same((count, sorted(names.split())), (str(len(stamps)), sorted(SEEDED[:-1])))
    times = [os.stat(it).st_mtime_ns for it in stamps]
    said = output_of(place, ["env", "-C", os.path.join(top, "crates", SEEDED[-1]), "rt", "check"], 280)
    same([os.stat(it).st_mtime_ns for it in stamps], times, "libraries that were built anew")
    proved = set(re.findall(r"^fn (\w+)::\S+: proved$", said, re.M))
    same(proved, {SEEDED[-1]}, "crates that were proved")
