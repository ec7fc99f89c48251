"""The numbers and words on which the strength of the gate rests. A change of one is a change of this file, and of CONTRIBUTING.md."""

import os
import re

from .harness import same
from .tables import rows
from .texts import matching, text_of, told

# How often the server is killed under load, and how often each check of stops kills it.
KILLS, STOPS = 100, 12
# How many times as long each check may take in the gate.
PATIENCE = 4
# Of a lone call: system calls of kind futex, and in all.
MOST_FUTEX, MOST_CALLS = 9, 18
# By how much the instructions under the hall's lock may differ from the figures, in hundredths.
INSTRUCTIONS_WITHIN = 3
HANDLES = "Handles allowed: Threads, Wait, Net."
WARNINGS = "-std=c11 -Wall -Wextra -Wpedantic -Wshadow -Wconversion -Werror"
SANITIZERS = "-fsanitize=address,undefined -fno-sanitize-recover=all"

# The table of CONTRIBUTING.md: what, and how much.
FIXED = {
    "handles that a crate may ask for": HANDLES.split(": ")[1], "kills of the server under load": str(KILLS),
    "kills in each check of stops": str(STOPS), "patience of the gate": str(PATIENCE),
    "system calls of a lone call": f"{MOST_CALLS}, {MOST_FUTEX} of them futex",
    "instructions, from the figures": f"{INSTRUCTIONS_WITHIN} %", "warnings of C": WARNINGS, "sanitizers of C": SANITIZERS,
}
# The lines of files that no other check reads, each with its whole text.
LINES = {
    ".ci/run": ("exec make test",),
    "HANDLES": (HANDLES,),
    "Makefile": ("\t@scripts/gate",),
    "clients/c/Makefile": (f"WARNINGS := {WARNINGS}", f"SANITIZERS := {SANITIZERS}"),
    "clients/cli/Makefile": (f"WARNINGS := {WARNINGS}", f"SANITIZERS := {SANITIZERS}"),
    "scripts/gate": (
        f'part programs scripts/check_programs --patience {PATIENCE} ${{FEMEM_MAY_SKIP:+--may-skip "$FEMEM_MAY_SKIP"}} --log "$log" crates/femem/out/femem',
        f'part proofs scripts/check_programs --patience {PATIENCE} --jobs 1 --log "$log" crates/femem/out/femem proofs',
        'part harness scripts/must_fail crates/femem/out/femem',
        '[ "$failed" = 0 ]',
    ),
}
# What .ci/run may skip, and where it does.
MAY_SKIP = {".ci/run": "export FEMEM_MAY_SKIP=lint,typed"}


def lines(_place):
    """the lines of .ci/run, HANDLES, Makefiles and scripts/gate on which the gate rests are those of this file, and nothing more may be skipped"""
    missing = [f"{name}: {it}" for name, its in LINES.items() for it in its if text_of(name).splitlines().count(it) != 1]
    missing += [f"scripts/check_programs: {it}" for it in ("KILLS", "STOPS") if f"default=constants.{it}," not in text_of("scripts/check_programs")]
    for name in LINES:
        found = [it for it in text_of(name).replace('"', "").split() if it.startswith("FEMEM_MAY_SKIP=")]
        missing += [] if found == [it.split()[-1] for it in [MAY_SKIP.get(name, "")] if it] else [f"{name}: {found}"]
    missing += [] if text_of(".ci/run").endswith("\nexec make test\n") else [".ci/run does not end with: exec make test"]
    return told(missing, sum(map(len, LINES.values())), 11, "lines")


def test_files(_place):
    """each file of tests in C and of femem-cli is one that its Makefile runs"""
    missing = []
    for folder, ending, others in (("c", ".c", {"model"}), ("cli", ".sh", set())):
        there = {os.path.basename(it)[5 : -len(ending)] for it in matching(f"clients/{folder}/test_*{ending}")}
        run = re.search(r"^TESTS := (.*)$", text_of(f"clients/{folder}/Makefile"), re.M)[1].split()
        missing += [f"clients/{folder}: {it}" for it in sorted({*run, *others} ^ there)]
    return told(missing, 1, 1, "list of each")


def fixed(_place):
    """the table of CONTRIBUTING.md has the constants of the gate"""
    same({row[0]: row[1] for row in rows("CONTRIBUTING.md", "| what | how much |")}, FIXED)
    return f"{len(FIXED)} constants"
