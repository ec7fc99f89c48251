"""The program that `make run` builds without proving it does what the proved one does; and CONTRIBUTING.md's first commands work."""

import os
import re
import subprocess
from pathlib import Path

from .harness import done, holds, same, within
from .schedules import content_of, paths

TOP = os.path.normpath(os.path.join(os.path.dirname(os.path.realpath(__file__)), "..", ".."))
UNPROVED = os.path.join(TOP, "out", "unproved", "femem-unproved")


def built(place):
    """Builds the unproved program as a user does, unless it is up to date."""
    said = done(place, ["make", "-s", "-C", TOP, "run"])
    holds("this build is unproved" in said, "make run says that nothing is proved")
    holds(said.endswith(content_of("first_path", "out").decode()), "make run shows the answers of examples/first_path.txt")


@within(900)
def schedules_alike(place):
    """`make run` builds a program that prints what the proved one prints, for every schedule"""
    built(place)
    for name in paths():
        schedule = content_of(name, "txt")
        proved = place.run("run", given=schedule)
        process = place.start([UNPROVED, "run"], "unproved", stdin=subprocess.PIPE)
        process.communicate(schedule, 60 * place.options.patience)
        same((process.returncode, place.read("unproved.out"), place.read("unproved.err")), proved, name)
    holds(len(paths()) >= 48, f"only {len(paths())} schedules")
    return f"{len(paths())} schedules"


@within(900)
def first_lines(place):
    """CONTRIBUTING.md's first commands run unchanged, except for the folder of their files"""
    built(place)
    text = Path(os.path.join(TOP, "CONTRIBUTING.md")).read_text("utf-8")
    found = re.search(r"^```sh\n(.*?femem=.*?)^```\n\n(.*?)\n\n", text, re.M | re.S)
    holds(found, "the page has a first block of commands, and a paragraph that says what they print")
    settings = place.path("femem.toml")
    with open(os.path.join(TOP, "examples", "femem.toml"), encoding="utf-8") as file:
        place.write("femem.toml", file.read().replace("/tmp/femem", place.path("femem")).encode())
    block = found[1].replace("/tmp/femem", place.path("femem")).replace("examples/femem.toml", settings)
    said = done(place, ["bash", "-euc", f"cd {TOP}\n{block}"]).split("\n")
    printed = re.findall(r"`(welcome [^`]*|[0-9]+ [^`]*)`", found[2])
    holds(len(printed) == 6, f"the page says what six lines are: {printed}")
    same([it for it in said if re.match(r"welcome |[0-9]+ ", it)][-6:], printed)
