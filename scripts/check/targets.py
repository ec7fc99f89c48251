"""The Makefile's targets that no other part runs: `make prove`, `make deb`, `make serve`; and what `make run` and `make test` say of
a machine that lacks something."""

import os
import re
import shutil
import signal
import subprocess
from pathlib import Path

from . import must_fail, wire
from .clean import NAMES
from .harness import Skipped, done, holds, same, until, within
from .install import recorded
from .manuals import versions
from .texts import TOP, text_of

from release import record  # noqa: E402  (the path is set by manuals)

# In place of the toolchain: it says that all is proved, and makes a program. With FAULT its last line is another.
TOOLCHAIN = """#!/bin/sh
case $1 in
  version) echo stand-in ;;
  ci)
    find . -type f | sort > "$SEEN"
    cat crates.txt >> "$SEEN"
    mkdir -p crates/femem/out
    echo "the program" > crates/femem/out/femem
    echo "rt: femem proved"
    echo "${FAULT:-5 passed, 0 failed}"
    exit "${STATUS:-0}" ;;
esac
"""


def copy_of(place):
    """A repository of its own with all files of this one."""
    top = place.path("copy")
    listed = subprocess.run(["git", "-C", TOP, "ls-files", "-z", "-co", "--exclude-standard"], capture_output=True, check=True, text=True)
    for name in filter(None, listed.stdout.split("\0")):
        if os.path.exists(os.path.join(TOP, name)):
            os.makedirs(os.path.dirname(os.path.join(top, name)), exist_ok=True)
            shutil.copy2(os.path.join(TOP, name), os.path.join(top, name))
    how = {"cwd": top, "check": True, "capture_output": True}
    subprocess.run(["git", "init", "-q"], **how)
    subprocess.run(["git", "add", "-A"], **how)
    author = ["-c", "user.name=check", "-c", "user.email=check@localhost"]
    subprocess.run(["git", *author, "commit", "-q", "-m", "all"], **how)
    return top


def with_toolchain(place):
    """Such a repository, and the environment in which the stand-in is the toolchain."""
    os.makedirs(place.path("bin"))
    os.chmod(place.write("bin/rt", TOOLCHAIN.encode()), 0o755)
    return copy_of(place), {"PATH": f"{place.path('bin')}:{os.environ['PATH']}", "SEEN": place.path("seen")}


@within(120)
def prove(place):
    """`make prove` hands the program's crates alone to the toolchain, and records what it made; it keeps nothing that is not proved"""
    top, env = with_toolchain(place)
    words = ["make", "-s", "-C", top, "prove"]
    made, kept = os.path.join(top, "out/proved/femem"), os.path.join(top, "out/proved/record")
    done(place, words, env={**env, "FAULT": "4 passed, 1 failed"}, status=2)
    holds(not os.path.exists(made) and not os.path.exists(kept), "something was kept of a proof that failed")
    done(place, words, env=env)
    seen = place.read("seen").decode()
    for part in ("crates/fe_words/src/op.rt", "crates/femem/src/main.rt", "HANDLES", "fe_state: fe_words"):
        holds(part in seen, f"the toolchain does not see {part}")
    same(re.findall(r"^(?:\./crates/)?test_\w+|must-fail", seen, re.M), [], "tests and edits that the toolchain sees")
    same(record.fault_of(made, kept, top), None)
    same(Path(made).read_text("ascii"), "the program\n")
    # (what is up to date, or was only touched, is not proved again, and needs no toolchain; what was changed is)
    os.unlink(place.path("seen"))
    bare = {**env, "PATH": machine(place, {"rt"})}
    for name in ("out/proved/record", "crates.txt", "crates/fe_words/src/op.rt"):
        os.utime(os.path.join(top, name))
        done(place, words, env=bare)
    holds(not os.path.exists(place.path("seen")), "what is up to date was proved again")
    changed = os.path.join(top, "crates/fe_words/src/op.rt")
    with open(changed, "a", encoding="utf-8") as file:
        file.write("\n")
    # (within the grain of the file system's clock it would be as old as the program)
    os.utime(changed, times=(later := os.stat(made).st_mtime + 1, later))
    done(place, words, env=env)
    holds(os.path.exists(place.path("seen")), "what was changed is not proved again")


# In place of scripts/check_programs.
PROGRAMS = f"""#!/bin/sh
case "$*" in *must_fail) echo "${{FAILS-{must_fail.LAST}}}"; exit 1 ;; esac
echo "${{SAYS-3 passed, 0 failed}}"
"""


@within(120)
def adds_up(place):
    """`make test` adds up what its four parts say; one that ends with an error, or says nothing, has failed; only a run in which none has failed is recorded"""
    top, env = with_toolchain(place)
    os.chmod(place.write("copy/scripts/check_programs", PROGRAMS.encode()), 0o755)
    made = os.path.join(top, "out/proved/record")
    runs = (
        ({"STATUS": "1"}, "12 passed, 1 failed"), ({"FAULT": "4 passed, 1 failed"}, "11 passed, 1 failed"), ({"SAYS": ""}, "6 passed, 2 failed"),
        ({"SAYS": "3 passed, 1 failed (not run here: deb)"}, "12 passed, 2 failed (not run here: deb)"),
        ({"FAILS": f"1 passed, {len(must_fail.CHECKS) - 1} failed"}, "11 passed, 1 failed"), ({}, "12 passed, 0 failed"),
    )
    for how, last in runs:
        done(place, ["make", "-s", "-C", top, "test"], env={**env, **how}, status=2 if how else 0)
        said = place.read("made.out").decode()
        same([it for it in said.splitlines() if re.match(r"\d+ passed", it)][-1:], [last], said)
        same(os.path.exists(made), not how, "a record")
    with open(os.path.join(top, "out/gate/spent"), encoding="ascii") as file:
        spent = [line.rstrip("\n").split(" ", 1) for line in file]
    same([name for _, name in spent], ["rt ci", "programs", "proofs", "harness"], "parts whose processor time is noted")
    same(sorted(spent, key=lambda it: float(it[0])), spent, "processor time so far")
    return f"{len(runs)} runs"


# What the gate names if a machine lacks it, and Debian's package of each. Every Debian has those of EACH_HAS.
NEEDS = {
    "gcc": "gcc", "nm": "binutils", "patch": "patch", "man": "man-db", "dpkg-deb": "dpkg", "pkg-config": "pkgconf", "unshare": "util-linux",
    "ss": "iproute2", "ps": "procps", "strace": "strace", "valgrind": "valgrind", "lintian": "lintian", "mypy": "mypy",
}
EACH_HAS = {"dpkg", "util-linux"}
# In place of a toolchain that fails: it notes what it is asked, and says why.
FAILING = """#!/bin/sh
echo "rt $*" >> "$SEEN"
echo "rt: a fault of the toolchain"
echo "0 passed, 1 failed"
exit 1
"""


def machine(place, without, *scripts):
    """A folder that has this machine's programs but some, and these scripts. For PATH."""
    made = place.path("machine")
    os.mkdir(made)
    for folder in os.environ["PATH"].split(":"):
        for name in os.listdir(folder) if os.path.isdir(folder) else ():
            if name not in without and not os.path.lexists(os.path.join(made, name)):
                os.symlink(os.path.join(folder, name), os.path.join(made, name))
    for name, text in scripts:
        there = os.path.join(made, name)
        if os.path.lexists(there):
            os.unlink(there)
        os.chmod(place.write(f"machine/{name}", text.encode()), 0o755)
    return made


def packages_of_the_pages():
    """Debian's packages that the README names for `make run`, CONTRIBUTING.md for `make test`, and packaging/README.md for `make deb`."""
    found = [
        re.findall(form, text_of(page), re.M)
        for page, form in (
            ("README.md", r"^.*On Debian: `apt install ([\w ]+)`"), ("CONTRIBUTING.md", r"^`make test` needs root, and `apt install ([\w. -]+)`"),
            ("packaging/README.md", r"with `make prove` and `make deb` \(`apt install ([\w ]+)`\)"),
        )
    ]
    same([len(it) for it in found], [1, 1, 1], "the pages say what to install, once for each")
    return [it[0].split() for it in found]


@within(120)
def lacks(place):
    """without python3 and the toolchain `make run` and `make test` name both at once; `make test` names what else is missing, and root"""
    top = copy_of(place)
    bare = {"PATH": machine(place, {"python3", "rt"}), "SEEN": place.path("seen")}
    for target in ("run", "test"):
        said = done(place, ["make", "-C", top, target], env=bare, status=2)
        same(re.findall(r"^femem: '?(\w+)'?.* is not on the PATH", said, re.M), ["python3", "rt"], said)
    shutil.rmtree(place.path("machine"))
    some = machine(place, NEEDS, ("rt", FAILING), ("id", "#!/bin/sh\necho 1000\n"))
    process = place.start(["make", "-C", top, "test"], "test", {**bare, "PATH": some}, stderr=subprocess.STDOUT, group=True)
    process.wait()
    before, _, after = place.read("test.out").decode().partition("rt: a fault of the toolchain")
    named = re.findall(r"^femem: this machine lacks (\S+) \(on Debian: apt install (\S+)\): checks that need it will count as failed$", before, re.M)
    same(dict(named), NEEDS, before)
    same(sorted(packages_of_the_pages()[1]), sorted({"python3-venv", *NEEDS.values()} - EACH_HAS), "what CONTRIBUTING.md names for `make test`")
    holds("femem: this machine lacks root, " in before and after and process.returncode == 2, f"{before} .. {after}")
    # a fault of the toolchain is passed on, and nothing is proved
    os.unlink(place.path("seen"))
    shutil.rmtree(place.path("machine"))
    kit = place.path("kit/bin")
    os.makedirs(kit)
    os.makedirs(place.path("kit/toolchain/bin"))
    for name in ("bin/rt", "bin/rtlib.py", "bin/rattle", "toolchain/bin/clang"):
        os.chmod(place.write(f"kit/{name}", FAILING.encode()), 0o755)
    said = done(place, ["make", "-C", top, "run"], env={**bare, "PATH": f"{kit}:{os.environ['PATH']}"}, status=2)
    holds("rt: a fault of the toolchain\n" in said and "prove'" not in said, said)
    same(place.read("seen").decode(), "rt try -- --help\n", "what the toolchain was asked")


@within(120)
def deb(place):
    """`make deb` packs the program that its record names, byte for byte, and no other"""
    if not shutil.which("dpkg-deb"):
        raise Skipped("there is no dpkg-deb, of Debian's package dpkg")
    words = ["make", "-s", "-C", TOP, "deb", f"PROVED={place.program}", f"DIST={place.path('dist')}"]
    said = done(place, [*words, f"RECORD={recorded(place, program='0' * 64)}"], status=2)
    holds("is of another program" in said and not os.path.exists(place.path("dist")), said)
    said = done(place, [*words, f"RECORD={recorded(place)}"])
    made, *others = said.split()
    same(os.path.basename(made), f"femem_{versions.version()}_amd64.deb")
    same(len(others), len(NAMES) - 1, f"other packages: {others}")
    done(place, ["dpkg-deb", "--extract", made, place.path("tree")])
    same(record.sum_of(place.path("tree/usr/bin/femem")), record.sum_of(place.program), "the packed program")
    # without --unproved there is no package without a record
    done(place, [os.path.join(TOP, "scripts", "make_deb"), place.program, place.path("dist")], status=1)


def targets(_place):
    """`make deb` and `make dist` take the proved program and its record"""
    for target in ("deb", "dist"):
        said = subprocess.run(["make", "-s", "-n", "-C", TOP, target], capture_output=True, text=True, check=True).stdout
        words = said.split()
        same(sorted(it for it in words if it.startswith("out/")), ["out/dist", "out/proved/femem", "out/proved/record"], f"make {target}")


@within(120)
def serve(place):
    """`make serve` makes a store and serves it, again after a kill, and keeps what was answered"""
    data = place.path("data")
    words = ["make", "-s", "-C", TOP, "serve", f"DATA={data}", f"PROGRAM={place.program}"]
    socket = os.path.join(data, "femem.socket")

    def served():
        try:
            return wire.Connection(socket)
        except (OSError, wire.Ended):
            return None

    for turn in range(2):
        process = place.start(words, f"serve{turn}", group=True)
        with until(served, 30, "the server that `make serve` starts serves") as conn:
            same(conn.ask(wire.attach(7)), ("welcome", 7, 1))
            same(conn.ask(wire.call(1, ("create", b"cells", 2, 0))), ("answer", 1, ("array", 1, 2)))
        os.killpg(process.pid, signal.SIGKILL)
        process.wait()
        # (the server is a process below `make`, which may end before it)
        until(lambda: served() is None, 30, "the server that was killed is gone")
    holds(f"{place.program} serves at {socket}" in place.read("serve1.out").decode(), "it says where it serves")
