"""What is installed without the package: the program, the C library, the Python client; and what `make dist` produces."""

import os
import re
import shutil
import subprocess
import sys
import zipfile
from pathlib import Path

from .clean import NAMES
from .harness import Server, compiler, done, holds, same, within
from .manuals import is_well_formed
from .store import SIZE

sys.path.insert(0, os.path.normpath(os.path.join(os.path.dirname(os.path.realpath(__file__)), "..")))

from release import pages, record, versions  # noqa: E402

TOP = pages.TOP
SOCKET, STORE, BACKUP = "/run/femem/femem.socket", "/var/lib/femem/femem.store", "/var/backups/femem/femem.store"


def program(place):
    """`make install` puts the program, byte for byte, and its man pages into a prefix, and a femem-store that makes stores by it"""
    # (-o: it is not proved again here, however old it is)
    words = ["make", "-s", "-C", TOP, "-o", place.program, f"PROVED={place.program}", "PREFIX=/usr", f"DESTDIR={place.path('root')}"]
    done(place, [*words, "install"])
    installed = place.path("root/usr/bin/femem")
    same(record.sum_of(installed), record.sum_of(place.program))
    same(os.stat(installed).st_mode & 0o7777, 0o755)
    done(place, [place.path("root/usr/bin/femem-store"), "make", place.path("new")], "store", {"FEMEM": ""})
    same(os.path.getsize(place.path("new")), SIZE, "a store that the installed tool makes")
    for name, number, *rest in pages.PAGES:
        with open(place.path(f"root/usr/share/man/man{number}/{name}.{number}"), encoding="ascii") as file:
            same(file.read(), pages.page(name, number, *rest), name)


def flags(pc, field, root):
    """The flags that femem.pc gives a compiler, for an installation below a root."""
    values = dict(re.findall(r"^(\w+)=(.*)$", pc, re.M))
    text = re.search(rf"^{field}: (.*)$", pc, re.M)[1]
    while found := re.search(r"\$\{(\w+)\}", text):
        text = text.replace(found[0], values[found[1]])
    return [it[:2] + root + it[2:] if it[:2] in ("-I", "-L") else it for it in text.split()]


@within(120)
def c(place):
    """`make install` of the C library: a program built with femem.pc's flags works with a server, and libfemem(3) is well formed"""
    root = place.path("root")
    done(place, ["make", "-s", "-C", os.path.join(TOP, "clients", "c"), "install", "PREFIX=/usr", f"DESTDIR={root}"])
    for name in ("include/femem.h", "lib/libfemem.a", "lib/libfemem.so", "lib/libfemem.so.1", "lib/pkgconfig/femem.pc"):
        holds(os.path.exists(os.path.join(root, "usr", name)), f"there is no {name}")
    is_well_formed(os.path.join(root, "usr/share/man/man3/libfemem.3"))
    pc = Path(os.path.join(root, "usr/lib/pkgconfig/femem.pc")).read_text("utf-8")
    same(re.search(r"^Version: (.*)$", pc, re.M)[1], versions.of_sources()[0])
    source = [os.path.join(TOP, "clients", "c", "counter.c"), *flags(pc, "Cflags", root)]
    for name, libraries in (("shared", flags(pc, "Libs", root)), ("static", [f"{root}/usr/lib/libfemem.a"])):
        done(place, [compiler(), "-std=c11", "-D_POSIX_C_SOURCE=200809L", "-o", place.path(name), *source, *libraries])
    holds(b"libfemem.so.1\0" in Path(place.path("shared")).read_bytes(), "the program does not ask for libfemem.so.1")
    server = Server(place).start()
    count = 0
    for name in ("shared", "static"):
        said = done(place, [place.path(name), server.socket, "7", "3"], env={"LD_LIBRARY_PATH": f"{root}/usr/lib"})
        same(said, "".join(f"{count + it}\n" for it in range(3)), name)
        count += 3


def wheel(folder):
    """The one wheel of a folder."""
    found = [it for it in os.listdir(folder) if it.endswith(".whl")]
    same(len(found), 1, f"wheels in {os.listdir(folder)}")
    return os.path.join(folder, found[0])


def recorded(place, name="record", **changed):
    """A record of the program under test and the present sources, which says that it is not from a proof."""
    fields = {
        "program": record.sum_of(place.program), "sources": record.sources(), "commit": "none", "toolchain": "none",
        "by": "scripts/check/install.py, which proves nothing", **changed,
    }
    return place.write(name, ("".join(f"{name} {value}\n" for name, value in fields.items()) + "\nnothing was proved\n").encode())


@within(180)
def dist(place):
    """`make dist` puts packages, wheel, C library, sums and record into one folder, the same ones twice; the wheel's client works, and has no
    link into the repository"""
    folder = place.path("dist")
    words = [os.path.join(TOP, "scripts", "dist"), "--try", place.program, recorded(place), folder]
    # (a commit made meanwhile would change time and version)
    epoch = {**one_commit(), "FEMEM_HOMEPAGE": "https://femem.example"}
    done(place, words, env=epoch)
    with open(os.path.join(folder, "SHA256SUMS"), encoding="ascii") as file:
        sums = dict(reversed(line.split()) for line in file)
    version = versions.version()
    packages = [f"{it}_{version}_{'all' if it in ('python3-femem', 'femem-doc') else 'amd64'}.deb" for it in NAMES]
    wanted = {*packages, f"femem-{versions.python()}-py3-none-any.whl", f"femem-{versions.python()}.tar.gz", f"femem-c-{version}-linux-amd64.tar.gz", "proof"}
    same(set(sums), wanted)
    same(set(os.listdir(folder)), wanted | {"SHA256SUMS"})
    for name, value in sums.items():
        same(record.sum_of(os.path.join(folder, name)), value, name)
    done(place, [*words[:-1], place.path("again")], env=epoch)
    with open(place.path("again/SHA256SUMS"), encoding="ascii") as file:
        same(dict(reversed(line.split()) for line in file), sums, "made again")
    with zipfile.ZipFile(wheel(folder)) as archive:
        archive.extractall(place.path("site"))
        about = archive.read(next(it for it in archive.namelist() if it.endswith("/METADATA"))).decode()
    holds("\nProject-URL: Homepage, https://femem.example\n" in about, "the wheel names no homepage")
    same(re.findall(r"\]\((?![a-z]+:|#)[^)]*\)", about), [], "links of the wheel's description that lead nowhere")
    server = Server(place).start()
    script = "import sys, femem\nwith femem.Client(sys.argv[1], session=7) as it: print(it.create('slot', 1).id, femem.__version__)"
    said = done(place, [sys.executable, "-c", script, server.socket], env={"PYTHONPATH": place.path("site"), "PYTHONDONTWRITEBYTECODE": "1"})
    same(said, f"1 {versions.python()}\n", "the wheel's client and version")
    return f"{len(sums)} files"


def dist_refuses(place):
    """`make dist` refuses a program without a record, with another program's record, and with a record of other sources, and what is no release"""
    folder = place.path("dist")
    words = [os.path.join(TOP, "scripts", "dist"), "--try", place.program]
    for fault, path in (
        ("there is no record", place.path("none")), ("is of another program", recorded(place, "of_another", program="0" * 64)),
        ("the sources have changed", recorded(place, "of_others", sources="0" * 64)),
    ):
        said = done(place, [*words, path, folder], status=1)
        holds(fault in said, f"{fault}: {said}")
        holds(not os.path.exists(folder), "something was released")
    # (a clone has no tags, and nobody maintains what this makes)
    said = done(place, [words[0], place.program, recorded(place), folder], env={"FEMEM_MAINTAINER": ""}, status=1)
    fault = "CONTRIBUTING.md says how a release is made" if versions.is_released() else "CHANGELOG.md has an unreleased part"
    holds(fault in said and not os.path.exists(folder), said)
    # one changed byte makes it another source
    copy = place.path("copy")
    for name in ("crates.txt", "HANDLES", "crates/fe_words"):
        there = os.path.join(copy, name)
        os.makedirs(os.path.dirname(there), exist_ok=True)
        (shutil.copytree if os.path.isdir(os.path.join(TOP, name)) else shutil.copyfile)(os.path.join(TOP, name), there)
    before = record.sources(copy)
    same(record.sources(copy), before)
    with open(os.path.join(copy, "crates", "fe_words", "src", "op.rt"), "ab") as file:
        file.write(b"\n")
    holds(record.sources(copy) != before, "a changed source has the same sum")


def tracked():
    """The repository's text files: their paths and contents."""
    listed = subprocess.run(["git", "-C", TOP, "ls-files", "-z"], capture_output=True, check=True, text=True).stdout
    for name in listed.split("\0"):
        if name.endswith((".md", ".service", ".toml", ".c", ".h", ".py", ".pc.in", ".3")) and os.path.exists(os.path.join(TOP, name)):
            with open(os.path.join(TOP, name), encoding="utf-8") as file:
                yield name, file.read()


def one_path(place):
    """every text that names the system's socket or store has the same path for it, also the second server that a page makes"""
    strays = []
    count = 0
    for name, text in tracked():
        for number, line in enumerate(text.splitlines(), 1):
            for found in re.findall(r"(?:/var)?/run/[\w./-]*sock\w*|/(?:var|srv)/[\w./-]*\.store\b", line):
                count += 1
                # (`femem@test` has folders of its own)
                if found.replace("/femem-test/", "/femem/") not in (SOCKET, STORE, BACKUP):
                    strays.append(f"{name}:{number}: {found}")
    same(strays, [])
    holds(count > 5, f"only {count} paths were found")
    return f"{count} times"


def one_commit():
    """What keeps a build to the present commit, whatever is committed meanwhile."""
    name, seconds, changed = versions.commit()
    return {"SOURCE_DATE_EPOCH": str(versions.epoch()), "FEMEM_COMMIT": f"{name} {seconds}{' changed' if changed else ''}"}


def one_version(_place):
    """program, clients and man pages name the version of CHANGELOG.md's first heading; a release's date came with the last commit"""
    same(versions.strays(), [])
    holds(not versions.is_dated_before(), f"{versions.number()} was released before: CHANGELOG.md has to begin the next version (CONTRIBUTING.md)")
    return versions.version()


def text_with(place, name, changelog):
    """A repository of the sources that name the version, with another CHANGELOG.md, committed. Returns its path, and what runs git."""
    top = place.path(name)
    sources = [it for it, _ in (*versions.SOURCES, *versions.PYTHON_SOURCES)]
    for path in (*sources, "scripts/version", "scripts/release/versions.py", "scripts/release/__init__.py"):
        os.makedirs(os.path.dirname(os.path.join(top, path)), exist_ok=True)
        shutil.copy(os.path.join(TOP, path), os.path.join(top, path))
    Path(os.path.join(top, "CHANGELOG.md")).write_text(changelog, "utf-8")
    names = {f"GIT_{who}_{what}": "femem@localhost" for who in ("AUTHOR", "COMMITTER") for what in ("NAME", "EMAIL")}

    def git(*words, at="2026-12-01T10:00:00Z"):
        how = ["git", "-C", top, "-c", "init.defaultBranch=main", *words]
        return done(place, how, env={**names, "GIT_AUTHOR_DATE": at, "GIT_COMMITTER_DATE": at})

    git("init", "-q")
    return top, git


def sorts(place, version, other):
    """Whether Debian sorts a version before another."""
    return subprocess.run(["dpkg", "--compare-versions", version, "lt", other], check=False).returncode == 0


def moves(place):
    """each commit has a version above the last, below the release's, for Debian and Python; a release is a dated, tagged, unchanged text"""
    before = "# Changes\n\n## 2.3.0, 2026-11-01\n\n- It is old.\n"
    coming = before.replace("## 2.3.0", "## Unreleased: 2.4.0\n\n- It is new.\n\n## 2.3.0")
    top, git = text_with(place, "text", coming)
    says = lambda *words: done(place, [os.path.join(top, "scripts", "version"), *words]).strip()
    says("write")
    found = []
    for at in ("2026-12-01T10:00:00Z", "2026-12-01T10:00:01Z", "2027-01-01T00:00:00Z"):
        git("add", "--all")
        git("commit", "-q", "--allow-empty", "-m", "one more", at=at)
        found.append(says())
    name = git("rev-parse", "HEAD").strip()
    same((found[-1], says("python")), (f"2.4.0~git20270101000000.{name[:8]}", f"2.4.0.dev20270101000000+{name[:8]}"))
    chain = ["2.3.0", *found, "2.4.0"]
    same([(one, two) for one, two in zip(chain, chain[1:]) if not sorts(place, one, two)], [], "versions that do not rise")
    same((says("sources"), versions.strays(top), says()), ("2.4.0~git", [], found[-1]))
    fault = lambda: (versions.commit.cache_clear(), versions.fault_of_release(top))[1]
    holds("unreleased" in fault(), fault())
    with open(os.path.join(top, "CHANGELOG.md"), "w", encoding="utf-8") as file:
        file.write(coming.replace("## Unreleased: 2.4.0", "## 2.4.0, 2026-12-02"))
    holds("scripts/version write" in fault(), fault())
    says("write")
    holds("no commit" in fault(), fault())
    git("commit", "-q", "-a", "-m", "Version 2.4.0")
    holds("does not have the tag v2.4.0" in fault(), fault())
    git("tag", "v2.4.0")
    same((fault(), says(), says("python")), (None, "2.4.0", "2.4.0"))
    with open(os.path.join(top, "CHANGELOG.md"), "a", encoding="utf-8") as file:
        file.write("\n")
    holds("no commit" in fault(), fault())
    same(versions.is_dated_before(top), False)
    git("commit", "-q", "-a", "-m", "It is not the release any more")
    holds("does not have the tag v2.4.0" in fault() and versions.is_dated_before(top), fault())
    versions.commit.cache_clear()
    return f"{len(chain)} versions"
