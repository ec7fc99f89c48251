"""Makes Debian's source package of the last commit, and of changes of the files in git, and prints its paths.

Usage: scripts/deb_source FOLDER

It has the repository's files and a folder `debian`: control file, rules, changelog from CHANGELOG.md with its own dates, copyright, and
a watch file if FEMEM_HOMEPAGE says where. It needs git and dpkg-source, but no network. The same commit gives the same bytes.
"""

import io
import os
import re
import subprocess
import sys
import tarfile
from pathlib import Path

from . import package, tree, versions
from .tree import TOP, read


def copied(folder):
    """The files in git as they are now, below the folder."""
    changed = versions.git("stash", "create", top=TOP) if versions.commit()[2] else ""
    packed = subprocess.check_output(["git", "-C", TOP, "-c", "tar.umask=0022", "archive", changed or "HEAD"])
    with tarfile.open(fileobj=io.BytesIO(packed)) as archive:
        archive.extractall(folder)
    name, seconds, is_changed = versions.commit()
    Path(os.path.join(folder, versions.EXPORTED)).write_text(f"{name} {seconds}{' changed' if is_changed else ''}\n", "ascii")


def stanza(name):
    """A binary package's part of the source package's control file: what dpkg fills in there stays out."""
    text = read("packaging", "debian", name, "control").decode()
    text = re.sub(r"^(?:Source|Version|Installed-Size|Maintainer|Homepage): .*\n", "", text, flags=re.M)
    return text.replace("@VERSION@", "${binary:Version}").replace("libc6 (>= @LIBC@)", "${shlibs:Depends}")


def debian(folder):
    """Writes the folder `debian`."""
    own = lambda name: read("packaging", "source", name).decode()
    files = {
        "control": "\n".join([tree.filled(own("control")), *(stanza(it) for it in package.PACKAGES)]), "rules": own("rules"),
        "changelog": tree.changelog().decode(),
        "copyright": read("packaging", "debian", "copyright").decode().replace("@LICENSE@", tree.licence()),
        "source/format": "3.0 (native)\n",
    }
    if os.environ.get("FEMEM_HOMEPAGE"):
        files["watch"] = tree.filled(own("watch"))
        files["source/lintian-overrides"] = own("lintian-overrides")
    os.makedirs(os.path.join(folder, "debian", "source"))
    for name, content in files.items():
        path = os.path.join(folder, "debian", name)
        Path(path).write_text(content, "utf-8")
        os.chmod(path, 0o755 if name == "rules" else 0o644)
        os.utime(path, (versions.epoch(), versions.epoch()))


def build(folder):
    """Makes the source package in the folder. Returns its paths."""
    name = f"femem-{versions.version()}"
    os.makedirs(os.path.join(folder, name))
    copied(os.path.join(folder, name))
    debian(os.path.join(folder, name))
    env = {**os.environ, "SOURCE_DATE_EPOCH": str(versions.epoch())}
    subprocess.run(["dpkg-source", "-b", name], cwd=folder, env=env, check=True, stdout=subprocess.DEVNULL)
    return [os.path.join(folder, f"femem_{versions.version()}{it}") for it in (".dsc", ".tar.xz")]


def main():
    if len(sys.argv) != 2:
        sys.exit("usage: scripts/deb_source FOLDER")
    print("\n".join(build(sys.argv[1])))
