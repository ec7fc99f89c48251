"""The installed package: built without a network, installed in its own environment, and run once."""

import os
import pathlib
import re
import subprocess
import sys
import tarfile
import tempfile

import paths
from serving import WithFolder

import femem

ROOT = pathlib.Path(paths.__file__).resolve().parents[1]

# No package index may be used.
ALONE = {"PIP_NO_INDEX": "1", "PIP_DISABLE_PIP_VERSION_CHECK": "1"}


class Package(WithFolder):
    def setUp(self):
        super().setUp()
        folder = tempfile.TemporaryDirectory()
        self.addCleanup(folder.cleanup)
        self.folder = pathlib.Path(folder.name)

    def run_it(self, *words, where=None):
        env = {name: value for name, value in os.environ.items() if name != "PYTHONPATH"}
        words = [str(word) for word in words]
        done = subprocess.run(
            words, cwd=where or self.folder, env={**env, **ALONE}, capture_output=True, text=True, timeout=300
        )
        self.assertEqual(done.returncode, 0, done.stdout + done.stderr)
        return done.stdout

    def test_the_version_is_one(self):
        self.assertIn(f'\nversion = "{femem.__version__}"\n', (ROOT / "pyproject.toml").read_text())
        header = (ROOT.parent / "c" / "femem.h").read_text()
        # (what Debian writes ~git is .dev0 in Python)
        self.assertEqual(re.search(r'FEMEM_VERSION "(.*)"', header)[1].replace("~git", ".dev0"), femem.__version__)

    def test_a_wheel_is_installed_and_its_shell_runs(self):
        self.server()
        self.run_it(sys.executable, ROOT / "wheels.py", "dist")
        wheel = self.folder / "dist" / f"femem-{femem.__version__}-py3-none-any.whl"
        self.run_it(sys.executable, "-m", "venv", "env")
        own = self.folder / "env" / "bin"
        self.run_it(own / "python", "-m", "pip", "install", "--no-deps", "--no-compile", wheel)
        self.assertEqual(self.run_it(own / "femem-shell", self.path, "report"), "waiting 0\n")
        where = self.run_it(own / "python", "-c", "import femem; print(femem.__version__, femem.__file__)").split()
        self.assertEqual(where[0], femem.__version__)
        self.assertTrue(where[1].startswith(str(self.folder)), where[1])
        shown = self.run_it(own / "python", "-m", "pip", "show", "--files", "femem")
        for line in (f"Version: {femem.__version__}", "License: MIT", "  femem/py.typed", "  femem/contrib/prometheus.py", f"  femem-{femem.__version__}.dist-info/LICENSE"):
            self.assertIn(line + "\n", shown)

    def test_the_source_archive_gives_the_same_wheel(self):
        self.run_it(sys.executable, ROOT / "wheels.py", "dist")
        stem = f"femem-{femem.__version__}"
        with tarfile.open(self.folder / "dist" / f"{stem}.tar.gz") as archive:
            archive.extractall(self.folder)
        self.run_it(sys.executable, "wheels.py", self.folder / "again", where=self.folder / stem)
        for name in (f"{stem}-py3-none-any.whl", f"{stem}.tar.gz"):
            first, second = ((self.folder / each / name).read_bytes() for each in ("dist", "again"))
            self.assertEqual(first, second, name)
