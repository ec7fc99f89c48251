"""Makes the package's wheel and source archive, using only the standard library, so that nothing is fetched for them.

`pip install .` and `python3 -m build --no-isolation` call it; `python3 wheels.py FOLDER` makes both. The same sources give
the same bytes.
"""

import base64
import gzip
import hashlib
import io
import pathlib
import re
import sys
import tarfile
import zipfile

ROOT = pathlib.Path(__file__).resolve().parent

# The modification time of every file in an archive: 2020-01-01.
DATE = (2020, 1, 1, 0, 0, 0)
SECONDS = 1577836800


def _field(name):
    """A text value in pyproject.toml."""
    return re.search(rf'^{name} = "(.*)"$', (ROOT / "pyproject.toml").read_text(), re.MULTILINE)[1]


def _listed(name):
    """The texts of a list in pyproject.toml."""
    found = re.search(rf"^{name} = \[(.*?)\]$", (ROOT / "pyproject.toml").read_text(), re.MULTILINE | re.DOTALL)[1]
    return re.findall(r'"(.*?)"', found)


def _table(name):
    """The lines of a table in pyproject.toml that is one of its last."""
    found = re.search(rf"^\[{name}\]\n(.*?)(?=^\[|\Z)", (ROOT / "pyproject.toml").read_text(), re.MULTILINE | re.DOTALL)
    return found[1].split("\n") if found else []


def _urls():
    """The project's addresses, which a build may give."""
    return [f"Project-URL: {name}, {url}" for name, url in re.findall(r'^(\w+) = "(.*)"$', "\n".join(_table("project.urls")), re.MULTILINE)]


def _description():
    """README.md without links into the repository, which lead nowhere from here."""
    return re.sub(r"\[([^\]]*)\]\(\.\./[^)]*\)", r"\1", (ROOT / "README.md").read_text())


def _license():
    """The licence: next to this file in the source archive, at the top in the repository."""
    beside = ROOT / "LICENSE"
    return (beside if beside.exists() else ROOT.parents[1] / "LICENSE").read_bytes()


def _modules():
    return sorted((ROOT / "femem").rglob("*.py")) + [ROOT / "femem" / "py.typed"]


def _stem():
    return f"{_field('name')}-{_field('version')}"


def _metadata():
    head = [
        "Metadata-Version: 2.1",
        f"Name: {_field('name')}",
        f"Version: {_field('version')}",
        f"Summary: {_field('description')}",
        "Author: the femem authors",
        "License: MIT",
        f"Keywords: {','.join(_listed('keywords'))}",
        *(f"Classifier: {each}" for each in _listed("classifiers")),
        *_urls(),
        f"Requires-Python: {_field('requires-python')}",
        "Description-Content-Type: text/markdown",
        "License-File: LICENSE",
    ]
    return ("\n".join(head) + "\n\n" + _description()).encode()


def _scripts():
    """The commands that an installation creates."""
    lines = [line.replace('"', "") for line in _table("project.scripts") if line]
    return ("[console_scripts]\n" + "".join(line + "\n" for line in lines)).encode()


def build_wheel(wheel_directory, config_settings=None, metadata_directory=None):
    info = f"{_stem()}.dist-info"
    files = {str(path.relative_to(ROOT)): path.read_bytes() for path in _modules()}
    files[f"{info}/LICENSE"] = _license()
    files[f"{info}/METADATA"] = _metadata()
    files[f"{info}/entry_points.txt"] = _scripts()
    files[f"{info}/WHEEL"] = b"Wheel-Version: 1.0\nGenerator: femem\nRoot-Is-Purelib: true\nTag: py3-none-any\n"
    record = ""
    for name, content in files.items():
        digest = base64.urlsafe_b64encode(hashlib.sha256(content).digest()).rstrip(b"=").decode()
        record += f"{name},sha256={digest},{len(content)}\n"
    files[f"{info}/RECORD"] = (record + f"{info}/RECORD,,\n").encode()
    wheel = f"{_stem()}-py3-none-any.whl"
    with zipfile.ZipFile(pathlib.Path(wheel_directory) / wheel, "w") as archive:
        for name, content in files.items():
            entry = zipfile.ZipInfo(name, DATE)
            entry.compress_type = zipfile.ZIP_DEFLATED
            entry.external_attr = 0o644 << 16
            archive.writestr(entry, content)
    return wheel


def build_sdist(sdist_directory, config_settings=None):
    files = {str(path.relative_to(ROOT)): path.read_bytes() for path in _modules()}
    for name in ("pyproject.toml", "README.md", "wheels.py"):
        files[name] = (ROOT / name).read_bytes()
    files["LICENSE"] = _license()
    files["PKG-INFO"] = _metadata()
    name = f"{_stem()}.tar.gz"
    with open(pathlib.Path(sdist_directory) / name, "wb") as file:
        with gzip.GzipFile("", "wb", fileobj=file, mtime=SECONDS) as packed, tarfile.open(fileobj=packed, mode="w") as archive:
            for path, content in sorted(files.items()):
                entry = tarfile.TarInfo(f"{_stem()}/{path}")
                entry.size, entry.mtime = len(content), SECONDS
                archive.addfile(entry, io.BytesIO(content))
    return name


def main(words):
    if len(words) != 1:
        print("usage: wheels.py FOLDER", file=sys.stderr)
        return 2
    pathlib.Path(words[0]).mkdir(parents=True, exist_ok=True)
    for build in (build_wheel, build_sdist):
        print(pathlib.Path(words[0]) / build(words[0]))
    return 0


if __name__ == "__main__":
    sys.exit(main(sys.argv[1:]))
