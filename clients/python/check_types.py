#!/usr/bin/env python3
"""Tries the types with mypy, that of Debian if Python has none: the package, the examples and the page's examples are right under
`--strict`, and mistakes in a program, such as a forgotten `await`, are found. The status is 77 where there is no mypy."""

import os
import pathlib
import re
import subprocess
import sys
import tempfile

ROOT = pathlib.Path(__file__).resolve().parent
EXAMPLES = ROOT.parents[1] / "examples" / "python"
NONE = 77

# Lines of an asyncio program, each with the code of mypy's error, or "".
HEAD = """
from femem.aio import AsyncClient, Lock, Locks, ReadWriteLock, WorkQueue

async def work(client: AsyncClient) -> None:
"""
LINES = [
    ("array = await client.create('cells', 1)", ""),
    ("await client.writeef(array, 0, 42)", ""),
    ("client.writeef(array, 0, 42)", "unused-coroutine"),
    ("lock = Lock(client, 'lock')", ""),
    ("await lock.acquire()", ""),
    ("lock.acquire()", "unused-coroutine"),
    ("lock.release()", "unused-coroutine"),
    ("async with Locks(client, 'orders').of('order 4711'): pass", ""),
    ("job = await WorkQueue(client, 'jobs', 8).take()", ""),
    ("job.done()", "unused-coroutine"),
    ("await job.move(WorkQueue(client, 'next', 8), job.value)", ""),
    ("job.valeu", "attr-defined"),
    ("async with ReadWriteLock(client, 'book').read(timeout=1.0): pass", ""),
    ("with ReadWriteLock(client, 'book').write(): pass", "attr-defined"),
    ("async for one in WorkQueue(client, 'jobs', 8): one.fail()", "unused-coroutine"),
    ("async for two in WorkQueue(client, 'jobs', 8).jobs(timeout=1.0): await two.done()", ""),
    ("for three in WorkQueue(client, 'jobs', 8): pass", "attr-defined"),
]
# The same of threads.
HEAD_OF_THREADS = """
import femem.contrib, femem.events, femem.observer, femem.testing
from femem import Client, NotOwner, requests
from femem.patterns import ReadWriteLock, WorkQueue

def work(client: Client) -> None:
"""
LINES_OF_THREADS = [
    ("with ReadWriteLock(client, 'book').write(timeout=1.0): pass", ""),
    ("ReadWriteLock(client, 'book').raed()", "attr-defined"),
    ("for job in WorkQueue(client, 'jobs', 8).jobs(timeout=1.0): job.done()", ""),
    ("for job in WorkQueue(client, 'jobs', 8): job.valeu", "attr-defined"),
    ("report: femem.Report = client.report()", ""),
    ("error: femem.NotOwner = NotOwner()", ""),
    ("value: str = client.readfe(1, 0)", "assignment"),
    ("client.submit(requests.readfe(1, 0)).result() + ''", "operator"),
    ("client.recovered[0].result().upper()", "union-attr"),
]


def interpreter():
    """One that has mypy."""
    for python in (sys.executable, "/usr/bin/python3"):
        if os.path.exists(python) and not subprocess.run([python, "-m", "mypy", "--version"], capture_output=True, check=False).returncode:
            return python
    print("types: there is no mypy", file=sys.stderr)
    sys.exit(NONE)


PYTHON = interpreter()


def mypy(folder, *words):
    done = subprocess.run(
        [PYTHON, "-m", "mypy", "--strict", "--cache-dir", folder / "cache", *map(str, words)],
        cwd=ROOT, env={**os.environ, "MYPYPATH": str(ROOT)}, capture_output=True, text=True, check=False,
    )  # fmt: skip
    return done.stdout + done.stderr


def wrong_lines(folder):
    """What mypy says otherwise than these lists."""
    for name, head, lines in (("tasks", HEAD, LINES), ("threads", HEAD_OF_THREADS, LINES_OF_THREADS)):
        path = folder / f"{name}.py"
        path.write_text(head + "\n".join(f"    {line}" for line, _ in lines) + "\n")
        said = mypy(folder, path)
        for at, (line, code) in enumerate(lines, head.count("\n") + 1):
            found = [each for each in said.splitlines() if f"{name}.py:{at}: error" in each]
            if bool(found) != bool(code) or code and not any(f"[{code}]" in each for each in found):
                yield f"{line}: {found or 'no error'}\n{said}"


def programs(folder):
    """The examples, those of the page, and each of these with one `await` of a client's call less: with its path, whether it is
    right."""
    texts = [path.read_text() for path in sorted(EXAMPLES.glob("*.py"))]
    texts += re.findall(r"```python\n(.*?)```", (ROOT / "README.md").read_text(), re.DOTALL)
    for number, text in enumerate(texts):
        less = [text[: at.start()] + text[at.end() :] for at in re.finditer(r"await (?=client\.)", text)]
        for which, each in enumerate([text, *less]):
            path = folder / f"program_{number}_{which}.py"
            path.write_text(each)
            yield path, which == 0


def main():
    with tempfile.TemporaryDirectory() as name:
        folder = pathlib.Path(name)
        said = mypy(folder, "femem")
        if not said.startswith("Success"):
            return said
        for wrong in wrong_lines(folder):
            return wrong
        made = list(programs(folder))
        # (a program needs no annotations of its own)
        said = mypy(folder, "--allow-untyped-defs", "--allow-untyped-calls", *[path for path, _ in made])
        for path, is_right in made:
            if (f"{path.name}:" in said) == is_right:
                return f"{path.read_text()}: {'an error' if is_right else 'no error'}\n{said}"
    lines, forgotten = LINES + LINES_OF_THREADS, sum(not is_right for _, is_right in made)
    if len(made) - forgotten < 13 or forgotten < 3:
        return f"{len(made)} programs"
    found = sum(bool(code) for _, code in lines) + forgotten
    print(f"types: {len(lines)} lines, {len(made) - forgotten} programs, {found} mistakes found")
    return 0


if __name__ == "__main__":
    sys.exit(main())
