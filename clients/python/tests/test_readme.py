"""The examples of the README run unchanged, except for the path."""

import contextlib
import io
import pathlib
import re
import threading

import paths  # noqa: F401
from serving import WithFolder

ROOT = pathlib.Path(paths.__file__).resolve().parents[1]
README = ROOT / "README.md"


class Readme(WithFolder):
    def test_examples(self):
        self.server()
        examples = re.findall(r"```python\n(.*?)```", README.read_text(), re.DOTALL)
        self.assertEqual(len(examples), 8)
        for example in examples:
            wanted = re.findall(r"print\(.*# ([^;\n]+)", example)
            out = io.StringIO()
            with contextlib.redirect_stdout(out):
                exec(example.replace("/run/femem/femem.socket", self.path).replace("/tmp/readme", self.path), {"__name__": "example"})
            self.assertEqual(out.getvalue().splitlines(), [text.strip() for text in wanted])
        self.assertEqual([t.name for t in threading.enumerate() if t.name.startswith("femem session")], [])
