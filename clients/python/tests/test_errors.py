"""What the errors of the server say: the texts of `clients/errors.txt`."""

import pathlib
import re

import paths
from serving import WithFolder

import femem
from femem import Client, _errors as errors

CLIENTS = pathlib.Path(paths.__file__).resolve().parents[2]


def table():
    """The code of each answer and refusal, with the error's name and text."""
    lines = (CLIENTS / "errors.txt").read_text().splitlines()
    rows = [line.split(" ", 2) for line in lines if not line.startswith("#")]
    return {int(code): (name, text) for code, name, text in rows}


class Texts(WithFolder):
    def test_each_answer_and_refusal_has_one(self):
        header = (CLIENTS / "c" / "femem.h").read_text()
        codes = {int(code) for code in re.findall(r"^  FEMEM_[A-Z_]+ = (\d+),", header.partition("/* What the client itself")[0], re.M)}
        self.assertEqual(len(codes - {0}), 18)
        self.assertEqual(set(table()), codes - {0})
        self.assertEqual(set(table()), {*errors.ANSWER_ERRORS, *(100 + code for code in errors.REFUSALS)})

    def test_errors_say_it_behind_what_was_asked(self):
        for code, (name, text) in table().items():
            made = errors.refused(code - 100, "it") if code > 100 else errors.answered(code, "it")
            self.assertIs(type(made), getattr(femem, name))
            self.assertEqual(str(made), f"it: {text}")

    def test_calls_raise_it(self):
        self.server()
        texts = dict(table().values())
        with Client(self.path) as client:
            slot = client.create("slot", 2)
            for asked, name, call in (
                ("create 'Bad' 1", "BadName", lambda: client.create("Bad", 1)),
                (repr("b" * 300), "BadName", lambda: client.create("b" * 300, 1)),
                ("create 'big' 70000", "BadLength", lambda: client.create("big", 70000)),
                (str(2**32), "BadLength", lambda: client.create("big", 2**32)),
                ("create 'big' 65535", "WordLimit", lambda: client.create("big", 65535)),
                ("create 'slot' 1", "NameTaken", lambda: client.create("slot", 1)),
                ("find 'none'", "NoArray", lambda: client.find("none")),
                ("readxx 1 2", "BadIndex", lambda: client.readxx(slot, 2)),
                ("readfe 1 0", "NotNow", lambda: client.readfe(slot, 0, nowait=True)),
            ):
                with self.assertRaises(getattr(femem, name)) as caught:
                    call()
                self.assertEqual(str(caught.exception), f"{asked}: {texts[name]}")
            for number in range(63):
                client.create(f"other_{number}", 1)
            with self.assertRaises(femem.ArrayLimit) as caught:
                client.create("one_more", 1)
            self.assertEqual(str(caught.exception), f"create 'one_more' 1: {texts['ArrayLimit']}")
            with self.assertRaisesRegex(ValueError, "^index is 0 to 4294967295, not 4294967296$"):
                client.readxx(slot, 2**32)

    def test_a_session_too_many_says_the_limit(self):
        self.server()
        clients = [Client(self.path, session) for session in range(64)]
        with self.assertRaises(femem.SessionLimit) as caught:
            Client(self.path, 64)
        text = "the server has 64 sessions, which is the most: 'femem-cli sessions' lists them"
        self.assertEqual(str(caught.exception), f"attach 64: {text}")
        for client in clients:
            client.close()
