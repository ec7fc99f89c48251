"""What is meant to be used: named in `__all__`, documented, and shown under the name that programs use."""

import dataclasses
import importlib
import inspect
import pathlib
import pickle
import pkgutil
import sys
import traceback
import typing
import unittest

import paths

import femem
from femem._calls import faced

ROOT = pathlib.Path(paths.__file__).resolve().parents[1]


def modules():
    found = [module.name for module in pkgutil.walk_packages(femem.__path__, "femem.")]
    return ["femem", *(name for name in found if not any(part.startswith("_") for part in name.split(".")))]


def members(kind):
    """The public methods and properties of a class that are not the standard library's."""
    for name in dir(kind):
        owner = next(each for each in kind.__mro__ if name in vars(each))
        if name.startswith("_") or not (owner.__module__.split(".")[0] == "femem" or issubclass(owner, tuple)):
            continue
        found = inspect.getattr_static(kind, name)
        if isinstance(found, (property, staticmethod, classmethod, faced)) or inspect.isfunction(found):
            yield name, getattr(kind, name) if not isinstance(found, property) else found


class Public(unittest.TestCase):
    def setUp(self):
        sys.path.append(str(ROOT / "tests" / "stand_ins"))  # for femem.contrib, where the packages are not installed
        self.addCleanup(sys.path.pop)

    def test_each_public_module_names_what_it_is_for(self):
        names = modules()
        self.assertEqual(
            names,
            ["femem", "femem.aio", "femem.contrib", "femem.contrib.opentelemetry", "femem.contrib.prometheus", "femem.events",
             "femem.observer", "femem.patterns", "femem.requests", "femem.testing"],
        )  # fmt: skip
        for name in names:
            with self.subTest(name):
                module = importlib.import_module(name)
                self.assertTrue(module.__doc__)
                self.assertEqual(sorted(module.__all__), module.__all__)
                self.assertEqual([each for each in module.__all__ if not hasattr(module, each)], [])
                star = {}
                exec(f"from {name} import *", star)
                self.assertEqual(sorted(set(star) - {"__builtins__"}), module.__all__)

    def test_each_public_name_is_documented(self):
        count, bare = 0, []
        for name in modules():
            module = importlib.import_module(name)
            for each in module.__all__:
                found = getattr(module, each)
                if inspect.isclass(found):
                    inner = list(members(found))
                    count += len(inner)
                    bare += [f"{name}.{each}.{method}" for method, it in inner if not inspect.getdoc(it)]
                if inspect.isclass(found) or inspect.isfunction(found):
                    count += 1
                    bare += [] if inspect.getdoc(found) else [f"{name}.{each}"]
        self.assertEqual(bare, [])
        self.assertGreater(count, 300)

    def test_each_class_is_shown_as_programs_name_it(self):
        for name in modules():
            module = importlib.import_module(name)
            for each in module.__all__:
                found = getattr(module, each)
                if inspect.isclass(found):
                    self.assertNotIn("._", found.__module__, each)
                    self.assertIs(getattr(importlib.import_module(found.__module__), found.__name__), found)
                    self.assertIsInstance(typing.get_type_hints(found), dict)  # what its annotations name is found
        try:
            raise femem.NotOwner("lock is free")
        except femem.NotOwner as error:
            self.assertEqual(traceback.format_exception_only(type(error), error), ["femem.NotOwner: lock is free\n"])

    def test_what_is_a_value_is_pickled(self):
        errors = [each for each in vars(femem).values() if inspect.isclass(each) and issubclass(each, femem.FememError)]
        self.assertGreater(len(errors), 30)
        for kind in errors:
            again = pickle.loads(pickle.dumps(kind("why")))
            self.assertIs(type(again), kind)
            self.assertEqual(str(again), "why")
        waiter = femem.Waiter(1, 0, 7, 0, "readfe")
        for value in (femem.Array(1, 2), waiter, femem.Report("", [waiter], {7: 1}, True)):
            self.assertEqual(pickle.loads(pickle.dumps(value)), value)
            self.assertEqual(list(typing.get_type_hints(type(value))), [field.name for field in dataclasses.fields(value)])

    def test_the_kinds_of_events_are_those_of_the_table(self):
        kinds = [line.split("`")[1] for line in femem.events.__doc__.splitlines() if line.startswith("| `")]
        self.assertEqual(list(femem.events.KINDS), kinds)


if __name__ == "__main__":
    unittest.main()
