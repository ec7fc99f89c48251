"""What the clients' pages name is in the clients: functions, errors and codes of C, methods and their arguments of Python."""

import ast
import inspect
import os
import re
import sys

from .harness import same
from .texts import NAME, TOP, exists, text_of, told

sys.path.insert(0, os.path.join(TOP, "clients", "python"))

import femem  # noqa: E402
import femem.patterns  # noqa: E402

C_PAGE, PYTHON_PAGE = "clients/c/README.md", "clients/python/README.md"


def of_c(_place):
    """each function, error, test file and range of errors that the C client's page names is in its header, or in its folder"""
    header, page = text_of("clients/c/femem.h"), text_of(C_PAGE)
    missing, count = [], 0
    for number, line in enumerate(page.split("\n"), 1):
        for name in NAME.findall(line):
            if found := re.fullmatch(r"((?:femem|FEMEM)_\w+?)(_?\.\.\.)?", name):
                count += 1
                form = rf"\b{found[1]}_" if found[2] else rf"\b{found[1]}\b"
                missing += [] if re.search(form, header) else [f"{C_PAGE}:{number}: femem.h has no {name}"]
            if re.fullmatch(r"\w+\.[ch]", name):
                count += 1
                missing += [] if exists("clients", "c", name) else [f"{C_PAGE}:{number}: no {name}"]
    codes = {name: int(code) for name, code in re.findall(r"^  (FEMEM_\w+) = (\d+),", header, re.M)}
    answers = re.search(r"`(FEMEM_\w+)` \.\. `(FEMEM_\w+)` \((\d+) to (\d+)\)", page).groups()
    same([codes[it] for it in answers[:2]], [int(it) for it in answers[2:]], "answers")
    refused = [code for name, code in codes.items() if name.startswith("FEMEM_REFUSED_")]
    said = re.search(r"`FEMEM_REFUSED_\.\.\.` \((\d+) to (\d+)\)", page).groups()
    same([min(refused), max(refused)], [int(it) for it in said], "refusals")
    short = re.search(r"A client with its own session can get (.*?): another", page)[1]
    missing += [f"{C_PAGE}: no {it}" for it in NAME.findall(short) if f"FEMEM_REFUSED_{it}" not in codes]
    return told(missing, count, 90, "names")


def takes(function, arguments):
    """What is wrong with these arguments of a function, as `value, timeout=None`: how many have no default, and each default."""
    parameters = inspect.signature(function).parameters
    given = [it.partition("=")[::2] for it in arguments.split(", ") if it]
    plain = [it for it, _ in given if not any(it == name for name, default in given if default) and not it.startswith("*")]
    needed = [it for it, kind in parameters.items() if kind.default is kind.empty and kind.kind is kind.POSITIONAL_OR_KEYWORD and it != "self"]
    if len(plain) != len(needed):
        yield f"takes {needed}"
    for name, default in given:
        if default and (name not in parameters or parameters[name].default != ast.literal_eval(default)):
            yield f"has no {name}={default}"


def tables_of(page):
    """The cells of a page's tables, with the numbers of their lines."""
    for number, line in enumerate(page.split("\n"), 1):
        if line.startswith("| `"):
            yield number, [cell.strip() for cell in line.strip("|").split("|")]


def of_python(_place):
    """each method in the tables of the Python client's page is there, with the arguments and defaults that the page gives"""
    missing, count = [], 0
    for number, cells in tables_of(text_of(PYTHON_PAGE)):
        owner, named = femem.Client, cells[0]
        if re.match(r"`[A-Z]", cells[0]):
            made, sizes = re.match(r"`(\w+)\((.*)\)`", cells[0]).groups()
            owner, named = getattr(femem.patterns, made), cells[1]
            constructors = [it.__init__ for it in owner.__mro__ if "__init__" in vars(it)]
            own = next(it for it in constructors if "sizes" not in inspect.signature(it).parameters)
            missing += [f"{PYTHON_PAGE}:{number}: {made} {it}" for it in takes(own, sizes)]
        for name, arguments in re.findall(r"`(\w+)(\([^`]*\))?`", named):
            count += 1
            function = getattr(owner, name, None)
            if name not in ("with", "for") and function is None:
                missing.append(f"{PYTHON_PAGE}:{number}: {owner.__name__} has no {name}")
            elif arguments:
                missing += [f"{PYTHON_PAGE}:{number}: {name} {it}" for it in takes(function, arguments[1:-1])]
    return told(missing, count, 55, "methods")
