"""Sentences of users' pages, and the tests of the clients that show them: promises.txt has the pairs, so that the pages need not name
tests. A pair is a line `PAGE: TEST, TEST` and a line with the sentence, two spaces in."""

import re

from .harness import holds
from .texts import matching, text_of, told

FILE = "scripts/check/promises.txt"
# Where a page's tests are, and how one begins there.
TESTS = {
    "clients/python/README.md": (("clients/python/tests/test_*.py",), r"^    (?:async )?def {}\("),
    "clients/c/README.md": (("clients/c/test_*.c", "clients/c/check_*.c"), r"\bvoid {}\("),
}


def pairs():
    """Each page, its tests and its sentence."""
    lines = text_of(FILE).splitlines()
    for head, sentence in zip(lines[::2], lines[1::2]):
        page, names = re.fullmatch(r"([\w/.]+): (\w+(?:, \w+)*)", head).groups()
        holds(page in TESTS and sentence.startswith("  ") and sentence.strip(), f"{FILE}: {head}")
        yield page, names.split(", "), sentence[2:]
    holds(len(lines) % 2 == 0, f"{FILE} ends with half a pair")


def named(page):
    """The tests that are to show a page's sentences."""
    return {name for of, names, _ in pairs() if of == page for name in names}


def kept(_place):
    """each sentence of promises.txt stands in its page word for word, once, its tests exist, and the page names no test"""
    missing, count = [], 0
    for page, (places, form) in TESTS.items():
        text = text_of(page)
        tests = "".join(map(text_of, matching(*places)))
        for names, sentence in [(names, sentence) for of, names, sentence in pairs() if of == page]:
            count += 1
            missing += [] if text.count(sentence) == 1 else [f"{page} has {text.count(sentence)} times: {sentence}"]
            missing += [f"{page}: no test {name}" for name in names if not re.search(form.format(name), tests, re.M)]
        missing += [f"{page} names {it}" for it in re.findall(r"`(test_\w+)`", text)]
    return told(missing, count, 50, "sentences")
