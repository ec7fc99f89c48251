"""Checks that must fail, each by what other checks rest on. scripts/must_fail compares the last line that is said of them with LAST."""

import sys
import time

from . import counted
from .clients import output_of
from .harness import Skipped, checks_in, holds, same, until, within
from .texts import told


def different(_place):
    """two values that differ are the same"""
    same(1, 2)


def untrue(_place):
    """what does not hold holds"""
    holds(False, "it does not")


def never(_place):
    """what never comes comes in time"""
    until(lambda: False, 0.01, "it never comes")


def missing(_place):
    """nothing is missing where something is"""
    told(["something"], 1, 1, "things")


def few(_place):
    """less than the least is enough"""
    told([], 1, 2, "things")


def uncounted(_place):
    """no test of the Python client ran, and that is as many as there are"""
    counted.compare("python", {})


def broken(_place):
    """a check that breaks has passed"""
    raise ValueError("it breaks")


@within(1)
def late(place):
    """a check may take longer than its deadline"""
    time.sleep(2 * place.options.patience)


def status(place):
    """a program that fails has passed"""
    output_of(place, ["false"], 10)


def lacking(_place):
    """a check that this machine can't run has passed"""
    raise Skipped("this is only tried")


CHECKS = checks_in(sys.modules[__name__])
LAST = f"0 passed, {len(CHECKS)} failed (1 of them not run here: must_fail: this is only tried)"
