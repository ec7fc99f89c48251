"""The patterns in every schedule within the bounds of the scenarios, in some by chance, and in those that once went wrong.

EXPLORE_SECONDS: how long the schedules by chance take, of one processor. EXPLORE_SEED: their seed, of a former run.
EXPLORE_BOUND: a bound, as 3,1,0,0,0, in place of those of each scenario; that may take hours.
"""

import os
import random
import sys
import unittest

import paths  # noqa: F401
from explorer import replay, tried, wander
from scenarios import ALL

SECONDS = float(os.environ.get("EXPLORE_SECONDS", "10"))
SEED = int(os.environ.get("EXPLORE_SEED", random.SystemRandom().randrange(2**32)))
MORE = [list(map(int, os.environ["EXPLORE_BOUND"].split(",")))] if "EXPLORE_BOUND" in os.environ else []

# More schedules than any scenario has: one that has more needs other bounds.
MOST = 20000


def case_of(scenario):
    def test(self):
        found = tried(scenario, MORE, most=None if MORE else MOST)
        self.assertTrue(found.is_whole, str(found))

    bounds = [f"({bound})" for bound in scenario.bounds]
    bounds += [f"({bound}) by whole steps" for bound in scenario.bounds_of_steps]
    test.__doc__ = f"{scenario.name}: whole within " + " or ".join(bounds)
    return test


class EverySchedule(unittest.TestCase):
    """Each scenario, whole within its bounds."""


for name, scenario in ALL.items():
    setattr(EverySchedule, f"test_{name}", case_of(scenario))


class ByChance(unittest.TestCase):
    def test_deeper_schedules(self):
        print(f"schedules by chance: EXPLORE_SEED={SEED}", file=sys.stderr)
        for scenario in ALL.values():
            with self.subTest(scenario.name):
                found = wander(scenario, SEED, SECONDS / len(ALL))
                self.assertIsNone(found.fault, str(found))
                self.assertGreater(found.schedules, 0)


# Schedules in which a pattern went wrong, each with its scenario.
MENDED = [
    # A reader is killed beside a writer that waits for its seat, and comes back: each waited for the other.
    ("rw", "28 kill 1, 29 client 2"),
    ("rw_takeover", "28 kill 1, 29 client 2"),
    ("rw_three", "0 client 2, 30 client 1, 58 kill 1, 59 client 3"),
    ("rw_threads", "0 client 1 caller 1, 56 kill 1, 57 client 2"),
    # The seat of a killed reader stayed held, since a lower one was empty when it came back.
    ("rw_readers", "26 client 2, 54 kill 2, 55 client 1"),
    # All seats were taken: one reader waited for a seat and kept the word, the other was killed and waited for the word.
    ("rw_full", "0 client 2, 27 kill 2, 28 client 1"),
    # A client that read twice waited behind the writer that waited for it.
    ("rw_twice", "27 client 2"),
    # The permit of a killed holder stayed held, since another one was free when it came back.
    ("semaphore", "0 client 2, 46 kill 1"),
    ("semaphore_three", "0 client 2, 27 client 1, 47 kill 1"),
    # The one that does it was killed, or its work raised: all waited for ever, it too.
    ("once", "0 client 2, 4 kill 2"),
    ("once_raises", ""),
    # A reader that was killed with the word OWNER came back, and waited for a seat with it.
    ("rw_full", "0 client 2, 24 kill 2, 25 client 1"),
]


# The same, of whole steps.
MENDED_OF_STEPS = [
    # A take that was cancelled as it waited for a late putter's value kept its claim of the slot.
    ("jobs_cut", "14 client 2, 32 cancel 2"),
]


class Mended(unittest.TestCase):
    def test_schedules(self):
        for mended, is_coarse in ((MENDED, False), (MENDED_OF_STEPS, True)):
            for name, schedule in mended:
                with self.subTest(name, schedule=schedule):
                    replay(ALL[name], schedule, is_coarse=is_coarse)


if __name__ == "__main__":
    unittest.main()
