#!/usr/bin/env python3
"""Results that are written once: some may be computed twice, and come out differently, and everyone has the same value.

    written_once.py compute SOCKET SESSION_FILE COUNT    computes the results that are not there, and prints what it computed
    written_once.py read SOCKET SESSION_FILE COUNT       waits for each result

Both print each result as they see it."""

import contextlib
import random
import sys
import time

from femem import Client, NotNow
from femem.patterns import shared_array


def estimate(number):
    """The work: an estimate by chance, never the same twice."""
    time.sleep(random.uniform(0.01, 0.03))
    return number * 10**9 + random.randrange(10**9)


def compute(client, results, number):
    with contextlib.suppress(NotNow):
        return client.readff(results, number, nowait=True)  # it is there
    value = estimate(number)
    print("computed", number, value, flush=True)
    with contextlib.suppress(NotNow):  # another one was first
        client.writeef(results, number, value, nowait=True)
    return client.readff(results, number)


if __name__ == "__main__":
    what, socket, file, count = sys.argv[1:]
    with Client(socket, session_file=file, reconnect_timeout=None, wait_for_server=True) as own:
        array = shared_array(own, "results", int(count), False)
        for item in range(int(count)):
            print("sees", item, compute(own, array, item) if what == "compute" else own.readff(array, item), flush=True)
