#!/usr/bin/env python3
"""Three stages over work queues: each item goes through once, though processes and the server are killed at any moment.

Usage: pipeline.py feed|parse|square|store SOCKET SESSION_FILE COUNT"""

import contextlib
import sys

from femem import Client, NotNow, NotOwner, TimedOut
from femem.patterns import WorkQueue, shared_array

NEXT = {"parse": ("square", lambda it: it + 1), "square": ("store", lambda it: it * it), "store": ("", lambda it: int(it**0.5) - 1)}


def stage(client, queues, what, count):
    results = shared_array(client, "stored", count, False)
    while True:
        try:
            with queues[what].take(timeout=1) as job:
                name, work = NEXT[what]
                if name:
                    job.move(queues[name], work(job.value))  # into the next queue, and done, in one step
                else:
                    client.writexf(results, work(job.value), job.value)
            print(job.number, job.value, flush=True)
        except NotOwner:
            pass  # this process was away, and another one has moved or done the job
        except TimedOut:
            with contextlib.suppress(NotNow):  # others still work
                return [client.readff(results, item, nowait=True) for item in range(count)]


if __name__ == "__main__":
    what, socket, file, number = sys.argv[1:]
    with Client(socket, session_file=file, reconnect_timeout=None, wait_for_server=True) as own:
        all_queues = {name: WorkQueue(own, name, 100, attempts=16, away_after=0.5) for name in ("parse", "square", "store")}
        if what != "feed":
            stage(own, all_queues, what, int(number))
        for item in range(int(number) if what == "feed" else 0):
            all_queues["parse"].put(item, key=f"item {item}")
