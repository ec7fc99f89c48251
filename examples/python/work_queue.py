#!/usr/bin/env python3
"""A work queue: a producer and several workers, each of which may be killed at any moment, and so may the server.

    work_queue.py produce SOCKET SESSION_FILE COUNT    puts the jobs 0 to COUNT - 1, each once
    work_queue.py work SOCKET SESSION_FILE COUNT       works until the results of all COUNT jobs are there

Each process has a session file of its own, and is started again with it after it was killed. Each attempt at a job writes the
same result into the job's word, so a second one does no harm. A worker prints each job that it ends.
"""

import sys

from femem import Client, NameTaken, NotNow, NotOwner, TimedOut
from femem.patterns import WorkQueue


def shared(client, name, length):
    """The array of that name, which the first one makes."""
    try:
        return client.create(name, length)
    except NameTaken:
        return client.find(name)


def length_of_chain(number):
    """The work: how many steps lead from the number to 1, halving it or taking three times it and one."""
    steps = 0
    while number > 1:
        number = number // 2 if number % 2 == 0 else 3 * number + 1
        steps += 1
    return steps


def produce(client, jobs, count):
    for value in range(count):
        jobs.put(value, key=f"job {value}")  # once, however often this program is killed here


def work(client, jobs, count):
    results = shared(client, "results", count)
    while True:
        try:
            with jobs.take(timeout=1) as job:
                client.writexf(results, job.value, length_of_chain(job.value))
            print(job.number, job.value, job.attempt, flush=True)
        except NotOwner:
            pass  # this worker was away, and another one has ended the job
        except TimedOut:
            try:
                return [client.readff(results, value, nowait=True) for value in range(count)]
            except NotNow:
                pass  # others still work, and if they are killed their jobs come back


if __name__ == "__main__":
    what, socket, file, number = sys.argv[1:]
    with Client(socket, session_file=file, reconnect_timeout=None, wait_for_server=True) as own:
        queue = WorkQueue(own, "jobs", 100, attempts=16, away_after=0.5)
        {"produce": produce, "work": work}[what](own, queue, int(number))
