"""`patterns.py FEMEM REDIS ROUNDS`: patterns of the Python client, and what redis-py has, in turns. A line of JSON for each.

A lock: the milliseconds of one acquisition and release by a client alone. A queue: the values per second that four processes put
and four take. Redis' queue keeps a value until its taker is done: LPUSH, BLMOVE to a list of the taker's own, and LREM there.
"""

import json
import os
import pathlib
import statistics
import sys
import time

sys.path.insert(0, str(pathlib.Path(__file__).resolve().parents[2] / "clients" / "python"))

import redis  # noqa: E402

from femem import Client  # noqa: E402
from femem.patterns import BoundedQueue, Channel, Lock, Semaphore, WorkQueue  # noqa: E402

SIDES = 4
VALUES = 4000


def step(work, times=200):
    """The median milliseconds of a piece of work."""
    taken = []
    for _ in range(times):
        begin = time.perf_counter()
        work()
        taken.append(time.perf_counter() - begin)
    return 1e3 * statistics.median(taken)


def rate(put, take):
    """Values per second by four processes that put and four that take. Every value is taken once."""
    here, there = os.pipe()
    begin, children = time.perf_counter(), []
    for k in range(SIDES):
        for work in (put, take):
            pid = os.fork()
            if pid == 0:
                status = 1
                try:
                    for value in work(k, VALUES // SIDES) or ():
                        os.write(there, value.to_bytes(8, "big"))
                    status = 0
                finally:
                    os._exit(status)
            children.append(pid)
    os.close(there)
    taken = bytearray()
    while len(taken) < 8 * VALUES:
        more = os.read(here, 65536)
        assert more, "a process ended before it had taken its values"
        taken += more
    spent = time.perf_counter() - begin
    os.close(here)
    assert all(os.waitstatus_to_exitcode(os.waitpid(pid, 0)[1]) == 0 for pid in children), "a process failed"
    values = sorted(int.from_bytes(taken[at : at + 8], "big") for at in range(0, len(taken), 8))
    assert values == list(range(VALUES)), "a value is missing, or was taken twice"
    return VALUES / spent


def femem_rate(path, make):
    def put(k, count):
        with Client(path) as client:
            queue = make(client)
            for value in range(k * count, (k + 1) * count):
                queue.put(value)

    def take(k, count):
        with Client(path) as client:
            queue = make(client)
            for _ in range(count):
                got = queue.get() if hasattr(queue, "get") else None
                if got is None:
                    with queue.take() as job:
                        got = job.value
                yield got

    return rate(put, take)


def redis_rate(path):
    def put(k, count):
        server = redis.Redis(unix_socket_path=path)
        for value in range(k * count, (k + 1) * count):
            server.lpush("queue", value)

    def take(k, count):
        server = redis.Redis(unix_socket_path=path)
        for _ in range(count):
            value = server.blmove("queue", f"taken{k}", 60, "RIGHT", "LEFT")
            server.lrem(f"taken{k}", 1, value)
            yield int(value)

    return rate(put, take)


def calls(path):
    with Client(path) as client:
        word = client.create("calls", 1, full=True)
        begin = time.perf_counter()
        for _ in range(VALUES):
            client.int_fetch_add(word, 0, 1)
        spent = time.perf_counter() - begin
        client.remove(word)
    return VALUES / spent


def redis_lock(path):
    lock = redis.Redis(unix_socket_path=path).lock("lock", timeout=10)
    return step(lambda: (lock.acquire(), lock.release()))


def held(path, make):
    with Client(path) as client:
        what = make(client)
        return step(lambda: (what.acquire(), what.release()))


def main(femem, other, rounds):
    loads = {
        "lock": (lambda: held(femem, lambda client: Lock(client, "lock")), lambda: redis_lock(other)),
        "semaphore": (lambda: held(femem, lambda client: Semaphore(client, "semaphore", 1000)), None),
        "calls": (lambda: calls(femem), None),
        "queue": (lambda: femem_rate(femem, lambda client: BoundedQueue(client, "queue", 64)), lambda: redis_rate(other)),
        "channel": (lambda: femem_rate(femem, lambda client: Channel(client, "channel")), lambda: redis_rate(other)),
        "work queue": (lambda: femem_rate(femem, lambda client: WorkQueue(client, "jobs", 1024)), lambda: redis_rate(other)),
    }
    for name, (mine, theirs) in loads.items():
        told = [[mine(), theirs() if theirs else None] for _ in range(rounds)]
        print(f"{name}\t{json.dumps(told)}", flush=True)


main(sys.argv[1], sys.argv[2], int(sys.argv[3]))
