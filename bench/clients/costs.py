"""`costs.py FEMEM REDIS ROUNDS`: what patterns and waits cost a Python client, beside what redis-py has, in turns.

Prints a line of JSON for each load: the microseconds of the process's processor time for an operation, each time of both. One
client has the patterns to itself.
"""

import asyncio
import json
import pathlib
import resource
import sys

sys.path.insert(0, str(pathlib.Path(__file__).resolve().parents[2] / "clients" / "python"))

import redis  # noqa: E402
import redis.asyncio  # noqa: E402

from femem import Client, requests  # noqa: E402
from femem.aio import AsyncClient  # noqa: E402
from femem.patterns import BoundedQueue, Channel, Lock, ReadWriteLock, Semaphore, WorkQueue  # noqa: E402

WAITING = 31


def spent():
    used = resource.getrusage(resource.RUSAGE_SELF)
    return 1e6 * (used.ru_utime + used.ru_stime)


def cost(work, times):
    before = spent()
    for _ in range(times):
        work()
    return (spent() - before) / times


def tell(name, rounds, times, mine, theirs):
    mine(), theirs()
    print(f"{name}\t{json.dumps([[cost(work, times) for work in (mine, theirs)] for _ in range(rounds)])}", flush=True)


def held(lock):
    assert lock.acquire()
    lock.release()


def reads(lock):
    assert lock.acquire_read()
    lock.release_read()


def writes(lock):
    assert lock.acquire_write()
    lock.release_write()


def handed(queue):
    queue.put(7)
    assert queue.get() == 7


def pushed(other):
    other.lpush("values", 7)
    assert other.brpop("values")[1] == b"7"


def worked(queue):
    queue.put(7)
    with queue.take() as job:
        assert job.value == 7


def streamed(other):
    other.xadd("jobs", {"value": 7})
    ((_, ((entry, fields),)),) = other.xreadgroup("group", "one", {"jobs": ">"}, count=1, block=1000)
    assert fields == {b"value": b"7"} and other.xack("jobs", "group", entry) == 1


def patterns(femem_path, redis_path, rounds):
    other = redis.Redis(unix_socket_path=redis_path)
    lock = other.lock("lock", timeout=60)
    other.xgroup_create("jobs", "group", mkstream=True)
    with Client(femem_path) as client:
        own, book, semaphore = Lock(client, "cost_lock"), ReadWriteLock(client, "cost_book"), Semaphore(client, "cost_semaphore", 10)
        queue, channel, jobs = BoundedQueue(client, "cost_queue", 64), Channel(client, "cost_channel"), WorkQueue(client, "cost_jobs", 256)
        tell("lock", rounds, 60, lambda: held(own), lambda: held(lock))
        tell("read", rounds, 30, lambda: reads(book), lambda: held(lock))
        tell("write", rounds, 30, lambda: writes(book), lambda: held(lock))
        tell("semaphore", rounds, 60, lambda: held(semaphore), lambda: held(lock))
        tell("queue", rounds, 60, lambda: handed(queue), lambda: pushed(other))
        tell("channel", rounds, 100, lambda: handed(channel), lambda: pushed(other))
        tell("work queue", rounds, 40, lambda: worked(jobs), lambda: streamed(other))


def waiting(femem_path, redis_path, rounds):
    other = redis.Redis(unix_socket_path=redis_path)
    with Client(femem_path) as client:
        word, empty = client.create("beside", 1, full=True), client.create("empty", WAITING)
        futures = [client.submit(requests.readfe(empty, index)) for index in range(WAITING)]
        for _ in range(200):
            client.int_fetch_add(word, 0, 1)
        tell("31 wait", rounds, 400, lambda: client.int_fetch_add(word, 0, 1), lambda: other.incrby("beside", 1))
        for index in range(WAITING):
            client.writeef(empty, index, index)
        assert [future.result(10) for future in futures] == list(range(WAITING))


async def tasks(femem_path, redis_path, rounds):
    other = redis.asyncio.Redis(unix_socket_path=redis_path)
    async with AsyncClient(femem_path) as client:
        word = await client.create("tasks", 1, full=True)

        async def mine():
            assert len(await client.submit_many([requests.int_fetch_add(word, 0, 1)] * 1000)) == 1000

        async def theirs():
            pipe = other.pipeline(transaction=False)
            for _ in range(1000):
                pipe.incrby("tasks", 1)
            assert len(await pipe.execute()) == 1000

        loads = {
            "asyncio call": (lambda: client.int_fetch_add(word, 0, 1), lambda: other.incrby("tasks", 1), 200, 1),
            "asyncio batch": (mine, theirs, 2, 1000),
        }
        for name, (one, two, times, operations) in loads.items():
            await one()
            await two()
            told = []
            for _ in range(rounds):
                told.append([])
                for work in (one, two):
                    before = spent()
                    for _ in range(times):
                        await work()
                    told[-1].append((spent() - before) / times / operations)
            print(f"{name}\t{json.dumps(told)}", flush=True)
        assert await client.readff(word, 0) == int(await other.get("tasks")), "an addition is missing"
    await other.close()


def main(femem_path, redis_path, rounds):
    patterns(femem_path, redis_path, rounds)
    waiting(femem_path, redis_path, rounds)
    asyncio.run(tasks(femem_path, redis_path, rounds))


main(sys.argv[1], sys.argv[2], int(sys.argv[3]))
