"""`calls.py FEMEM REDIS ROUNDS`: the Python client and redis-py in turns. Prints a line of JSON for each load."""

import json
import pathlib
import resource
import sys

sys.path.insert(0, str(pathlib.Path(__file__).resolve().parents[2] / "clients" / "python"))

import redis  # noqa: E402

from femem import Client  # noqa: E402


def cost(work, times, operations):
    """Microseconds of this process's processor time for each operation."""
    before = resource.getrusage(resource.RUSAGE_SELF)
    for _ in range(times):
        work()
    after = resource.getrusage(resource.RUSAGE_SELF)
    spent = after.ru_utime + after.ru_stime - before.ru_utime - before.ru_stime
    return spent * 1e6 / times / operations


def main(femem_path, redis_path, rounds):
    other = redis.Redis(unix_socket_path=redis_path)
    with Client(femem_path, 1) as client:
        word = client.create("word", 1, full=True)

        def batch(count):
            with client.pipeline() as pipe:
                for _ in range(count):
                    pipe.int_fetch_add(word, 0, 1)
            return pipe.results[-1]

        def other_batch(count):
            pipe = other.pipeline(transaction=False)
            for _ in range(count):
                pipe.incrby("word", 1)
            return pipe.execute()[-1]

        loads = {
            "call": (lambda: client.int_fetch_add(word, 0, 1), lambda: other.incrby("word", 1), 400, 1),
            "batch 32": (lambda: batch(32), lambda: other_batch(32), 20, 32),
            "batch 1000": (lambda: batch(1000), lambda: other_batch(1000), 2, 1000),
        }
        for name, (mine, theirs, times, operations) in loads.items():
            mine(), theirs()
            told = [[cost(work, times, operations) for work in (mine, theirs)] for _ in range(rounds)]
            print(f"{name}\t{json.dumps(told)}", flush=True)
        # Both servers carried out every operation.
        done = sum((1 + rounds * times) * operations for _, _, times, operations in loads.values())
        assert (client.readff(word, 0), int(other.get("word"))) == (done, done), "an addition is missing"


main(sys.argv[1], sys.argv[2], int(sys.argv[3]))
