"""A worker in Python of check_moves.c: `mover.py SOCKET FILE`. It moves jobs from a queue to the next, until it is told to end.
It is killed and started again."""

import os
import sys

sys.path.insert(0, os.path.join(os.path.dirname(os.path.realpath(__file__)), "..", "python"))

from femem import Client, NotOwner, TimedOut, requests  # noqa: E402
from femem.patterns import Counter, WorkQueue, shared_array  # noqa: E402

with Client(sys.argv[1], session_file=sys.argv[2], reconnect_timeout=60) as client:
    sizes = (8, 400, 400)
    stages = [WorkQueue(client, f"stage_{k}", capacity=sizes[k], attempts=16, away_after=0.5) for k in range(3)]
    over = shared_array(client, "over", 1, False)
    moved = Counter(client, "moved_by_python")
    turn = 0
    while isinstance(client.submit_many([requests.readff(over, 0, nowait=True)])[0], BaseException):
        turn = 1 - turn
        try:
            job = stages[turn].take(timeout=0.05)
            stages[turn + 1].put(job.value + 1000, for_job=job)
            moved.add()
        except (NotOwner, TimedOut):
            pass
    client.bye()
