"""A client in Python that shares a lock, a lock of a key, or a semaphore with those of check_patterns.c, or a barrier:
`partner.py SOCKET FILE WHICH NUMBER`. It is killed and started again with its session file."""

import os
import sys

sys.path.insert(0, os.path.join(os.path.dirname(os.path.realpath(__file__)), "..", "python"))

from femem import Client  # noqa: E402
from femem import patterns  # noqa: E402

LEAST, ROUNDS = 40, 30


def word_of(client, name):
    return patterns.shared_array(client, name, 1, True)


def hold_on(client, held, permits, number, mask, done):
    """Acquires and releases; byte `number` of the mask says that this program is inside."""
    own = 1 << 8 * number
    while True:
        held.acquire()
        before = client.readff(mask, 0)
        if not before & own:
            before = client.int_fetch_add(mask, 0, own)
        inside = sum(before >> 8 * k & 255 != 0 for k in range(8) if k != number)
        if inside >= permits or before & own and not held.adopted:
            sys.exit(3)
        client.int_fetch_add(mask, 0, 2**64 - own)
        held.release()
        if client.int_fetch_add(done, number, 1) >= LEAST and client.readff(done, 8):
            return


def meet(client, number):
    """Rounds of a barrier: when it opens, all have counted."""
    barrier = patterns.Barrier(client, "meeting", 3)
    count = word_of(client, "met")
    for turn in range(ROUNDS):
        client.int_fetch_add(count, 0, 1)
        barrier.wait(120)
        if client.readff(count, 0) < 3 * (turn + 1):
            sys.exit(4)


def main(socket, file, which, number):
    with Client(socket, session_file=file, reconnect_timeout=60) as client:
        if which == "barrier":
            meet(client, number)
        else:
            mask, done = word_of(client, f"{which}_in"), client.find(f"{which}_done")
            if which == "lock":
                hold_on(client, patterns.Lock(client, "shared"), 1, number, mask, done)
            elif which == "keyed":
                hold_on(client, patterns.Locks(client, "orders", 64).of("order 4711"), 1, number, mask, done)
            else:
                hold_on(client, patterns.Semaphore(client, "permits", 2), 2, number, mask, done)
        client.bye()


main(sys.argv[1], sys.argv[2], sys.argv[3], int(sys.argv[4]))
