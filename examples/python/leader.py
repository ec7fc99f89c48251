#!/usr/bin/env python3
"""One of several processes leads, and writes the entries 1 to COUNT into a ledger, which refuses whoever led before.

Usage: leader.py SOCKET SESSION_FILE LEDGER COUNT"""

import contextlib
import fcntl
import sys
import time

from femem import Client, NotOwner
from femem.patterns import Election


def write(ledger, number, entry=None):
    """The ledger's side: `NotOwner` under a smaller number than it has seen. Without an entry it only sees the number."""
    with open(ledger, "a+") as file:
        fcntl.flock(file, fcntl.LOCK_EX)
        file.seek(0)
        seen, last = [(0, 0), *(tuple(map(int, line.split())) for line in file)][-1]
        if number < seen:
            raise NotOwner(f"{seen} leads, not {number}")
        print(number, last if entry is None else entry, file=file)
    return last if entry is None else entry


if __name__ == "__main__":
    socket, session_file, path, count = sys.argv[1:]
    with Client(socket, session_file=session_file, reconnect_timeout=None, wait_for_server=True) as client:
        election, done = Election(client, "leader"), 0
        while done < int(count):
            with contextlib.suppress(NotOwner):  # another one leads now
                leads = election.campaign(takeover_after=0.5)
                print(leads, flush=True)
                done = write(path, leads)  # first its number: nobody who led before writes after this has read
                while done < int(count):
                    time.sleep(0.02)
                    done = write(path, leads, done + 1)
                election.resign()
