#!/usr/bin/env python3
"""Several processes add lines to orders, each of which is a file. Only who has the order's lock changes it.

Usage: orders.py SOCKET SESSION_FILE FOLDER NAME COUNT    adds the lines "NAME 0" to "NAME COUNT-1", each once"""

import os
import sys
import time

from femem import Client
from femem.patterns import Locks

ORDERS = 7


def add_line(path, line):
    """Adds the line, unless an earlier process of this session has. A kill leaves the old file or the new one."""
    lines = []
    if os.path.exists(path):
        with open(path) as file:
            lines = file.read().splitlines()
    if line not in lines:
        time.sleep(0.005)  # some work, with the lock
        with open(f"{path}.new", "w") as file:
            file.write("".join(f"{it}\n" for it in [*lines, line]))
        os.replace(f"{path}.new", path)


if __name__ == "__main__":
    socket, session_file, folder, name, count = sys.argv[1:]
    with Client(socket, session_file=session_file, reconnect_timeout=None, wait_for_server=True) as client:
        locks = Locks(client, "orders", 1000)
        for step in range(int(count)):
            order = f"order {step % ORDERS}"
            with locks.of(order):  # at once, if an earlier process of this session was killed with it
                add_line(os.path.join(folder, order), f"{name} {step}")
