"""Ports of this machine for what a test serves."""
from __future__ import annotations

import errno
import random
import socket
from typing import List

FIRST, END = 10_000, 20_000  # below those that the system gives to connections, and those of shell scripts
CHANCE = random.SystemRandom()
MARKS: List[socket.socket] = []


def free_port() -> int:
    """A port at which nothing listens, and that neither the system gives to a connection nor this function to another
    process or again: so it is free until it is served. Its mark, a name of a socket, goes with this process."""
    while True:
        port, mark = CHANCE.randrange(FIRST, END), socket.socket(socket.AF_UNIX)
        try:
            mark.bind(f"\0farm-tests-{port}")
            with socket.socket() as tried:
                tried.bind(("127.0.0.1", port))
        except OSError as fault:
            mark.close()
            if fault.errno == errno.EADDRINUSE:
                continue
            raise
        MARKS.append(mark)
        return port
