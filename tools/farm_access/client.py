"""What sshd runs whatever it is asked for, and what a job runs: it asks the door, and hands it its terminal. It has no
rights; the door knows by itself who asks."""
import json
import os
import select
import signal
import socket
import sys
import termios
import tty

from farm_access.inner import FAULT, said_in, say

SSH, JOBS = "/run/farm-access-ssh.socket", "/run/farm-access-jobs.socket"
MOST = 65536
AS_BYTES = ("console", "tcp")


def session() -> int:
    """Serves what sshd was asked for."""
    with open(os.environ.get("SSH_USER_AUTH") or os.devnull, encoding="utf-8", errors="replace") as opened:
        auth = opened.read(MOST)
    return ask(SSH, os.environ.get("SSH_ORIGINAL_COMMAND", ""), auth)


def ask(place: str, words: str, auth: str = "") -> int:
    """Asks the door. Returns the status."""
    door = socket.socket(socket.AF_UNIX)
    try:
        door.connect(place)
    except OSError as fault:
        say(f"the door to the boards isn't open: {fault}")
        return FAULT
    for number in (signal.SIGTERM, signal.SIGHUP):
        signal.signal(number, _leave)
    signal.signal(signal.SIGINT, lambda *_: door.send(b"i"))
    before = termios.tcgetattr(0) if os.isatty(0) and words.split(" ")[1:2] in [[it] for it in AS_BYTES] else None
    if before:
        tty.setraw(0)
    asked = {"words": words, "auth": auth, "term": os.environ.get("TERM", ""), "from": os.environ.get("SSH_CONNECTION", "")}
    try:
        socket.send_fds(door, [json.dumps(asked).encode()], [0, 1, 2])
        return told_by(door)
    except OSError:
        return FAULT
    finally:
        if before:
            termios.tcsetattr(0, termios.TCSANOW, before)


def _leave(*_: object) -> None:
    raise OSError("told to end")


def told_by(door: socket.socket) -> int:
    """Tells what the door says, until it says the status, or who asked is gone."""
    gone = select.poll()
    gone.register(1, 0)
    gone.register(door, select.POLLIN)
    said, status = b"", FAULT
    while not any(it != door.fileno() for it, _ in gone.poll()):
        more, records, _, _ = socket.recv_fds(door, MOST, 1)
        *lines, said = (said + more).split(b"\n")
        for told in map(json.loads, lines):
            status = int(told.get("status", status))
            if "print" in told:
                print(told["print"], flush=True)
            if "say" in told:
                say(str(told["say"]))
        for block in (it for each in records for it in said_in(each, False)):
            sys.stdout.buffer.write(block)
        if not more:
            break
    sys.stdout.flush()
    return status
