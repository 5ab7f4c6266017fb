"""What runs in a unit of a hold: it takes what its door hands over, and is that: a pump between a session and a line, a
look at a record, calls of a power switch, or a command. It ends with its door, whatever hangs.

And what consoles said, with the moments: a file a hold, for a day, for its owner and the admins. They are root's. A file
is an asciicast (version 2, as `asciinema play` takes it): a line that says whose hold it is, and a line for what came at
once. A byte that is no UTF-8 stands as Python's surrogate escapes have it. What people typed isn't kept, but for what the
board gave back of it, since it may be a password.
"""
import contextlib
import fcntl
import glob
import json
import os
import select
import signal
import socket
import threading
import time
from typing import Any, Callable, Dict, Iterator, List, Optional, Tuple

FAULT, NOT_RUN, NO_COMMAND = 4, 126, 127
BLOCK, SMALL = 65536, 4096
PARTS = 50  # of a second's bytes, which are handed on at once
INTERRUPT = b"i"
RECORDS = "/var/lib/farm-access/consoles"
SUFFIX = ".cast"
MOST_OF_RECORD, MOST_OF_BOARD, HEAD = 100_000_000, 1_000_000_000, 4096
LOOKS, DAY = 0.05, 86400


def say(text: str) -> None:
    line = "".join(it if it.isprintable() else "?" for it in text)
    os.write(2, f"farm-access: {line}\r\n".encode(errors="replace"))


# ---- records


def opened_for(board: str, hold: str, person: str) -> Tuple[int, float]:
    """The record of a hold's console, and the moment of its begin. One use writes it at a time: BlockingIOError where
    another session of the hold has the console."""
    os.makedirs(os.path.join(RECORDS, board), mode=0o700, exist_ok=True)
    remove_old_records(board)
    file = record_of(board, hold)
    opened = os.open(file, os.O_RDWR | os.O_CREAT | os.O_APPEND | os.O_CLOEXEC | os.O_NOFOLLOW, 0o600)
    fcntl.flock(opened, fcntl.LOCK_EX | fcntl.LOCK_NB)  # (goes with the open file to the pump)
    began = time.time()
    if os.fstat(opened).st_size:
        return opened, float(_head_of(file).get("timestamp", began))
    about = {"FARM_BOARD": board, "FARM_HOLD": hold, "FARM_PERSON": person}
    head = {"version": 2, "width": 80, "height": 24, "timestamp": int(began), "env": about}
    os.write(opened, f"{json.dumps(head)}\n".encode())
    return opened, began


def keep(record: int, began: float, said: bytes) -> None:
    """Adds what a console said, where there is room for it."""
    if os.fstat(record).st_size < MOST_OF_RECORD:
        row = [round(time.time() - began, 3), "o", said.decode(errors="surrogateescape")]
        with contextlib.suppress(OSError):
            os.write(record, f"{json.dumps(row)}\n".encode())


def record_of(board: str, hold: str) -> str:
    return os.path.join(RECORDS, board, f"{hold.replace(' ', '-')}{SUFFIX}")


def opened_to_read(file: str) -> int:
    return os.open(file, os.O_RDONLY | os.O_CLOEXEC | os.O_NOFOLLOW)


def records_of(board: str) -> List[str]:
    """The records of a board, the newest first."""
    return sorted(glob.glob(f"{RECORDS}/{board}/*{SUFFIX}"), key=os.path.getmtime, reverse=True)


def last_record_of(board: str, person: str, is_admin: bool) -> Optional[str]:
    """The newest record of a board that is this person's to see."""
    records = records_of(board)
    return next((it for it in records if is_admin or _head_of(it).get("env", {}).get("FARM_PERSON") == person), None)


def said_in(opened: int, is_watched: bool) -> Iterator[bytes]:
    """What a record has, and, where it is watched, what is added."""
    left = b""
    while True:
        said = os.read(opened, BLOCK)
        if not said and not is_watched:
            return
        if not said:
            time.sleep(LOOKS)
        *whole, left = (left + said).split(b"\n")
        yield b"".join(_said_of(it) for it in whole)


def remove_old_records(board: str) -> None:
    """Removes the records of a board to which nothing was added for a day, and of the others the oldest, until there is
    room for one more."""
    room = MOST_OF_BOARD - MOST_OF_RECORD
    with contextlib.suppress(FileNotFoundError):  # (another process does the same)
        for file in records_of(board):
            about = os.stat(file)
            room -= about.st_size
            if room < 0 or about.st_mtime < time.time() - DAY:
                os.unlink(file)


def _head_of(file: str) -> Dict[str, Any]:
    """What the first line says; nothing where a machine's stop left none."""
    with contextlib.suppress(OSError, ValueError), open(file, "rb") as opened:
        head = json.loads(opened.readline(HEAD))
        return head if isinstance(head, dict) and isinstance(head.get("env"), dict) else {}
    return {}


def _said_of(line: bytes) -> bytes:
    with contextlib.suppress(ValueError):
        row = json.loads(line)
        if isinstance(row, list) and len(row) == 3 and row[1] == "o":
            return str(row[2]).encode(errors="surrogateescape")
    return b""


# ---- what a unit is


def beside(does: Callable[[], None]) -> None:
    """Does it in a thread, without which the unit ends."""

    def does_it() -> None:
        with contextlib.suppress(OSError):
            return does()
        os._exit(FAULT)

    threading.Thread(target=does_it, daemon=True).start()


def main() -> None:
    door = socket.socket(fileno=os.dup(0))
    door.send(b"r")
    text, opened, _, _ = socket.recv_fds(door, BLOCK, 16)
    if not text:
        os._exit(NOT_RUN)
    told: Dict[str, Any] = json.loads(text)
    for number, each in enumerate(opened[:3]):
        os.dup2(each, number)
        os.close(each)
    if told["kind"] == "run":
        run(door, told)

    def end_with_door() -> None:
        door.recv(1)
        os._exit(FAULT)

    beside(end_with_door)
    if told["kind"] == "power":
        os._exit(switch(told, opened[3:]))
    try:
        if told["kind"] == "watch":
            for said in said_in(opened[3], True):
                show(said)
        pump(told, *opened[3:])
    except OSError:
        os._exit(FAULT)
    os._exit(0)


def run(door: socket.socket, told: Dict[str, Any]) -> None:
    """A command. Its end is the end of all that it started, since that of this process ends the unit."""
    signal.signal(signal.SIGINT, signal.SIG_DFL)  # (one that comes before the command has begun ends it too)
    child = os.fork()
    if not child:
        try:
            os.execve(told["words"][0], told["words"], told["environment"])
        except OSError as fault:
            say(f"{told['words'][0]}: {fault.strerror}")
        os._exit(NO_COMMAND)

    def wait() -> None:
        code = os.waitstatus_to_exitcode(os.waitpid(child, 0)[1])
        os._exit(code if code >= 0 else 128 - code)

    beside(wait)
    while door.recv(1) == INTERRUPT:
        os.kill(child, signal.SIGINT)
    os._exit(FAULT)


def switch(told: Dict[str, Any], opened: List[int]) -> int:
    """Calls of pdudaemon's, each over a line of its own."""
    for each, path in zip(opened, told["paths"]):
        with socket.socket(fileno=each) as line:
            line.settimeout(10.0)
            try:
                line.sendall(f"GET {path} HTTP/1.0\r\nhost: pdudaemon\r\n\r\n".encode())
                said = b"".join(iter(lambda: line.recv(SMALL), b""))
            except OSError as fault:
                said = str(fault).encode()
        if said.split(b" ")[1:2] != [b"200"]:
            head = said.split(b"\r\n")[0].decode(errors="replace")
            say(f"pdudaemon: {head}")
            return FAULT
        time.sleep(told["pause"])
    return 0


def show(said: bytes) -> None:
    """Shows it to who has the session, unless he is gone."""
    gone = select.poll()
    gone.register(1, 0)
    if gone.poll(0):
        os._exit(FAULT)
    write_whole(1, said)


def write_whole(to: int, said: bytes) -> None:
    while said:
        said = said[os.write(to, said) :]


def pump(told: Dict[str, Any], line: int, kept: int = -1) -> None:
    """Bytes both ways, with no process in between: `rate` bytes a second to the line at most."""
    said = told["first"].encode("latin-1")
    beside(lambda: hand_on(told, line))
    while True:
        if said and kept >= 0:
            keep(kept, told["began"], said)
        show(said)
        if select.select([line], [], [], 0.5)[0]:
            said = os.read(line, BLOCK)
            if not said:
                return
        else:
            said = b""


def hand_on(told: Dict[str, Any], line: int) -> None:
    most = int(max(1, min(SMALL, told["rate"] / PARTS)))
    while True:
        said = os.read(0, most)
        if not said:
            if told["ends"]:  # nothing more comes; the answer may still
                socket.socket(fileno=os.dup(line)).shutdown(socket.SHUT_WR)
            return
        write_whole(line, said)
        time.sleep(len(said) / told["rate"])


if __name__ == "__main__":
    main()
