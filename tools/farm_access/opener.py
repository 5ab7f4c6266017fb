"""The opener (`python3 opener.py`): all of farm-access that may open a device or hang one up, told by root in fixed words,
`open FILE BAUD` and `hangup FILE`. It hands over what it opened. Beside it, for the door: lines to addresses, which need
no right.

A line is cut, not closed, also by kill -9: what the kernel hasn't sent yet is dropped, so that nothing of one party
reaches the board in the next one's hold.
"""
import contextlib
import fcntl
import os
import select
import socket
import stat
import struct
import termios
import time
import tty
from typing import Any, Callable, Dict, Mapping, NoReturn, Sequence, Tuple, Type, TypeVar

SOCKET = "/run/farm-access-opener.socket"
TIOCVHANGUP = 0x5437  # whoever has the terminal open has it no more, wherever he is
MOST, MOST_AT_ONCE = 512, 32
PATIENCE = 5.0
BUSY = b"Port already in use"  # ser2net, while the line before is being closed
CUT = struct.pack("ii", 1, 0)
SMALL = 4096
LINE_PATIENCE, CONNECTS_WITHIN, GREETS_WITHIN = 15.0, 5.0, 0.2
BAUD = 115200
T = TypeVar("T")


# ---- what servers of sockets share


def again(seconds: float, pause: float, tries: Callable[[], T], fault: Type[Exception]) -> T:
    """What `tries` gives, which is tried again for so many seconds where this fault is in its way."""
    until = time.monotonic() + seconds
    while True:
        try:
            return tries()
        except fault:
            if time.monotonic() > until:
                raise
        time.sleep(pause)


def peer_of(line: socket.socket) -> Tuple[int, int]:
    """The process and the account at the other end."""
    pid, uid, _ = struct.unpack("3i", line.getsockopt(socket.SOL_SOCKET, socket.SO_PEERCRED, 12))
    return pid, uid


def serve(there: Sequence[socket.socket], most_of: Callable[[int], int], does: Callable[[socket.socket], None]) -> NoReturn:
    """A child for each that connects, and so many of each account at once."""
    uses: Dict[int, int] = {}
    while True:
        for it in select.select(there, [], [], 1.0)[0]:
            line = it.accept()[0]
            uid = peer_of(line)[1]
            if sum(other == uid for other in uses.values()) < most_of(uid):
                child = os.fork()
                if not child:
                    for other in there:
                        other.close()
                    try:
                        does(line)
                    finally:
                        os._exit(0)
                uses[child] = uid
            line.close()
        while uses and (ended := os.waitpid(-1, os.WNOHANG)[0]):
            uses.pop(ended, None)


# ---- devices


def asked(*words: str) -> int:
    """What the opener hands over for these words; -1 where that is nothing."""
    with socket.socket(socket.AF_UNIX) as line:
        line.settimeout(PATIENCE * 2)
        line.connect(SOCKET)
        line.sendall(" ".join(words).encode())
        fault, opened, _, _ = socket.recv_fds(line, MOST, 1)
        if fault != b"\n":
            raise OSError(fault.decode(errors="replace") or "the opener gives no answer")
    return opened[0] if opened else -1


def opened_device(file: str) -> int:
    """A terminal of /dev, open; it waits for nothing."""
    opened = os.open(os.path.realpath(file), os.O_RDWR | os.O_NOCTTY | os.O_NONBLOCK | os.O_CLOEXEC)
    if not stat.S_ISCHR(os.fstat(opened).st_mode) or not os.path.realpath(file).startswith("/dev/"):
        os.close(opened)
        raise OSError(f"{file}: it is no device")
    return opened


def set_raw(line: int, baud: int) -> None:
    """A serial line as bytes, with no modem's lines, and nothing of before in it."""
    speed = getattr(termios, f"B{baud}", None)
    if speed is None:
        raise OSError(f"{baud} is no speed of a serial line")
    tty.setraw(line)
    mode = termios.tcgetattr(line)
    mode[2] |= termios.CLOCAL | termios.CREAD
    mode[4] = mode[5] = speed
    termios.tcsetattr(line, termios.TCSANOW, mode)
    termios.tcflush(line, termios.TCIOFLUSH)


def hang_up(file: str) -> None:
    opened = opened_device(file)
    if os.isatty(opened):
        fcntl.ioctl(opened, TIOCVHANGUP)
        os.close(opened)
        opened = opened_device(file)
        set_raw(opened, BAUD)  # (a hang-up sets modes that give all back that comes)
    os.close(opened)


def one(line: socket.socket) -> None:
    """Serves one that asks, who has to be root."""
    line.settimeout(PATIENCE)
    with contextlib.suppress(OSError, UnicodeDecodeError):
        words = line.recv(MOST).decode().split(" ") if peer_of(line)[1] == 0 else []
        try:
            if words[:1] == ["hangup"] and len(words) == 2:
                hang_up(words[1])
                line.sendall(b"\n")
            elif words[:1] == ["open"] and len(words) == 3:
                opened = opened_device(words[1])
                set_raw(opened, int(words[2]))
                os.set_blocking(opened, True)
                socket.send_fds(line, [b"\n"], [opened])
        except (OSError, ValueError, termios.error) as fault:
            line.sendall(f"{words[1]}: {fault}".encode()[:MOST])


# ---- addresses


def open_console(console: Mapping[str, Any], patience: float = LINE_PATIENCE) -> Tuple[int, bytes]:
    """A console's line, and its first bytes where they came at once."""
    if "device" in console:
        return asked("open", console["device"], str(int(console.get("baud", BAUD)))), b""
    return open_address(str(console.get("tcp") or console["unix"]), patience, greets=True)


def open_address(address: str, patience: float = LINE_PATIENCE, whose: str = "", greets: bool = False) -> Tuple[int, bytes]:
    """A line to HOST:PORT, or to a socket's path. A console server, which greets, and hasn't let go
    of the line before, is asked again."""

    def opened() -> Tuple[int, bytes]:
        line = connected(address)
        first = line.recv(SMALL) if greets and select.select([line], [], [], GREETS_WITHIN)[0] else b""
        if first.startswith(BUSY):
            line.close()
            raise OSError("the console server says that the port is in use")
        return line.detach(), first

    try:
        return again(patience, 0.1, opened, OSError)
    except OSError as fault:
        raise OSError(f"{whose}{address}: {fault}") from fault


def connected(address: str, seconds: float = CONNECTS_WITHIN) -> socket.socket:
    if address.startswith("/"):
        line = socket.socket(socket.AF_UNIX)
        line.settimeout(seconds)
        line.connect(address)
    else:
        host, _, port = address.rpartition(":")
        line = socket.create_connection((host.strip("[]"), int(port)), seconds)
        line.setsockopt(socket.SOL_SOCKET, socket.SO_LINGER, CUT)
        line.setsockopt(socket.IPPROTO_TCP, socket.TCP_NODELAY, 1)
    line.setsockopt(socket.SOL_SOCKET, socket.SO_SNDBUF, SMALL)
    line.settimeout(None)
    return line


if __name__ == "__main__":
    serve([socket.socket(fileno=3)], lambda _: MOST_AT_ONCE, one)
