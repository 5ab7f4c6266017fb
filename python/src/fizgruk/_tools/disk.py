"""Files that a machine's stop leaves whole, locks that end with the process that has them, and files
that others may have made."""
import errno
import fcntl
import json
import os
import stat
import time
from typing import Any, Dict, Optional, Union

MOST = 1_048_576  # bytes of a file of a tool's own, of which none is near that
PAUSE = 0.05
READABLE = 0o644  # by the proxy's user and other tools too


def sync_folder(folder: str) -> None:
    """Waits until the names in a folder are on the disk."""
    opened = os.open(folder, os.O_RDONLY | os.O_DIRECTORY)
    try:
        os.fsync(opened)
    finally:
        os.close(opened)


def made_for_all(folder: str) -> str:
    """A folder whose files others may read by their names."""
    os.makedirs(folder, exist_ok=True)
    os.chmod(folder, 0o711)
    return folder


def write_whole(file: str, text: str, mode: int = READABLE) -> None:
    """Writes a file whole or not at all; a machine that stops may lose it."""
    with open(f"{file}.new", "w", encoding="utf-8", errors="replace", newline="") as new:
        os.fchmod(new.fileno(), mode)
        new.write(text)
    os.replace(f"{file}.new", file)


def write_synced(file: str, text: str) -> None:
    """Writes a file whole or not at all, and waits until it is on the disk."""
    with open(f"{file}.new", "w", encoding="utf-8", errors="replace", newline="") as new:
        new.write(text)
        new.flush()
        os.fsync(new.fileno())
    os.replace(f"{file}.new", file)
    sync_folder(os.path.dirname(file))


def opened_file(file: str) -> int:
    """A file that others may have made, open to be read. Raises OSError where a link, a pipe or a
    device stands in its place, and waits for nobody."""
    opened = os.open(file, os.O_RDONLY | os.O_NOFOLLOW | os.O_NONBLOCK | os.O_CLOEXEC)
    if stat.S_ISREG(os.fstat(opened).st_mode):
        return opened
    is_folder = stat.S_ISDIR(os.fstat(opened).st_mode)
    os.close(opened)
    if is_folder:
        raise IsADirectoryError(errno.EISDIR, os.strerror(errno.EISDIR), file)
    raise OSError(f"{file} is no file")


def take_lock(file: str, mode: int = 0o640) -> Optional[int]:
    """The open file, locked until its last copy is closed, or None where another has the lock."""
    opened = os.open(file, os.O_RDWR | os.O_CREAT | os.O_CLOEXEC | os.O_NOFOLLOW, mode)
    try:
        fcntl.flock(opened, fcntl.LOCK_EX | fcntl.LOCK_NB)
    except BlockingIOError:
        os.close(opened)
        return None
    return opened


def take_lock_in_time(file: str, seconds: float) -> Optional[int]:
    """The same, where another may have it for a moment: it is tried for so many seconds."""
    for _ in range(round(seconds / PAUSE)):
        lock = take_lock(file)
        if lock is not None:
            return lock
        time.sleep(PAUSE)
    return None


def object_of(said: Union[str, bytes]) -> Dict[str, Any]:
    """The object that a text of others is in JSON; one without keys where it is none."""
    try:
        found = json.loads(said)
    except (ValueError, RecursionError):
        return {}
    return found if isinstance(found, dict) else {}


def object_in(file: str, most: int = MOST) -> Dict[str, Any]:
    """The object that a file has; one without keys where it has none, or isn't there."""
    try:
        return object_of(text_in(file, most) or "")
    except Strange:
        return {}


class Strange(ValueError):
    """A file isn't of the kind that it was made as."""


def text_in(file: str, most: int = MOST) -> Optional[str]:
    """A file's text, with a mark for each byte that is none; None where there is no such file.
    Raises Strange where it is no file, or longer."""
    try:
        with open(opened_file(file), "rb") as opened:
            size = os.fstat(opened.fileno()).st_size
            if size > most:
                raise Strange(f"{file} has {size:,} bytes")
            return opened.read(most).decode(errors="replace")
    except FileNotFoundError:
        return None
    except OSError as fault:
        raise Strange(f"{file}: {fault.strerror}" if fault.strerror else str(fault)) from fault
