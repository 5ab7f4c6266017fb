"""Whether a command can be started, as far as its file tells."""
import os
import shutil
from typing import Optional, Sequence

HEAD = 256


def fault_of(words: Sequence[str]) -> Optional[str]:
    """Why a command can't be started, or None where nothing is seen against it. What else there is
    against it only its start shows."""
    name = words[0]
    file = shutil.which(name)
    if file is None:
        return f"{name}: {'not executable' if os.path.isfile(name) else 'no such command'}"
    try:
        with open(file, "rb") as program:
            head = program.read(HEAD)
    except OSError:
        return None  # a program may be run by those who can't read it
    if not head.startswith((b"#!", b"\x7fELF")):
        return f"{name}: no line #! names its interpreter"
    lacks = _lacking(head) if head.startswith(b"#!") else ""
    return f"{name}: its interpreter {lacks!r} can't be started" if lacks else None


def _lacking(head: bytes) -> str:
    """The interpreter that a script's first line names, or what `env` is to run, where it isn't there or can't be run;
    options of env but -S are left to env. A carriage return is one of a word's letters, as it is to the system."""
    line = head[2:].split(b"\n")[0].decode(errors="surrogateescape")
    name, *rest = [it for it in line.replace("\t", " ").split(" ") if it] or [""]
    if name and (not os.path.isfile(name) or not os.access(name, os.X_OK)):
        return name
    rest = rest[1:] if rest[:1] == ["-S"] else rest
    is_left = os.path.basename(name) != "env" or not rest or "=" in rest[0] or rest[0].startswith("-")
    return "" if is_left or shutil.which(rest[0]) else rest[0]
