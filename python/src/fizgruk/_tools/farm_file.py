"""A farm's file, its log beside it, and the program that opens them."""
import contextlib
import os
import sqlite3
from typing import TypeVar

LOG = "-wal"
F = TypeVar("F", bound="FarmFile")


class FarmFile:
    """A farm that no desk of this process serves."""

    def __init__(self, name: str, program: str):
        """`name` may be a link: the log lies beside the file that it leads to, as for a desk."""
        self.name, self.db = os.path.basename(name), os.path.realpath(name)
        self.home, self.log, self.program = os.path.dirname(self.db), f"{self.db}{LOG}", program

    def within(self: F, folder: str) -> F:
        """The farm of the same name in another folder."""
        return type(self)(os.path.join(folder, self.name), self.program)

    def put_in_one(self) -> None:
        """Carries the log into the file, which then goes without one."""
        with contextlib.closing(sqlite3.connect(self.db)) as tables:
            tables.execute("PRAGMA journal_mode = delete")
        with contextlib.suppress(FileNotFoundError):
            os.unlink(self.log)
        with open(self.db, "rb") as file:
            os.fsync(file.fileno())


def line_of(said: bytes) -> str:
    """What a program wrote, in a line; nothing where it wrote nothing."""
    return " ".join(said.decode(errors="replace").split())
