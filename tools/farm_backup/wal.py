"""A farm's log, in SQLite's WAL format: what is carried from it into the farm's file, and whether
commands stand behind a frame that is damaged.

A header of 32 bytes names the page size, two salts and the sum of its own first bytes. Each frame
behind it has a header of 24 bytes and a page: the page's number, the size of the file in pages
where a commit ends with this frame, the header's salts, and a sum that goes on from the frame
before. Whoever opens the log reads it up to the first frame whose salts or sum are wrong. A log
that begins anew counts its first salt up, and is written over the one before."""
import struct
from typing import Set, Tuple

HEADER, FRAME = 32, 24
WORD = 0xFFFFFFFF

SHORTEST, BLOCK = 512, 1 << 16  # bytes of a page, the longest as a block

Sum = Tuple[int, int]


class Anew(Exception):
    """A log began anew, and nobody knows what stood in the one before."""


class Changes:
    """Which blocks of a farm's file its logs change: those of each page in them, where they are
    looked at so often that no frame is written over unseen."""

    def __init__(self) -> None:
        self.blocks: Set[int] = set()  # since they were taken last
        self.seen = (-1, 0)  # the log's first salt, and how many frames it had

    def taken(self, log: bytes) -> Set[int]:
        """The blocks that were changed up to now. Those of the log as it is now may be changed
        once more, and are the first of the next ones."""
        blocks, self.blocks = self.blocks, set()
        self.look(log)
        return blocks | self.blocks

    def look(self, log: bytes) -> None:
        """Takes in a log as it is now."""
        if len(log) < HEADER:
            return
        page_size, salt = (int.from_bytes(log[it : it + 4], "big") for it in (8, 16))
        whole = len(log) - (len(log) - HEADER) % (FRAME + page_size)
        frames = 0
        for number, salts in struct.iter_unpack(f">I4x8s{8 + page_size}x", log[HEADER:whole]):
            self.blocks.add(max(0, number - 1) * page_size // BLOCK)
            frames += salts == log[16:24]
        before, had = self.seen
        self.seen = salt, frames
        if before not in (-1, salt) and (salt != before + 1 & WORD or frames > had):
            raise Anew("the log began anew")


def sum_of(data: bytes, order: str, before: Sum) -> Sum:
    """SQLite's sum of bytes, which goes on from another."""
    first, second = before
    for one, two in struct.iter_unpack(f"{order}2I", data):
        first = first + one + second & WORD
        second = second + two + first & WORD
    return first, second


def damage(log: bytes) -> int:
    """Where a log's sum is wrong, and commits of the same log stand behind it; 0 where there is no such place. (One commit
    alone is what a desk leaves that is killed as it writes it, the first frame last, and so is a head without a frame.)"""
    if len(log) < HEADER + FRAME + SHORTEST:
        return 0
    magic, _, page_size = struct.unpack_from(">III", log)
    order = ">" if magic & 1 else "<"
    now = sum_of(log[:24], order, (0, 0))
    if now != struct.unpack_from(">II", log, 24):
        return FRAME
    wrong = commits = 0
    for at in range(HEADER, len(log) - FRAME - page_size + 1, FRAME + page_size):
        commit, salts, said = struct.unpack_from(">I8s8s", log, at + 4)
        is_of_this = salts == log[16:24]
        if not wrong:
            page = log[at + FRAME : at + FRAME + page_size]
            now = sum_of(page, order, sum_of(log[at : at + 8], order, now))
            if is_of_this and struct.pack(">II", *now) == said:
                continue
            wrong = at
        elif is_of_this and commit:
            commits += 1
    return wrong if commits > 1 else 0
