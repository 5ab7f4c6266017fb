"""Keeps what a group left in `out` of its folder, as farm-worker lists and sends it: in a thread of its own, when nothing
of the group lives and its boards are given back, so that nobody waits for it. What is kept is whole in DIR/artifacts/N, or
not there.

What comes was written by a stranger. The worker lists what there is and sends files alone, and here each count, size, depth
and name has a bound. What isn't kept for that is named in the list. Of a junit.xml the test cases are counted, and the first
that failed are named; what the file says of itself in its suites isn't believed."""
import argparse
import collections
import contextlib
import heapq
import json
import os
import re
import shutil
import time
from concurrent import futures
from typing import Any, BinaryIO, Dict, Iterator, List, Tuple
from xml.parsers import expat

from farm_dispatch.record import Record
from farm_dispatch.workers import END, Answer, Away, Worker
from fizgruk import limits
from fizgruk._tools import disk
from fizgruk.artifacts import FOLDER, INDEX, is_name, shown

NEW, OLD = "new-", "old-"
DEEPEST = 16  # folders
MOST_ENTRIES = 100_000  # that are looked at
ENTRY = re.compile(rb"([^\0]*)\0")
MOST_NAMED, LONGEST_SHOWN = 50, 200  # of what is left out
TIME = 300.0  # seconds after which the rest is left out
MARGIN = 67_108_864  # bytes of the disk that are left to others
MOST_TRIES = 20  # of which each ends with an answer that was cut
BLOCK, AT_ONCE, SIZE = 262_144, 200, 20  # bytes; files that are asked for at once; digits of a file's size before its bytes
JUNIT, MOST_JUNIT, DEEPEST_JUNIT = "junit.xml", 10_000_000, 64
MOST_NAMES, LONGEST_NAME = 10, 120  # of tests that failed
# What a case has in it that didn't pass, and by which of several it counts: the first of these.
ENDS = {"error": "errors", "failure": "failed", "skipped": "skipped"}


class Collectors:
    """What is kept of groups of one machine that have ended."""

    def __init__(self, place: str, options: argparse.Namespace):
        """`options` has `artifact_count`, `artifact_limit` and `artifacts_limit`."""
        self.place, self.options = place, options
        self.pool = futures.ThreadPoolExecutor(2)
        self.waits: Dict[int, "futures.Future[Dict[str, Any]]"] = {}

    def are_done(self, record: Record, worker: Worker) -> bool:
        """Whether what a group left is kept, or can't be any more. Begins with that; nobody waits for it here."""
        if record.get("kept") is not None or not record.get("began"):
            return True
        if record.number not in self.waits:
            self.waits[record.number] = self.pool.submit(self._kept, record, worker)
        if not self.waits[record.number].done():
            return False
        wait, tries = self.waits.pop(record.number), int(record.get("tries") or 0) + 1
        fault = wait.exception()
        if isinstance(fault, Away) and tries < MOST_TRIES:
            record.note(tries=tries)
            return False
        if fault is not None:
            record.add_to_log(f"what it left in out isn't kept: {fault}")
        record.note(kept=wait.result() if fault is None else {})
        return True

    def _kept(self, record: Record, worker: Worker) -> Dict[str, Any]:
        """Keeps what a group left. Returns its counts, as its history says them."""
        listed = worker.listed(record.unit)
        if not listed.endswith(END):
            raise Away("its answer was cut")
        entries = entries_of(listed)
        if not entries:
            return {}
        parent = disk.made_for_all(os.path.join(self.place, FOLDER))
        new, old, folder = (os.path.join(parent, f"{it}{record.number}") for it in (NEW, OLD, ""))
        shutil.rmtree(new, ignore_errors=True)
        try:
            found = Collection(disk.made_for_all(new), self.options, entries)
            found.take(worker, record.unit)
            tests = found.tests()
            index: Dict[str, Any] = {"group": record.number, "at": int(time.time()), "files": found.files}
            index.update(left_out=found.left[:MOST_NAMED], more_left_out=len(found.left[MOST_NAMED:]), **tests)
            disk.write_synced(os.path.join(new, INDEX), json.dumps(index, ensure_ascii=False) + "\n")
            os.chmod(os.path.join(new, INDEX), disk.READABLE)
            disk.sync_folder(new)
            shutil.rmtree(old, ignore_errors=True)
            if os.path.lexists(folder):  # (it was put there before a kill)
                os.rename(folder, old)
            os.rename(new, folder)
            disk.sync_folder(parent)
        finally:
            for it in (new, old):
                shutil.rmtree(it, ignore_errors=True)
        record.add_to_log(*found.remarks(tests))
        counts = {"files": len(found.files), "bytes": sum(it["size"] for it in found.files), "left_out": len(found.left)}
        return {"artifacts": counts, **{key: it for key, it in tests.items() if key == "tests"}}


def entries_of(listed: bytes) -> List[Tuple[str, str, int]]:
    """The names, kinds and sizes that farm-worker's list has, but of folders; junit.xml comes first. Raises ValueError."""
    rows = (it[1].decode(errors="surrogateescape").split(" ", 2) for it in ENTRY.finditer(listed.removesuffix(END)))
    found = ((name, kind, int(size)) for kind, size, name in rows if kind != "d")
    return heapq.nsmallest(MOST_ENTRIES, found, key=lambda it: (it[0] != JUNIT, it))  # (of millions no more are in memory)


def parts_of(answer: Answer, size: int) -> Iterator[bytes]:
    """So many bytes of an answer, one part after another. Raises Away."""
    while size:
        part = answer.read(min(size, BLOCK))
        if not part:
            raise Away("its answer was cut")
        size -= len(part)
        yield part


class Collection:
    """What is taken of a packed folder, into another."""

    def __init__(self, to: str, options: argparse.Namespace, entries: List[Tuple[str, str, int]]):
        self.to, self.options = to, options
        about = os.statvfs(to)
        self.room = about.f_bavail * about.f_frsize - MARGIN
        self.files: List[Dict[str, Any]] = []
        self.wanted: Dict[str, int] = {}  # names that will be taken, and their sizes
        self.bytes = 0  # of these
        self.left: List[Dict[str, str]] = []  # what isn't kept, and why
        for name, kind, size in entries:
            why = self._why_not(name, kind, size)
            if why:
                self._leave(name, why)
            else:
                self.wanted[name] = size
                self.bytes += size

    def _why_not(self, name: str, kind: str, size: int) -> str:
        """Why something isn't kept; nothing where it will be."""
        options, bytes_in_all = self.options, self.bytes + size
        reasons = (
            (kind == "l", "a link"), (kind == "x", "it can't be read"), (kind != "f", "no file"),
            (not is_name(name), "its name is too long, or no text"), (name.count("/") > DEEPEST, f"more than {DEEPEST} folders deep"),
            (not 0 <= size <= options.artifact_limit, f"larger than {limits.size_words(options.artifact_limit)}"),
            (len(self.wanted) >= options.artifact_count, f"beyond {options.artifact_count:,} files"),
            (bytes_in_all > options.artifacts_limit, f"beyond {limits.size_words(options.artifacts_limit)} in all"),
            (bytes_in_all > self.room, "the disk is full"),
        )
        return next((why for is_so, why in reasons if is_so), "")

    def _leave(self, name: str, why: str) -> None:
        self.left.append({"name": shown(name, LONGEST_SHOWN), "why": why})

    def remarks(self, tests: Dict[str, Any]) -> List[str]:
        """What the job's log says of what isn't kept, and why nothing is counted."""
        more = f", and {len(self.left) - 1} more" if len(self.left) > 1 else ""
        lines = [f"of out isn't kept: {it['name']} ({it['why']}){more}" for it in self.left[:1]]
        if "no_tests" in tests:
            lines.append(f"the tests of out/{JUNIT} aren't counted: {tests['no_tests']}")
        return lines

    def take(self, worker: Worker, unit: str) -> None:
        """Takes the files. Raises OSError where they can't be written down, and Away where the worker doesn't answer, or its
        answer was cut."""
        names, until = list(self.wanted), time.monotonic() + TIME
        for at in range(0, len(names), AT_ONCE):
            with contextlib.closing(worker.out(unit, names[at : at + AT_ONCE])) as answer:
                for name in names[at : at + AT_ONCE]:
                    if time.monotonic() <= until:
                        self._take(name, answer)
        for name in self.wanted:
            self._leave(name, f"all together took more than {limits.words_of(TIME)}")

    def _take(self, name: str, answer: Answer) -> None:
        """Takes a file that has the size with which it was listed, and passes over another."""
        size, found = self.wanted.pop(name), b"".join(parts_of(answer, SIZE))
        if not found.isdigit():
            raise Away("its answer isn't farm-worker's")
        parts = parts_of(answer, int(found))
        if int(found) != size:
            self._leave(name, "it can't be read")
            collections.deque(parts, 0)
            return
        with open(os.path.join(self.to, str(len(self.files) + 1)), "wb") as copy:
            os.fchmod(copy.fileno(), disk.READABLE)
            copy.writelines(parts)
            copy.flush()
            os.fsync(copy.fileno())
        self.files.append({"number": len(self.files) + 1, "name": name, "size": size})

    def tests(self) -> Dict[str, Any]:
        """The counts of junit.xml, or why there are none where it is there."""
        if not self.files or self.files[0]["name"] != JUNIT:
            return {}
        try:
            with open(os.path.join(self.to, "1"), "rb") as file:
                return {"tests": counts_of(file)}
        except (NoJUnit, MemoryError) as fault:
            return {"no_tests": str(fault) or "it takes too much memory"}


# ---- junit.xml


class NoJUnit(Exception):
    """A file isn't a junit.xml whose tests are counted."""


def counts_of(file: BinaryIO) -> Dict[str, Any]:
    """The counts of an open file. Raises NoJUnit."""
    cases = _Cases()
    if file.seek(0, os.SEEK_END) > MOST_JUNIT:
        raise NoJUnit(f"it has more than {MOST_JUNIT:,} bytes")
    file.seek(0)
    try:
        cases.parser.ParseFile(file)
    except expat.ExpatError as fault:
        raise NoJUnit(f"line {fault.lineno}: {expat.ErrorString(fault.code)}") from fault
    except (LookupError, ValueError) as fault:
        raise NoJUnit("its encoding isn't known") from fault
    return {**cases.found, "names": cases.names}


class _Cases:
    """Goes through a file's elements. A document type, by which entities are declared, ends it."""

    def __init__(self) -> None:
        self.parser = expat.ParserCreate()
        self.parser.StartDoctypeDeclHandler = self._doctype
        self.parser.StartElementHandler = self._begin
        self.parser.EndElementHandler = self._end
        self.depth = self.case_at = 0  # and that of the test case that is open
        self.name = ""
        self.ends: List[str] = []
        self.found = {"passed": 0, **dict.fromkeys(sorted(ENDS.values()), 0)}
        self.names: List[str] = []

    def _doctype(self, *_: object) -> None:
        raise NoJUnit("it has a document type")

    def _begin(self, element: str, fields: Dict[str, str]) -> None:
        self.depth += 1
        if self.depth > DEEPEST_JUNIT:
            raise NoJUnit(f"it is more than {DEEPEST_JUNIT} elements deep")
        if self.depth == 1 and element not in ("testsuites", "testsuite"):
            raise NoJUnit("its first element is no testsuite")
        if element == "testcase" and not self.case_at:
            self.case_at, self.ends = self.depth, []
            parts = [fields.get(it, "") for it in ("classname", "name")]
            self.name = shown(".".join(filter(None, parts)), LONGEST_NAME)
        elif self.case_at == self.depth - 1 and element in ENDS:
            self.ends.append(element)

    def _end(self, _: str) -> None:
        if self.case_at == self.depth:
            ended = next((ENDS[it] for it in ENDS if it in self.ends), "passed")
            self.found[ended] += 1
            if ended in ("failed", "errors") and len(self.names) < MOST_NAMES:
                self.names.append(self.name)
            self.case_at = 0
        self.depth -= 1
