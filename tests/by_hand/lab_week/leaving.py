"""What jobs of the week leave in out/, each by the name of a kind, and what of that is to be kept, by farm-dispatch(8). The
command notes the job once all of it is left."""
from __future__ import annotations

from typing import Any, Dict, NamedTuple, Optional

COUNT, ONE, ALL = 8, 20_000, 60_000  # files, bytes of one and of all that are kept of a group
BOUNDS = ["--artifact-count", f"{COUNT}", "--artifact-limit", f"{ONE}", "--artifacts-limit", f"{ALL}"]
JUNIT = "junit.xml"
CASES = {"passed": (2, ""), "failed": (11, "<failure/>"), "errors": (1, "<error/>"), "skipped": (3, "<skipped/>")}
TESTED = "".join(["<testsuite>\n", *(f'<testcase classname="{kind}" name="t{it + 1}">{end}</testcase>\n'
                                     for kind, (count, end) in CASES.items() for it in range(count)), "</testsuite>\n"])
# (of those that failed or had an error ten are named)
TESTS: Dict[str, Any] = {**{kind: count for kind, (count, _) in CASES.items()}, "names": [f"failed.t{it}" for it in range(1, 11)]}
UNREAD = "<!DOCTYPE x>\n<testsuite/>\n"


class Left(NamedTuple):
    """What a job leaves by its shell: files by their sizes, how many of them are kept, and why others aren't whatever there is
    room for."""

    run: str
    sizes: Dict[str, int] = {}
    kept: int = 0
    why: Dict[str, str] = {}
    tests: Optional[Dict[str, Any]] = None

    def text(self, job: int, name: str) -> bytes:
        """What stands in a file."""
        if name == JUNIT:
            return (TESTED if self.tests else UNREAD).encode()
        line = f"{job} {name}\n".encode()
        return (line * (self.sizes[name] // len(line) + 1))[: self.sizes[name]]


def left_by(sizes: Dict[str, int], kept: int, run: str = "", tests: bool = False, **why: str) -> Left:
    """What leaves these files, and does this; a whole junit.xml where there are tests."""
    more = {JUNIT: len(TESTED)} if tests else {}
    words = [*(f"file {name} {size}" for name, size in sizes.items()), *["junit"] * tests, *([run] if run else [])]
    return Left("; ".join(words), {**sizes, **more}, kept, why, TESTS if tests else None)


KINDS = {
    "": Left(":"),
    "logs": left_by({"log": 1234, "a/b/boot": 5, "empty": 0}, 3),
    "tests": left_by({"log": 300}, 2, tests=True),
    "large": left_by({"log": 10, "core": 30_000}, 1, core="larger than"),
    "many": left_by({f"many{it}": 100 for it in range(COUNT + 3)}, COUNT),
    # (the junit.xml is kept before all others)
    "room": left_by({f"part{it}": 15_000 for it in range(5)}, 4, tests=True),
    "odd": left_by({"log": 5}, 1, "ln -s /etc/passwd passwd; ln -s /etc folder; mkfifo pipe",
                   passwd="a link", folder="a link", pipe="no file"),
    "unread": Left("unread", {JUNIT: len(UNREAD)}, 1),
    # (a link in the place of out is none of it)
    "gone": Left('rmdir "$FARM_FOLDER/out"; ln -s /etc "$FARM_FOLDER/out"'),
}
COMMAND = f"""file() {{
    case $1 in */*) mkdir -p "${{1%/*}}" ;; esac
    yes "$FARM_JOB $1" | head -c "$2" > "$1"
}}
junit() {{ cat > {JUNIT} << 'END'
{TESTED}END
}}
unread() {{ cat > {JUNIT} << 'END'
{UNREAD}END
}}
if [ -n "$leaves" ]; then
    mkdir -p "$FARM_FOLDER/out"
    cd "$FARM_FOLDER/out" || exit 9
    case $leaves in
    {"    ".join(f'{name}) {it.run} ;;{chr(10)}' for name, it in KINDS.items() if name)}    esac
    echo "$FARM_JOB" >> "$LEFT"
    cd "$FARM_FOLDER" || exit 9
fi
"""
