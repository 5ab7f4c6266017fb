"""The guard: root's, without a capability. It kills what is below farm-hold.slice and has no hold any more, and can do
nothing else to a process; it reads no file that anybody else writes. Beside that it has the door clean up behind holds
where nobody comes, and tells the page which ways boards have and who is there."""
import contextlib
import json
import os
import socket
import subprocess
import sys
import threading
import time
from typing import Any, Dict, Iterable, List, NoReturn, Optional, Set, Tuple

from farm_access import door, holds, inner, site as sites
from farm_access.holds import ADMIN, FREE, BoardSeen, Lookout, NoDesk
from fizgruk._tools import disk
from fizgruk._tools.service import Teller, Troubles

tell = Teller("farm-access: guard")
LOOKS, NEXT, MOST = 0.25, 1.0, 8  # seconds between looks, before a look beside one that has no answer, looks at once
HOUR, REST = 3600.0, 5.0
SHOWN = "/var/lib/farm-access/shown/access.json"
SHUT = "{0}: it is shut, since it can't be cleaned up behind a hold: `farm-access tidy {0}` says why"


def right_of(boards: Dict[str, BoardSeen]) -> Set[str]:
    """The slices of what goes on."""
    found = {holds.slice_of(it.name, it.hold) for it in boards.values() if it.hold}
    return found | {holds.slice_of(it.name, ADMIN) for it in boards.values() if it.holder == FREE}


def slice_of(unit: str) -> str:
    return os.path.basename(os.path.dirname(unit))


def ended(units: Iterable[str]) -> List[str]:
    """Ends units, but those that run between two holds. Returns what is in the way."""
    of_holds = [it for it in units if not slice_of(it).endswith(f"-{sites.AFTER}{holds.SLICE}")]
    return [f"{os.path.basename(it)} can't be killed" for it in of_holds if not holds.kill(it)]


class HoldGuard:
    """What the guard knows from one look to the next."""

    def __init__(self) -> None:
        self.site = sites.read_file(sites.FILE)
        self.lookout = Lookout(self.site)
        self.asking: List[threading.Thread] = []
        self.tidies: Dict[str, Tuple["subprocess.Popen[bytes]", float]] = {}
        self.troubles = Troubles(tell)
        self.shown = ""
        self.turn = threading.Lock()

    def run(self) -> NoReturn:
        """Guards until it is killed. However late an answer comes: what was there before the desk was asked, and has no
        hold in its answer, ends."""
        last = cleans = 0.0
        notify = socket.socket(socket.AF_UNIX, socket.SOCK_DGRAM)
        while True:
            now = time.monotonic()
            self.asking = [it for it in self.asking if it.is_alive()]
            if not self.asking or (now - last > NEXT and len(self.asking) < MOST):
                last = now
                self.asking.append(threading.Thread(target=self.look, daemon=True))
                self.asking[-1].start()
            if now >= cleans:
                cleans = now + HOUR
                for board in os.listdir(inner.RECORDS):
                    inner.remove_old_records(board)
            with contextlib.suppress(OSError, KeyError):
                notify.sendto(b"WATCHDOG=1", os.environ["NOTIFY_SOCKET"].replace("@", "\0", 1))
            time.sleep(LOOKS)

    def look(self) -> None:
        there = holds.units_of()
        found = ended(it for it in there if not self.has_key(it))
        try:
            boards = self.lookout.boards()
            right = right_of(boards)
            found += ended(it for it in there if slice_of(it) not in right)
            with self.turn:
                self.tidy(boards)
                found += self.show(boards)
        except (NoDesk, OSError) as fault:
            found.append(str(fault))  # a desk that is down ends no hold
        self.troubles.are(*found)

    def has_key(self, unit: str) -> bool:
        """Whether who has a unit still has the key by which he came. A job came by none."""
        told = holds.told_of(unit)
        return not told or str(told["key"]) in map(sites.mark_of, sites.keys_in(self.site.keys, str(told["person"])))

    def tidy(self, boards: Dict[str, BoardSeen]) -> None:
        """Has the door clean up behind holds that have ended."""
        for board in boards.values():
            last = holds.last_of(board.name)
            if last in (holds.UNKNOWN, board.hold) or board.is_held_by(last):
                continue
            before, at = self.tidies.get(board.name, (None, 0.0))
            if (before is None or before.poll() is not None) and time.monotonic() - at > REST:
                words = [sys.executable, sys.argv[0], "tidy", board.name]
                self.tidies[board.name] = (subprocess.Popen(words, stdin=subprocess.DEVNULL), time.monotonic())

    def show(self, boards: Dict[str, BoardSeen]) -> List[str]:
        """Writes for the status page which ways boards have and who is there, where that changed. Says which are shut."""
        shut = {it: disk.text_in(f"{holds.RUN}/{it}.shut") for it in boards}
        text = json.dumps({"boards": {it.name: self.shown_of(it, shut[it.name]) for it in boards.values()}})
        if text != self.shown:
            disk.write_whole(SHOWN, text)
            self.shown = text
        return [SHUT.format(name) for name, since in shut.items() if since]

    def shown_of(self, board: BoardSeen, shut: Optional[str]) -> Dict[str, Any]:
        told = filter(None, map(holds.told_of, holds.units_of(board.name)))
        there = [{key: it[key] for key in ("person", "way", "since")} for it in told]
        ways = door.told_of(door.ways_of(self.site, board))
        return {"ways": ways, "sessions": there, **({"shut": int(shut)} if shut else {})}
