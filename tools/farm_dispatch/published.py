"""What the dispatcher publishes in its folder, for people and other tools.

Of the past the history's lines of the groups that ended, and their logs, by which a proxy serves them: a file a job, whose
name is its number. Of the present, for who looks at many jobs at once: running.json, the jobs that it runs, with when each
began and how long it may, and since when people hold boards; waiting.json, what the groups of the queue are called and want,
and when they were submitted; workers.json, which machines answer; notes.json, the lab's notes of boards. The desk would have to
be asked for each job, and doesn't say since when a board is held."""
import contextlib
import json
import os
import re
import shutil
import time
from typing import Any, Callable, Dict, List, Optional, Set, Tuple

from farm_dispatch.record import LOGS, Record
from fizgruk import artifacts, calls, job_file, notes, records
from fizgruk._tools import disk
from fizgruk.errors import Unreachable
from fizgruk.submissions import Submissions
from fizgruk.words import MOST_WANTS, BadFile

LONGEST_NAME = 200
NAMES = re.compile(r"(new-|old-)?([0-9]+)(?:-[0-9a-f]+|(\.new))?")  # of logs, and of artifacts
RUNNING, WAITING, WORKERS = "running.json", "waiting.json", "workers.json"
MOST_ASKED = 50  # groups of the queue that are asked for between two passes
Row = Dict[str, Any]


class Published:
    """What stands in a dispatcher's folder for others."""

    def __init__(self, desk: calls.Desk, place: str, groups: Dict[int, Record]):
        """`groups` are those that aren't settled."""
        self.desk, self.place, self.groups = desk, place, groups
        self.logs = disk.made_for_all(os.path.join(place, LOGS))
        self.artifacts = disk.made_for_all(os.path.join(place, artifacts.FOLDER))
        self.history = records.History(place, set(groups))
        self.submissions = Submissions(place)
        self.waiting: Dict[int, Row] = {}  # groups of the queue
        self.written: Dict[str, Row] = {}
        self.holds = self._holds_before()  # boards and their holders, and since when, where that is known
        self.has_seen = False

    def look(self) -> None:
        """Looks at the numbers that the desk has given, and shows the newest lines where there was no room for them. What is
        known of a number that will be given again goes."""
        following = int(self.desk.look("/status").get("next", 0))
        if following and self.submissions.note(following):
            self.waiting.clear()
            self._remove(lambda number, path, is_left: number >= following and not is_left)
        if not self.history.is_shown:
            self.history.show()

    # ---- the past

    def expect(self, board: str, health: str, reason: str) -> None:
        """Notes why a board's health is about to become this one."""
        self.history.effects[board] = records.Effect(records.ALL_HEALTHS, health, reason)

    def expect_end(self, group: Dict[str, Any], outcome: str) -> None:
        """Notes what a group's end with this outcome does to its boards."""
        effects = {it["board"]: records.effect_of({**group, "job": it["job"], "outcome": outcome}) for it in group["members"]}
        self.history.effects.update({board: it for board, it in effects.items() if it is not None})

    def begin_log(self, members: List[int], text: bytes) -> None:
        """Begins the log of a group anew, with this text, under the number of each member; what an earlier farm's job of
        a number left there goes."""
        self._remove(lambda number, path, is_left: number in members and not is_left)
        first, *others = (os.path.join(self.logs, str(it)) for it in members)
        with open(first, "xb") as log:
            os.fchmod(log.fileno(), disk.READABLE)
            log.write(text)
        for it in others:
            os.link(first, it)

    def record(self, record: Record, outcome: str) -> None:
        """Writes the lines of a group's members, which ended with this outcome where the desk doesn't say it."""
        group, now = record["about"], int(time.time())
        began = int(record.get("began") or now)
        submitted, rows = None if records.is_check(group) else self._submitted(record.number, began), []
        for it in group["members"]:
            view = calls.job_of(self.desk, it["job"])  # (of another farm it is another job)
            is_it = view is not None and (view["owner"], view["board"]) == (group["owner"], it["board"])
            result = str(view["result"]) if view and is_it and view["result"] else outcome
            reason = str(record.get("ended")) if result in ("Canceled", outcome) else "finished by somebody else"
            rows.append({
                "kind": "job", "job": it["job"], "group": record.number, "owner": group["owner"], "boards": [it["board"]],
                "type": it["type"], "name": group["name"], "submitted": submitted, "began": began,
                "ended": max(began, int(record.get("ended_at") or now)), "outcome": result,
                "reason": "" if result == outcome == "Complete" else reason,
                "unit": record.unit, "worker": record.get("worker"), **(record.get("kept") or {}),
            })
        self.history.add_jobs(rows)

    def unit_of(self, number: int) -> Tuple[str, str]:
        """The unit that a group's newest line names, and how it ended; nothing where it has no line."""
        rows = [it for it in records.rows_of(self.history.lines) if it["kind"] == "job" and it["group"] == number]
        last: Dict[str, Any] = rows[-1] if rows else {}
        return str(last.get("unit", "")), str(last.get("reason", "")) or "status 0"

    def remove_old(self, seconds: float, is_open: Set[int]) -> None:
        """Removes the logs to which nothing was added for so many seconds, and the artifacts of so
        long ago, with what a kill left of others."""
        oldest = time.time() - seconds
        kept = {it + place for it in is_open for place in range(MOST_WANTS)}  # their members, and maybe a few jobs beside
        self._remove(lambda number, path, is_left: number not in kept and (is_left or os.stat(path).st_mtime < oldest))

    def _remove(self, goes: Callable[[int, str, bool], bool]) -> None:
        """Removes logs that are served, and folders of artifacts: those of which this says so by the number of their job, their
        path, and whether a kill left them half made, or half removed."""
        for folder in (self.logs, self.artifacts):
            for match in filter(None, map(NAMES.fullmatch, os.listdir(folder))):
                path = os.path.join(folder, match[0])
                with contextlib.suppress(FileNotFoundError):  # (another machine's thread may have begun it anew)
                    if goes(int(match[2]), path, bool(match[1] or match[3])):
                        shutil.rmtree(path) if os.path.isdir(path) else os.unlink(path)

    def _submitted(self, number: int, began: int) -> Optional[int]:
        """When a group that began then was submitted, where that is known."""
        if not self.submissions.has_seen(number):
            self.look()
        moment = self.submissions.moment_of(number)
        return None if moment is None else min(moment, began)

    # ---- the present

    def see(self, boards: List[Row]) -> None:
        """Notes the boards' healths, and since when people hold them. Of what came while nobody looked that isn't known."""
        self.history.see(boards)
        now = int(time.time()) if self.has_seen else None
        held = {(it["name"], it["holder"]) for it in boards if it["holder"].startswith("reservation ")}
        self.holds = {it: self.holds.get(it, now) for it in held}
        self.has_seen = True

    def _holds_before(self) -> Dict[Tuple[str, str], Optional[int]]:
        """The holds that an earlier dispatcher told."""
        try:
            rows = disk.object_in(os.path.join(self.place, RUNNING))["holds"]
            return {(it["board"], f"reservation {it['reservation']}"): int(it["since"]) for it in rows}
        except (ValueError, KeyError, TypeError):
            return {}

    def show_running(self) -> None:
        """Tells the jobs whose groups are open here, and people's holds."""
        rows: List[Row] = []
        for number, record in sorted(self.groups.items()):
            group = record.get("about")
            if group and not record.get("told"):
                began, limit = record.get("began"), int(record.get("limit") or 0)
                common = {"group": number, "owner": group["owner"], "name": group["name"], "began": began, "limit": limit}
                rows += [{**it, **common} for it in group["members"]]
        known = sorted((board, int(holder.split()[1]), since) for (board, holder), since in self.holds.items() if since is not None)
        self.write(RUNNING, {"jobs": rows, "holds": [dict(zip(("board", "reservation", "since"), it)) for it in known]})

    def show_waiting(self) -> None:
        """Tells the groups of the queue; those that aren't known yet are asked for, some at a time."""
        with contextlib.suppress(Unreachable):  # then it is seen at the next pass
            wanted = [it["number"] for it in calls.rows_of(self.desk, "queue") if it["kind"] == "group"]
            self.waiting = {it: self.waiting[it] for it in wanted if it in self.waiting}
            # (of what came since the status was asked for nobody knows yet when it came)
            has_seen = self.submissions.has_seen
            for number in [it for it in wanted if it not in self.waiting and has_seen(it)][:MOST_ASKED]:
                views = calls.members_of(self.desk, number) if calls.job_of(self.desk, number) else []
                if views:
                    self.waiting[number] = {
                        "group": number, "name": about(views)["name"], "submitted": self.submissions.moment_of(number),
                        "wants": [{"type": it["type"], "tags": it["tags"]} for it in views],
                    }
            self.write(WAITING, {"groups": [self.waiting[it] for it in sorted(self.waiting)]})

    def write(self, name: str, said: Row) -> None:
        """Writes a file anew where it would say something else."""
        if self.written.get(name) != said:
            text = json.dumps({"at": int(time.time()), **said}, separators=(",", ":"))
            disk.write_whole(os.path.join(self.place, name), f"{text}\n")
            self.written[name] = said


def about(members: List[Dict[str, Any]]) -> Dict[str, Any]:
    """What the history will say of a group that got its boards, by its members' views."""
    first = members[0]
    return {
        "owner": first["owner"], "name": records.CHECK if first["kind"] == "check" else job_file.name_of(first["text"])[:LONGEST_NAME],
        "members": [{"job": it["number"], "board": it["board"], "type": it["type"]} for it in members],
    }


class Notes:
    """The lab's file of notes, and notes.json."""

    def __init__(self, place: str, file: str, tell: Callable[[str], object]):
        self.file, self.shown, self.tell = file, os.path.join(place, notes.FILE), tell
        # what is shown: nothing, where there is no file of it
        self.seen: Optional[Tuple[str, Dict[str, Any]]] = None if os.path.lexists(self.shown) else ("", {})

    def look(self) -> None:
        """Shows what the file says where that has changed. What can't be read is told once; then what it said before is
        shown still, and with it what is wrong."""
        fault = ""
        try:
            boards = notes.notes_in(disk.text_in(os.path.realpath(self.file), notes.LONGEST_FILE) or "")
        except (BadFile, disk.Strange) as why:
            fault = f"{self.file}: {' '.join(str(why).split())}"
            boards = notes.told(disk.object_in(self.shown, 2 * notes.LONGEST_FILE)).boards
        if self.seen != (fault, boards):
            if fault:
                self.tell(f"notes of boards: {fault}; what it said before is shown")
            shown = {"at": int(time.time()), "fault": fault, "boards": boards}
            with contextlib.suppress(OSError):  # where there is no room it is tried again
                disk.write_whole(self.shown, f"{json.dumps(shown, ensure_ascii=False)}\n")
                self.seen = fault, boards
