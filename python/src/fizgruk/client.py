"""The desk of a board farm: its views, its commands, and boards held for the time of a `with`."""
import codecs
import copy
import datetime
import logging
import time
from typing import Callable, Dict, Iterator, List, Literal, Optional, Sequence, TypeVar, Union

from fizgruk import calls, history, job_file, models, notes, settings, waiting
from fizgruk.artifacts import Artifact
from fizgruk.calls import Body, Desk, Row, fresh_key, part
from fizgruk.errors import Code, FizgrukError, Refused
from fizgruk.history import Past
from fizgruk.holding import Hold, Priority
from fizgruk.waiting import Tell, Wait

LOG = logging.getLogger("fizgruk")
HOUR = 3600.0  # for which a wait goes on where nothing else is said
LAST = 50
Own = TypeVar("Own", bound="Client")


def labs(config: Optional[str] = None) -> List[str]:
    """The labs that the settings have a section for."""
    return settings.labs_of({"config": config})


class Client:
    """A desk, as one user sees it.

    What isn't given comes from the environment, desk.ini and ~/.netrc, as for the command `desk`.
    Each command goes out under a fresh key, or under `key`, and again under the same one where no
    answer came, so that it is done once. Raises `Refused` where the desk refuses, and `Unreachable`
    where no answer came for `patience` seconds.
    """

    def __init__(
        self, server: Optional[str] = None, user: Optional[str] = None, *,
        password_file: Optional[str] = None, ca_file: Optional[str] = None,
        timeout: Optional[float] = None, config: Optional[str] = None, patience: float = 15.0,
        history: Optional[str] = None, lab: Optional[str] = None,
    ) -> None:
        """`timeout` is how many seconds a network call may wait, `config` the file of settings, and
        `history` the dispatcher's folder, where that is on this machine: else the server is asked for
        what it keeps. `lab` is one of `labs()`, in the place of `server`."""
        seconds = None if timeout is None else str(timeout)
        given = {
            "server": server, "user": user, "password_file": password_file, "ca_file": ca_file,
            "timeout": seconds, "config": config, "history": history, "lab": lab,
        }
        self._desk = Desk(settings.read_settings(given), patience)
        self._desk.tell_trouble = lambda trouble: LOG.warning(
            "waiting for the desk at %s: %s", self.server, trouble
        )

    @property
    def server(self) -> str:
        return self._desk.server

    @property
    def user(self) -> str:
        return self._desk.user

    def close(self) -> None:
        """Closes the connections that are kept; the next call opens one again."""
        self._desk.close()

    def __enter__(self: Own) -> Own:
        return self

    def __exit__(self, *_: object) -> None:
        self.close()

    def of_patience(self: Own, seconds: float) -> Own:
        """The same client, whose calls are sent again for so many seconds."""
        other = copy.copy(self)
        other._desk = self._desk.of_patience(seconds)
        return other

    # ---- views

    def types(self) -> List[models.TypeView]:
        return self._rows("types", models.TypeView)

    def boards(self, *tags: str) -> List[models.BoardView]:
        """The boards, or those that have all of these tags."""
        return [it for it in self._rows("boards", models.BoardView) if it.fits(*tags)]

    def queue(self) -> List[models.Claim]:
        """What waits for boards, in the order in which it is served."""
        return self._rows("queue", models.Claim)

    def reservations(self) -> List[models.ReservationView]:
        """All reservations that ever were."""
        return self._rows("reservations", models.ReservationView)

    def job(self, number: int) -> models.JobView:
        return models.view_of(models.JobView, self._desk.look(f"/jobs/{number}"))

    def group(self, number: int) -> List[models.JobView]:
        """All members of a job's group, which have consecutive numbers."""
        return [models.view_of(models.JobView, it) for it in calls.members_of(self._desk, number)]

    def status(self) -> models.Status:
        return models.view_of(models.Status, self._desk.look("/status"))

    # ---- the admin's commands

    def add_type(
        self, name: str, check: models.Check = "none", every: Optional[int] = None, *,
        key: Optional[str] = None,
    ) -> None:
        """Adds a type, whose boards are checked every so many hours or jobs, or never."""
        body: Dict[str, object] = {"name": name, "check": check}
        if every is not None:
            body["every"] = every
        self._tell("/types", body, key)

    def add_board(self, name: str, type: str, tags: Sequence[str] = (), *, key: Optional[str] = None) -> None:
        """Adds a board, in Maintenance."""
        self._tell("/boards", {"name": name, "type": type, "tags": list(tags)}, key)

    def set_tags(self, board: str, tags: Sequence[str], *, key: Optional[str] = None) -> None:
        """Gives a board these tags in the place of those that it has."""
        self._tell(f"/boards/{part(board)}/tags", {"tags": list(tags)}, key)

    def set_health(self, board: str, health: models.Health, *, key: Optional[str] = None) -> None:
        self._tell(f"/boards/{part(board)}/health", {"health": health}, key)

    # ---- jobs

    def submit(self, text: Union[str, bytes], *, key: Optional[str] = None) -> int:
        """Submits the text of a job file. Gives the number of its group. A refusal says which rule
        the text breaks, and where."""
        sent = text.encode() if isinstance(text, str) else text
        return int(job_file.submitted(self._desk, sent, key or fresh_key())["number"])

    def resubmit(self, number: int, *, key: Optional[str] = None) -> int:
        """Submits a job's text once more. Gives the number of the new group."""
        return self.submit(history.text_of(self._desk, number), key=key)

    def run(
        self, text: Union[str, bytes], timeout: Optional[float] = HOUR, *, every: float = 2.0,
        tell: Tell = LOG.info, key: Optional[str] = None,
    ) -> List[models.JobView]:
        """Submits a job, and gives the members of its group once they have ended. Where the wait is
        interrupted, or lasts too long, the job is canceled."""
        number = self.submit(text, key=key)
        return self.wait_for_job(number, timeout, every=every, tell=tell, cancel=True)

    def cancel_job(self, number: int, *, key: Optional[str] = None) -> int:
        """Cancels a job and its group. Gives the group's number."""
        return self._number(f"/jobs/{number}/cancel", None, key)

    def wait_for_job(
        self, number: int, timeout: Optional[float] = HOUR, *, every: float = 2.0,
        tell: Tell = LOG.info, cancel: bool = False,
    ) -> List[models.JobView]:
        """Waits until all members of a job's group have ended, and gives them. With `cancel` the job
        is canceled where the wait is interrupted, or lasts too long."""
        wait = Wait(self._desk, f"job {number} hasn't ended", timeout, every, tell)
        try:
            rows = waiting.wait_for_group(wait, number)
            return [models.view_of(models.JobView, it) for it in rows]
        except BaseException:
            if cancel:
                self._cancel_left(number)
            raise

    def _cancel_left(self, number: int) -> None:
        """Cancels a job that nobody waits for any more; what can't be done is logged."""
        try:
            self.cancel_job(number)
        except FizgrukError as fault:
            if not (isinstance(fault, Refused) and fault.code == Code.WRONG_JOB_STATE):
                LOG.error("%s: job %d goes on: desk cancel %d", fault, number, number)

    # ---- logs and the past

    def log(self, number: int) -> str:
        """What a job has said so far. Raises NoLog where it has no log."""
        said = history.log_of(self._past(), self._desk, number)
        return b"".join(said).decode(errors="replace")

    def follow(self, number: int, timeout: Optional[float] = HOUR, *, every: float = 2.0) -> Iterator[str]:
        """What a job says, piece by piece, until it has ended; a job that hasn't begun is waited
        for."""
        wait = Wait(self._desk, f"job {number} hasn't ended", timeout, every, LOG.info)
        decoder = codecs.getincrementaldecoder("utf-8")(errors="replace")
        for said in history.followed(self._past(), number, wait):
            text = decoder.decode(said)
            if text:
                yield text

    def artifacts(self, number: int) -> List[Artifact]:
        """What a job's group left in `out` of its folder, once that is kept. Raises NoArtifact where there
        is nothing."""
        return history.Artifacts(self._desk, self._past(), number).files

    def artifact(self, number: int, name: str) -> bytes:
        """The bytes of what a job left under a name. Raises NoArtifact where there is none."""
        left = history.Artifacts(self._desk, self._past(), number)
        return b"".join(left.bytes_of(left.of(name)))

    def notes(self, board: str) -> Dict[str, str]:
        """What the lab has noted of a board: of `place`, `owner`, `wiki`, `comment` and `reason` those that
        there are."""
        return notes.notes_of(self._desk).of(board)

    def history(
        self, board: Optional[str] = None, last: int = LAST
    ) -> List[Union[models.PastJob, models.HealthChange]]:
        """The last jobs that ended, the newest first; of a board its jobs and the changes of its
        health."""
        past = self._past()
        return [past_of(it) for it in (past.jobs(last) if board is None else past.of_board(board, last))]

    def usage(
        self, since: Union[datetime.datetime, datetime.timedelta] = datetime.timedelta(days=30),
        by: Literal["owner", "board", "type"] = "owner",
    ) -> List[models.Use]:
        """What owners used, or of boards or types was used, since a moment or for so long; the most
        hours first."""
        ago = since.total_seconds() if isinstance(since, datetime.timedelta) else 0
        moment = since.timestamp() if isinstance(since, datetime.datetime) else time.time() - ago
        past = self._past()
        rows = [*past.rows(), *(past.holds() or ())]
        return [models.Use(**it) for it in history.uses_of(rows, int(moment), by)]

    def _past(self) -> Past:
        return history.past_of(self._desk)

    # ---- reservations

    def reserve(self, *tags: str, priority: Priority = None, key: Optional[str] = None) -> int:
        """Reserves a board that has all of these tags. Gives the reservation's number; it lives for
        a minute, and for one more with each refresh."""
        body: Dict[str, object] = {"tags": list(tags)}
        if priority is not None:
            body["priority"] = priority
        return self._number("/reservations", body, key)

    def wait_for_board(
        self, number: int, timeout: Optional[float] = HOUR, *, every: float = 2.0,
        tell: Tell = LOG.info,
    ) -> models.BoardView:
        """Waits until a reservation has a board, and refreshes it meanwhile. The board is to be
        acquired within a minute."""
        wait = Wait(self._desk, f"no board for reservation {number}", timeout, every, tell)
        return models.view_of(models.BoardView, waiting.wait_for_board(wait, number, None))

    def acquire(self, number: int, *, key: Optional[str] = None) -> None:
        """Takes the board that a reservation was given, until it is released or canceled."""
        self._number(f"/reservations/{number}/acquire", None, key)

    def release(self, number: int, *, key: Optional[str] = None) -> None:
        """Lets an acquired board go; it stays the reservation's for a minute."""
        self._number(f"/reservations/{number}/release", None, key)

    def refresh(self, number: int) -> None:
        """Lets a reservation live for a minute from now on. Done twice it does no harm, so it has
        no key."""
        self._desk.nudge(f"/reservations/{number}/refresh")

    def cancel_reservation(self, number: int, *, key: Optional[str] = None) -> None:
        """Ends a reservation: its board is free."""
        self._number(f"/reservations/{number}/cancel", None, key)

    def board(
        self, *tags: str, priority: Priority = None, timeout: Optional[float] = HOUR,
        every: float = 2.0, tell: Tell = LOG.info, **wants: str,
    ) -> Hold:
        """A board that is yours within a `with`:

            with client.board("hdmi", power="pdu2", timeout=600) as board:
                print(board.name)

        Reserves a board that has all of these tags (`power="pdu2"` stands for `power=pdu2`, and
        `name="rpi4b-02"` for that board), waits for it, for `timeout` seconds at most (None: without
        an end), acquires it, and gives it back at the end, whatever happens. What the wait has come to is told to `tell`.
        Raises `HoldLost` where an admin or farm-watch ends the reservation meanwhile.
        """
        asked = [*tags, *(f"{name}={value}" for name, value in wants.items())]
        return Hold(self._desk, asked, priority, timeout, every, tell)

    # ---- the dispatcher's commands

    def call_pass(self) -> models.PassCounts:
        """Gives boards to what waits for them. Done twice it does no harm, so it has no key."""
        return models.view_of(models.PassCounts, self._desk.nudge("/pass"))

    def start_job(self, number: int, *, key: Optional[str] = None) -> int:
        """Starts a job's group. Gives the group's number."""
        return self._number(f"/jobs/{number}/start", None, key)

    def finish_job(self, number: int, outcome: models.Outcome, *, key: Optional[str] = None) -> int:
        """Says how a job ended. Gives its number."""
        return self._number(f"/jobs/{number}/finish", {"outcome": outcome}, key)

    # ---- how it is asked

    def _rows(self, name: str, kind: Callable[..., models.View]) -> List[models.View]:
        return [models.view_of(kind, it) for it in calls.rows_of(self._desk, name)]

    def _tell(self, path: str, body: Body, key: Optional[str]) -> Row:
        return self._desk.tell(path, body, key or fresh_key())

    def _number(self, path: str, body: Body, key: Optional[str]) -> int:
        return calls.number_of(self._desk, self._tell(path, body, key))


def past_of(row: Row) -> Union[models.PastJob, models.HealthChange]:
    """What a line of the history says."""
    if row["kind"] == "job":
        return models.view_of(models.PastJob, row)
    return models.view_of(models.HealthChange, {**row, "before": row["from"], "after": row["to"]})
