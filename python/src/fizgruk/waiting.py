"""Waiting: for a reservation's board, or for the end of a job; and why it doesn't come."""
import threading
import time
from typing import Callable, Dict, List, Optional, Sequence, Set, TypeVar

from fizgruk import calls, present, wants
from fizgruk.calls import Desk, Row
from fizgruk.errors import Code, Refused, ReservationEnded, TimedOut, Unreachable

# A reservation that isn't refreshed lives for sixty seconds.
LEASE, REFRESH = 60.0, 20.0
ENDED = ("expired", "canceled")
Found = TypeVar("Found")
Tell = Callable[[str], None]
# By what a thread's waits sleep, where that isn't time.sleep: its attribute `sleep`.
SLEEPS = threading.local()


class Wait:
    """What a wait asks the desk, look after look, and what it tells where that changes."""

    def __init__(self, desk: Desk, about: str, timeout: Optional[float], every: float, tell: Tell) -> None:
        """`about` is what is waited for, as it is told where the time is over."""
        self.desk = desk.of_patience(0)
        self.about = about
        self.timeout = timeout
        self.every = min(every, REFRESH)
        self.tell = tell
        self.begun = time.monotonic()
        self.said = ""
        self.checked: Optional[Set[str]] = None
        self.owners: Dict[str, str] = {}

    def say(self, text: str) -> None:
        if text != self.said:
            self.said = text
            self.tell(text)

    def note_own(self) -> None:
        """A command of the wait's own was accepted."""

    def note_met(self, is_met: bool) -> None:
        """Whether what waits is met by free boards."""

    def note_look(self) -> None:
        """A look was answered, and what is waited for isn't there yet."""

    def answer_of(self, ask: Callable[[], Found]) -> Found:
        """What a call gives, which is asked again where no answer comes."""
        return self.until_there(lambda: (ask(),))[0]

    def until_there(self, look: Callable[[], Optional[Found]]) -> Found:
        """What `look` finds, which is asked again and again until it finds something."""
        while True:
            try:
                found = look()
                if found is not None:
                    return found
                self.note_look()
            except Unreachable as fault:
                self.say(f"no answer from the desk: {fault.trouble}")
            self.pause()

    def pause(self) -> None:
        """Waits until the next look, or tells that the time is over."""
        waited = time.monotonic() - self.begun
        if self.timeout is not None and waited >= self.timeout:
            raise TimedOut(f"{self.about} within {self.timeout:g} s: {self.said}")
        left = self.every if self.timeout is None else self.timeout - waited
        getattr(SLEEPS, "sleep", time.sleep)(max(0.0, min(self.every, left)))

    def lab(self) -> wants.Lab:
        """The boards as they are now."""
        if self.checked is None:
            self.checked = wants.checked_types(self.desk)
        return wants.Lab(self.desk, self.checked, self.owners, present.Present(self.desk))

    def reason(self, lab: wants.Lab, wanted: List[wants.Want]) -> str:
        """Why these wants wait, behind a colon, or nothing."""
        self.note_met(lab.is_met(wanted))
        return behind_colon(lab.reason(wanted))


def behind_colon(why: str) -> str:
    return f": {why}" if why else ""


def wait_for_board(wait: Wait, number: int, tags: Optional[Sequence[str]]) -> Row:
    """Waits until a reservation has a board, and refreshes it meanwhile. Gives the board's view.
    `tags` are those that it asks for, where they are known."""
    refreshed = time.monotonic()
    want = None if tags is None else wants.Want("", tuple(tags))

    def look() -> Optional[Row]:
        nonlocal refreshed, want
        if time.monotonic() - refreshed >= REFRESH:
            with_end_told(number, lambda: wait.desk.nudge(f"/reservations/{number}/refresh"))
            wait.note_own()
            refreshed = time.monotonic()
        # (the boards are shown after the queue: a pass between the two gives it its board)
        place = wants.place_of(wait.desk, "reservation", number)
        lab = wait.lab()
        board = lab.held_by(f"reservation {number}")
        if board:
            return board
        if not place:
            wait.say(f"reservation {number} is {state_of(wait.desk, number)}")
            return None
        want = want or wants.want_of_reservation(row_of(wait.desk, number))
        wait.say(f"reservation {number} is waiting, {place}{wait.reason(lab, [want])}")
        return None

    return wait.until_there(look)


def with_end_told(number: int, command: Callable[[], object]) -> None:
    """Gives a command to a reservation. One that has ended meanwhile is told so."""
    try:
        command()
    except Refused as refusal:
        if refusal.code == Code.RESERVATION_EXPIRED:
            raise ReservationEnded(f"reservation {number} has expired") from refusal
        if refusal.code == Code.WRONG_RESERVATION_STATE:
            raise ReservationEnded(f"reservation {number} has ended") from refusal
        raise


def row_of(desk: Desk, number: int) -> Row:
    """The view of a reservation."""
    rows = calls.rows_of(desk, "reservations")
    row = next((it for it in rows if it["number"] == number), None)
    if row is None:
        raise ReservationEnded(f"reservation {number} is unknown")
    return row


def state_of(desk: Desk, number: int) -> str:
    """The state of a reservation that has neither a place in the queue nor a board, where it hasn't
    ended."""
    state = str(row_of(desk, number)["state"])
    if state in ENDED:
        raise ReservationEnded(f"reservation {number} is {state}")
    return state


def wait_for_group(wait: Wait, number: int) -> List[Row]:
    """Waits until all members of a job's group have ended, and gives their views."""

    def look() -> Optional[List[Row]]:
        members = calls.members_of(wait.desk, number)
        waits = [it for it in members if it["state"] != "Finished"]
        if waits:
            wait.say(f"job {number} is {state_and_place(wait, waits)}")
        return members if not waits else None

    return wait.until_there(look)


def silence_of(wait: Wait, members: List[Row]) -> str:
    """Which workers of these jobs' boards don't answer."""
    if not present.Present(wait.desk).silent():
        return ""
    lab, names = wait.lab(), {it["board"] for it in members}
    return lab.silence([it for it in lab.boards if it["name"] in names])


def state_and_place(wait: Wait, members: List[Row]) -> str:
    """The state of the first of these members, where its group stands, and why it waits."""
    state = str(members[0]["state"])
    if state not in wants.QUEUED:
        return state + behind_colon(silence_of(wait, members))
    place = wants.place_of(wait.desk, "group", members[0]["group"])
    if not place:
        return state
    lab = wait.lab()
    if len(members) == 1 and lab.held_by(f"job {members[0]['number']}"):
        return f"{state}, {place}"  # it got its board after the queue was shown
    return f"{state}, {place}{wait.reason(lab, [wants.want_of_job(it) for it in members])}"
