"""What a user asks for: jobs and reservations of one's own, from their asking to their end."""
import argparse
from typing import Any, Dict, List, Optional, Union

from fizgruk import calls, history, job_file, wants
from fizgruk._tools import service, tables
from fizgruk.desk import ENDED, REFUSED, Lacking, holding, past_jobs, tell, views, waiting
from fizgruk.errors import Code, NoLog, Refused, Unreachable
from fizgruk.holding import Reservation
from fizgruk.waiting import row_of, wait_for_group

# ---- jobs
COLUMNS: List[tables.Column] = [
    ("NUMBER", lambda it: it["number"]),
    ("NAME", lambda it: tables.printable(it["name"])),
    ("MADE", lambda it: tables.moment(it["made"])),
]


def submit_job(desk: calls.Desk, options: argparse.Namespace) -> int:
    return submit_text(desk, options, views.bytes_of(options.file), options.key)


def resubmit_job(desk: calls.Desk, options: argparse.Namespace) -> int:
    return submit_text(desk, options, history.text_of(desk, options.number))


def submit_text(desk: calls.Desk, options: argparse.Namespace, text: bytes, key: Optional[str] = None) -> int:
    """Submits a job file, prints its number, and waits for its end where that is asked for."""
    waits = options.wait or options.follow
    if waits:
        options.clock.look()
    said = job_file.submitted(desk, text, key or calls.fresh_key())
    options.clock.note_own()
    views.answer(options, said, said["number"])
    return await_end(desk, options, said["number"]) if waits else 0


def cancel_jobs(desk: calls.Desk, options: argparse.Namespace) -> int:
    """Cancels jobs one after another; one that is refused keeps none of the others."""
    if bool(options.numbers) == options.mine:
        options.parser.error("give jobs' numbers, or --mine")
    own = past_jobs.open_jobs(wants.Claims(desk), desk.user) if options.mine else ()
    status = 0
    for number in options.numbers or sorted({int(it["group"]) for it in own}):
        try:
            said = desk.tell(f"/jobs/{number}/cancel", key=calls.fresh_key())
        except Refused as refusal:
            if len(options.numbers) == 1 or refusal.status == calls.NOT_LET_IN:
                raise about_job(desk, refusal, number)
            status = tell.told(REFUSED, f"job {number}: refused: {about_job(desk, refusal, number)}")
            continue
        views.answer(options, said, *([said["number"]] if options.mine else ()))
    return status


def about_job(desk: calls.Desk, refusal: Refused, number: int) -> Refused:
    """A refusal to cancel a job, and what is known of why."""
    if refusal.code == Code.WRONG_JOB_STATE:
        job = desk.look(f"/jobs/{number}")
        return refusal.about(f"job {number} is {job['state']}" + (f" ({job['result']})" if job["result"] else ""))
    rows = calls.rows_of(desk, "reservations") if refusal.code == Code.NO_SUCH_JOB else []
    if any(it["number"] == number for it in rows):
        return refusal.about(f"{number} is a reservation: desk cancel-reservation {number}")
    return refusal


def await_end(desk: calls.Desk, options: argparse.Namespace, job: int) -> int:
    """Waits for a job's end, prints its log meanwhile where that is asked for, and how it ended. The
    status says whether all members are Complete."""
    try:
        if options.follow:
            try:
                past_jobs.print_followed(desk, options, job)
            except (NoLog, Refused) as fault:
                tell(str(fault))
        with waiting.ShownWait(desk, options.clock, options.every) as wait:
            members = wait_for_group(wait, job)
    except service.Interrupted as end:
        return tell.told(end.status, f"job {job} goes on; desk cancel {job} ends it")
    views.answer(options, {"jobs": members}, *(f"{it['number']} {it['result']} {it['board'] or '-'}" for it in members))
    return 0 if all(it["result"] == "Complete" for it in members) else ENDED


# ---- reservations


def reserve_board(desk: calls.Desk, options: argparse.Namespace) -> int:
    if bool(options.tags) == options.any:
        options.parser.error("give a tag of the board, 'name=BOARD', or --any for any board")
    reservation = Reservation(desk, options.tags, options.priority)
    if not (options.wait or options.acquire):
        number = reservation.ask()
        return views.answer(options, {"number": number}, number)
    try:
        number = holding.asked(reservation, options)
        views.answer(options, {"number": number}, number)
        return await_board(reservation, number, options)
    except service.Interrupted as it:
        holding.is_given_back(reservation)
        return it.status


def await_board(reservation: Reservation, number: int, options: argparse.Namespace) -> int:
    """Waits for a reservation's board, acquires it where that is asked for, and prints it."""
    board = holding.awaited(reservation, number, options)
    if options.acquire:
        reservation.acquire(board["name"])
    return views.answer(options, {"board": board["name"], "number": number}, board["name"])


def wait_for(desk: calls.Desk, options: argparse.Namespace) -> int:
    """Waits for a job's end or a reservation's board: both draw their numbers from one counter."""
    options.clock.look()
    if calls.job_of(desk, options.number):
        return await_end(desk, options, options.number)
    desk.nudge(f"/reservations/{options.number}/refresh")
    options.clock.note_own()
    reservation = Reservation(desk, None, None)
    reservation.number = options.number
    options.acquire = False
    return await_board(reservation, options.number, options)


def change_reservation(desk: calls.Desk, options: argparse.Namespace) -> int:
    """Acquires, releases, refreshes, which is also how a hold is extended, or cancels. A refresh
    that is done twice does no harm, and has no key."""
    number = number_of(desk, options.hold)
    path = f"/reservations/{number}/{options.action}"
    try:
        said = desk.nudge(path) if options.action == "refresh" else desk.tell(path, key=calls.fresh_key())
    except Refused as refusal:
        raise about_reservation(desk, refusal, number)
    lines = []
    if options.action == "acquire" and not options.json:
        board = wants.Lab(desk).held_by(f"reservation {number}")
        lines = [board["name"] if board else "-"]
    views.answer(options, said, *lines)
    if options.action == "release":
        tell(f"reservation {number} keeps the board for a minute: desk cancel-reservation {number} ends that at once")
    return 0


def number_of(desk: calls.Desk, hold: Union[int, str]) -> int:
    """The number of a reservation, which may be told by the board that it has."""
    if isinstance(hold, int):
        return hold
    lab = wants.Lab(desk)
    holder = {it["name"]: it["holder"] for it in lab.boards}.get(hold)
    if holder is None:
        raise Lacking(f"there is no board {hold}")
    kind, _, number = holder.partition(" ")
    if kind == "job":
        raise Lacking(f"board {hold} is held by {holder} of {lab.owner(holder)}: desk cancel {number} ends it")
    if not number:
        raise Lacking(f"nobody holds board {hold}")
    return int(number)


def about_reservation(desk: calls.Desk, refusal: Refused, number: int) -> Refused:
    """A refusal of a reservation's command, and what is known of why."""
    if refusal.code == Code.WRONG_RESERVATION_STATE:
        return refusal.about(f"reservation {number} is {row_of(desk, number)['state']}")
    if refusal.code == Code.FORBIDDEN:
        return refusal.about(f"reservation {number} is {row_of(desk, number)['owner']}'s")
    if refusal.code == Code.NO_SUCH_RESERVATION and calls.job_of(desk, number):
        return refusal.about(f"{number} is a job: desk cancel {number}")
    return refusal


def show_tokens(desk: calls.Desk, options: argparse.Namespace) -> int:
    rows = own_tokens(desk)
    return views.show(options, {"tokens": rows}, rows, COLUMNS)


def own_tokens(desk: calls.Desk) -> List[Dict[str, Any]]:
    try:
        return calls.rows_of(desk, "tokens")
    except Refused as refusal:
        raise about_the_door(refusal)


def add_token(desk: calls.Desk, options: argparse.Namespace) -> int:
    try:
        said = desk.tell("/tokens", {"name": options.name})
    except Refused as refusal:
        raise about_the_door(refusal)
    if not isinstance(said.get("token"), str):
        raise Unreachable(calls.NO_DESKS, desk.server)
    return views.answer(options, said, tables.printable(said["token"]))


def end_token(desk: calls.Desk, options: argparse.Namespace) -> int:
    for row in own_tokens(desk):
        if row["name"] == options.name:
            return views.answer(options, desk.tell(f"/tokens/{row['number']}/end"))
    return tell.told(REFUSED, f"you have no token {options.name}")


def about_the_door(refusal: Refused) -> Refused:
    """A refusal, and what is known of why: the desk itself has no tokens."""
    if refusal.code == Code.NO_SUCH_ROUTE:
        return refusal.about("tokens are a site's that has farm-door(8)")
    if refusal.status == calls.NOT_LET_IN:
        return refusal.about("a token makes, shows and ends none: that wants the password")
    return refusal
