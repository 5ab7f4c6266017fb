"""What can go wrong: each error of the package, and the codes of the desk's refusals."""
import enum


class Code(enum.IntEnum):
    """The codes that a desk refuses with (docs/API.md, Refusals)."""

    NO_MEMORY = 1
    BAD_MOMENT = 2
    FORBIDDEN = 3
    FULL = 4
    BAD_NAME = 5
    BAD_TAG = 6
    BAD_COUNT = 7
    NO_SUCH_TYPE = 10
    TYPE_EXISTS = 11
    NO_SUCH_BOARD = 12
    BOARD_EXISTS = 13
    BOARD_IS_HELD = 14
    BOARD_IS_RETIRED = 15
    NO_SUCH_JOB = 20
    WRONG_JOB_STATE = 21
    NO_SUCH_BOARDS = 22
    BAD_PRIORITY = 23
    NO_SUCH_RESERVATION = 30
    RESERVATION_EXPIRED = 31
    WRONG_RESERVATION_STATE = 32
    KEY_REUSED = 40
    BAD_KEY = 41
    BAD_REQUEST = 50
    TOO_LARGE = 51
    NO_SUCH_ROUTE = 52
    WRONG_METHOD = 53
    BAD_CODING = 54
    STORE_FAULT = 60
    CLOSED = 61
    BAD_JOB_FILE = 70


def sentence_of(fault: BaseException) -> str:
    """What went wrong, in words: of the system's fault without its number."""
    not_trusted = getattr(fault, "verify_message", "")
    if not_trusted:
        return f"its certificate isn't trusted: {not_trusted}"
    if isinstance(fault, OSError) and fault.strerror and isinstance(fault.errno, int):
        name = f"{fault.filename}: " if fault.filename else ""
        return f"{name}{fault.strerror[:1].lower()}{fault.strerror[1:]}"
    return str(fault) or type(fault).__name__


class FizgrukError(Exception):
    """Any error of this package."""


class Refused(FizgrukError):
    """The desk refused: nothing was done. What the proxy in front of it refuses has the HTTP status
    as its code, as 401 where the password is wrong."""

    def __init__(self, status: int, code: int, text: str) -> None:
        super().__init__(f"{code or status} {text}")
        self.status = status
        self.code = code or status
        self.is_desks = code != 0
        self.text = text

    def about(self, what: str) -> "Refused":
        """This refusal, and what it is about, which says more than that there is no such route."""
        self.args = (what if self.code == Code.NO_SUCH_ROUTE else f"{self}: {what}",)
        return self


class Unreachable(FizgrukError):
    """No answer came, or none that is a desk's: nobody knows whether a command was done."""

    def __init__(self, trouble: str, server: str = "") -> None:
        """`trouble` is why; the error's text names the server too."""
        super().__init__(f"{server}: {trouble}" if server else trouble)
        self.trouble = trouble


class TimedOut(FizgrukError, TimeoutError):
    """What was waited for didn't come in time."""


class ReservationEnded(FizgrukError):
    """A reservation ended before its board was acquired."""


class HoldLost(FizgrukError):
    """A board was lost while it was held: an admin or farm-watch ended its reservation."""


class NotGivenBack(FizgrukError):
    """A board may be held still, since no answer came when it was given back."""


class NoLog(FizgrukError):
    """A job has no log, or none yet."""


class NoArtifact(FizgrukError):
    """A job left no artifacts, or none of that name, or they aren't kept any longer."""


class NoText(FizgrukError):
    """A job has no text: it is a health check."""


class BadJobFile(FizgrukError):
    """A job file isn't one; nothing was submitted."""


class BadSettings(FizgrukError):
    """The settings can't be read, or can't be used."""
