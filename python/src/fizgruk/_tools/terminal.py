"""What others wrote, on a terminal: a job's log, its text, a refusal. Escapes in it could type into the terminal's
clipboard, name its window, or write over what stands there; so they are shown, or left out where they only colour and
move. What goes into a file or a pipe is left as it is."""
import codecs
import re
import sys
from typing import Any, Optional, TextIO

# A whole control sequence, as for colours; the begin of one, or line ends, of which more may come.
_SEQUENCE = re.compile(r"\x1b\[[0-?]{0,32}[ -/]{0,4}[@-~]")
_OPEN = re.compile(r"(\x1b(\[[0-?]{0,32}[ -/]{0,4})?|\r+)\Z")
_LINE_END = re.compile(r"\r+\n?")
# What a terminal takes for a command, or by which the order of letters is turned around.
_COMMAND = re.compile("[\x00-\x08\x0b-\x1f\x7f-\x9f\u061c\u200e\u200f\u2028-\u202e\u2066-\u2069]")
_PICTURES = 0x2400  # letters that show what has a number below 0x20


class Plain:
    """A text without what a terminal takes for a command, as it comes piece by piece."""

    def __init__(self) -> None:
        self.decoder = codecs.getincrementaldecoder("utf-8")("replace")
        self.rest = ""

    def of(self, said: bytes) -> str:
        """What is to be shown of the next bytes; what may be half of a sequence waits for more."""
        text = self.rest + self.decoder.decode(said)
        is_open = _OPEN.search(text)
        self.rest = is_open.group() if is_open else ""
        return plain(text[: len(text) - len(self.rest)])

    def end(self) -> str:
        """What is left when no more comes."""
        text, self.rest = self.rest + self.decoder.decode(b"", True), ""
        return plain(text)


def plain(text: str) -> str:
    """A text without what a terminal takes for a command."""
    return _COMMAND.sub(_shown, _LINE_END.sub("\n", _SEQUENCE.sub("", text)))


def _shown(found: "re.Match[str]") -> str:
    number = ord(found.group())
    if number < 0x20:
        return chr(_PICTURES + number)
    return f"\\x{number:02x}" if number < 0x100 else f"\\u{number:04x}"


class Guarded:
    """An output at a terminal, which gets plain text alone."""

    def __init__(self, stream: TextIO):
        self.stream = stream

    def write(self, text: str) -> int:
        self.stream.write(plain(text))
        return len(text)

    def __getattr__(self, name: str) -> Any:
        return getattr(self.stream, name)


def guard() -> None:
    """Lets this process's outputs be plain where they are terminals."""
    for name in ("stdout", "stderr"):
        stream: Optional[TextIO] = getattr(sys, name)
        if stream is not None and not isinstance(stream, Guarded) and stream.isatty():
            setattr(sys, name, Guarded(stream))


def write_own(stream: Any, text: str) -> None:
    """Writes what this program itself has for the terminal."""
    (stream.stream if isinstance(stream, Guarded) else stream).write(text)
