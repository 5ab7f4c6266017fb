"""What of others' words reaches a terminal: letters, line ends and tabs."""
from __future__ import annotations

import io
import sys
from typing import Iterator, List

import pytest

from fizgruk._tools import terminal

ATTACKS = {
    "the clipboard": ("a\x1b]52;c;cm0gLXJm\x07b", "a\u241b]52;c;cm0gLXJm\u2407b"),
    "the window's name": ("\x1b]0;root\x1b\\x", "\u241b]0;root\u241b\\x"),
    "C1": ("\x9b2J\x9d0;x\x9c", "\\x9b2J\\x9d0;x\\x9c"),
    "an answer that is typed": ("\x1bP$qm\x1b\\\x1b[6n\x1b[c", "\u241bP$qm\u241b\\"),
    "a line written over": ("PASS\rFAIL\r\nnext\r\r\n", "PASS\nFAIL\nnext\n"),
    "colours and moves": ("\x1b[1;31mred\x1b[0m\x1b[2K\x1b[?2004h\x1b[12;1H.", "red."),
    "backspaces and a bell": ("no\x08\x08yes\x07\x7f", "no\u2408\u2408yes\u2407\\x7f"),
    "turned letters": ("x\u202etxt.exe\u2066", "x\\u202etxt.exe\\u2066"),
    "half a sequence at the end": ("x\x1b[3", "x\u241b[3"),
    "letters": ("ä 板 \U0001f600\ta\n", "ä 板 \U0001f600\ta\n"),
}


@pytest.mark.parametrize("said, shown", ATTACKS.values(), ids=list(ATTACKS))
def test_a_terminal_gets_no_commands_however_the_bytes_come(said: str, shown: str) -> None:
    def pieces(size: int) -> Iterator[bytes]:
        whole = said.encode()
        return (whole[at : at + size] for at in range(0, len(whole), size))

    for size in (1, 2, 3, 5, 100):
        text = terminal.Plain()
        assert "".join([*(text.of(it) for it in pieces(size)), text.end()]) == shown, size
    assert terminal.plain(said) == shown


def test_what_is_no_letter_is_marked() -> None:
    text = terminal.Plain()
    assert text.of(b"a\xff\xc3") + text.end() == "a\ufffd\ufffd"


class Tty(io.StringIO):
    """An output at a terminal, or elsewhere."""

    def __init__(self, is_one: bool):
        super().__init__()
        self.is_one = is_one

    def isatty(self) -> bool:
        return self.is_one


@pytest.mark.parametrize("is_one, shown", [(True, "\u241b]x own\x1b[J"), (False, "\x1b]x own\x1b[J")])
def test_an_output_is_guarded_where_it_is_a_terminal(monkeypatch: pytest.MonkeyPatch, is_one: bool, shown: str) -> None:
    outputs: List[Tty] = [Tty(is_one), Tty(is_one)]
    for name, it in zip(("stdout", "stderr"), outputs):
        monkeypatch.setattr("sys." + name, it)
    terminal.guard()
    terminal.guard()
    for output in (sys.stdout, sys.stderr):
        print("\x1b]x", end=" own", file=output, flush=True)
        terminal.write_own(output, "\x1b[J")
    assert [it.getvalue() for it in outputs] == [shown, shown]
