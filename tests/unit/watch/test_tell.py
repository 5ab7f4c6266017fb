"""How farm-watch tells, and what it says of itself: by ways of the test's own, and without a desk."""
from __future__ import annotations

import argparse
import contextlib
import os
import pathlib
import signal
import socket
import sqlite3
import threading
import time
import types
from typing import Any, Callable, Dict, List, Optional, Tuple

import pytest
from farm_watch import (
    main as watch,
    store as watch_store,
    tell as watch_tell,
)
from farm_watch.rules import Mail, Rules, Webhook
from farm_watch.store import Delivery, Event, Store
from fizgruk._tools import service
from fizgruk.errors import Refused, Unreachable

NOW = 1_800_000_000
BODY = {"event": "try", "at": NOW, "owner": "ann", "subject": "a try", "text": "It can."}
IT = Delivery(3, "mark-3", 1, NOW, BODY)
BY: Dict[str, Tuple[str, ...]] = {it: ("mail", "webhook") for it in ("hold", "job", "board")}
NOBODY = Rules({}, None, None, None, None, (), (), BY)


def mail_of(folder: pathlib.Path, script: str, **owners: str) -> Mail:
    """Mail by a sendmail that is this script."""
    file = folder / "sendmail"
    file.write_text(f"#!/bin/sh\n{script}\n")
    file.chmod(0o755)
    return Mail("farm@x.example", "{owner}@x.example", ("one@x.example", "two@x.example"), str(file), owners)


# ---- mail


def test_a_mail_is_handed_over_whole(tmp_path: pathlib.Path) -> None:
    mail = mail_of(tmp_path, f"cat > {tmp_path}/mail; echo \"$@\" > {tmp_path}/words")
    assert watch_tell.send_mail(mail, IT) == "ann@x.example"
    assert (tmp_path / "words").read_text() == "-t -i\n"
    lines = (tmp_path / "mail").read_text().splitlines()
    for wanted in ("To: ann@x.example", "Subject: farm: a try", "Message-ID: <mark-3@x.example>", "X-Farm-Event: try", "It can."):
        assert wanted in lines
    admins = IT._replace(body={**BODY, "owner": ""})
    assert watch_tell.send_mail(mail, admins) == "one@x.example, two@x.example"


class MailServer(threading.Thread):
    """The mail server of a machine: answers each line in order, and keeps what it got."""

    def __init__(self, answers: Tuple[str, ...]):
        super().__init__(daemon=True)
        self.answers = answers
        self.got: List[str] = []
        self.listener = socket.create_server(("127.0.0.1", 0))
        self.start()

    def run(self) -> None:
        if not self.answers:
            return
        line, _ = self.listener.accept()
        with line, line.makefile("rwb") as file:
            for answer in self.answers:
                file.write(f"{answer}\r\n".encode())
                file.flush()
                said = file.readline()
                while answer.startswith("354") and said != b".\r\n":
                    self.got.append(said.decode().rstrip())
                    said = file.readline()
                self.got.append(said.decode().rstrip())


@pytest.fixture
def served(tmp_path: pathlib.Path, monkeypatch: pytest.MonkeyPatch) -> Callable[..., Tuple[Mail, List[str]]]:
    """Mail of this machine, whose server gives these answers, or isn't there; and what that gets. Its sendmail keeps a
    mail."""

    def mail(*answers: str) -> Tuple[Mail, List[str]]:
        monkeypatch.setattr(watch_tell, "SENDMAIL", str(tmp_path / "sendmail"))
        server = MailServer(answers)
        monkeypatch.setattr(watch_tell, "MAIL_SERVER", server.listener.getsockname())
        if not answers:
            server.listener.close()
        return mail_of(tmp_path, f"cat > {tmp_path}/mail"), server.got

    return mail


TO_ADMINS = IT._replace(body={**BODY, "owner": ""})


@pytest.mark.parametrize("it, answers, told", [
    (IT, ("250 ok", "354 go on", "250 taken"), "ann@x.example"),
    (TO_ADMINS, ("250 ok", "550 no such user", "354 go on", "250 taken"),
     "one@x.example; two@x.example was refused: 550 no such user"),
])
def test_a_mail_goes_to_the_mail_server_of_this_machine_where_one_listens(
    served: Any, tmp_path: pathlib.Path, it: Delivery, answers: Tuple[str, ...], told: str
) -> None:
    """An address that is refused beside others is told as refused."""
    mail, got = served("220 x", "250 x", "250 ok", *answers, "221 bye")
    assert watch_tell.send_mail(mail, it) == told
    assert {"Message-ID: <mark-3@x.example>", "It can."} <= set(got)
    assert not (tmp_path / "mail").exists()


def test_a_mail_server_that_refuses_is_told_and_sendmail_isnt_asked(served: Any, tmp_path: pathlib.Path) -> None:
    mail, _ = served("220 x", "250 x", "550 not you", "250 ok", "221 bye")
    with pytest.raises(watch_tell.Undelivered, match="the mail server of this machine: .*not you"):
        watch_tell.send_mail(mail, IT)
    assert not (tmp_path / "mail").exists()


def test_without_a_mail_server_it_is_sendmail(served: Any, tmp_path: pathlib.Path) -> None:
    assert watch_tell.send_mail(served()[0], IT) == "ann@x.example"
    assert "It can." in (tmp_path / "mail").read_text()


def test_who_wants_no_mail_gets_none(tmp_path: pathlib.Path) -> None:
    assert watch_tell.send_mail(mail_of(tmp_path, "exit 1", ann=""), IT) == ""


@pytest.mark.parametrize("script, told", [
    ("cat > /dev/null; echo no such user >&2; exit 67", "sendmail ended with status 67: no such user$"),
    ("cat > /dev/null; exit 1", "sendmail ended with status 1: no word$"),
    ("exec sleep 60", "timed out"), ("", "No such file or directory"),
])
def test_a_mail_that_isnt_taken_is_told_with_its_reason(
    tmp_path: pathlib.Path, monkeypatch: pytest.MonkeyPatch, script: str, told: str
) -> None:
    """Also where sendmail hangs, or isn't there."""
    mail = mail_of(tmp_path, script)
    if not script:
        os.unlink(mail.sendmail)
    monkeypatch.setattr(watch_tell, "SENDMAIL_WAITS", 0.01 if "sleep" in script else 60)
    with pytest.raises(watch_tell.Undelivered, match=told):
        watch_tell.send_mail(mail, IT)


# ---- webhook


def test_a_webhooks_certificates_that_arent_there_are_told(tmp_path: pathlib.Path) -> None:
    with pytest.raises(watch_tell.Undelivered, match="^/not/there.pem: .*No such file"):
        watch_tell.post(Webhook("https://hook.example", "/not/there.pem"), IT)


class Hook(threading.Thread):
    """A webhook that takes one post and says this, piece by piece."""

    def __init__(self, *said: bytes, pause: float = 0) -> None:
        super().__init__(daemon=True)
        self.said, self.pause, self.got = said, pause, b""
        self.listener = socket.create_server(("127.0.0.1", 0))
        self.url = f"http://127.0.0.1:{self.listener.getsockname()[1]}"
        self.start()

    def run(self) -> None:
        line, _ = self.listener.accept()
        with line, contextlib.suppress(OSError):
            while not self.got.endswith(b"}"):
                self.got += line.recv(65536)
            for it in self.said:
                line.sendall(it)
                time.sleep(self.pause)


@pytest.mark.parametrize("said, told", [
    (b"HTTP/1.1 302 Found\r\n\r\n", "answered 302"), (b"HTTP/1.1 500 Oh\r\n\r\n", "answered 500"),
    (b"", "its answer isn't HTTP"), (b"hello\r\n", "its answer isn't HTTP"),
    (b"SSH-2.0-OpenSSH x\r\n", "its answer isn't HTTP"), (b"x" * 70000, "Separator is .*"),
])
def test_what_a_webhook_doesnt_take_is_told(said: bytes, told: str) -> None:
    with pytest.raises(watch_tell.Undelivered, match=f"^127.0.0.1: {told}$"):
        watch_tell.post(Webhook(Hook(said).url), IT)


def test_a_webhook_that_isnt_there_is_told() -> None:
    with socket.create_server(("127.0.0.1", 0)) as closed:
        port = closed.getsockname()[1]
    with pytest.raises(watch_tell.Undelivered, match="^127.0.0.1: .*(refused|Connect call failed)"):
        watch_tell.post(Webhook(f"http://127.0.0.1:{port}/"), IT)


def test_a_post_has_the_whole_message_in_its_text() -> None:
    hook = Hook(b"HTTP/1.1 204 No Content\r\n\r\n")
    assert watch_tell.post(Webhook(f"{hook.url}?b=c"), IT) == "127.0.0.1"
    hook.join(10)
    head, _, body = hook.got.decode().partition("\r\n\r\n")
    first, *fields = head.split("\r\n")
    assert first == "POST /?b=c HTTP/1.1"
    assert {f"host: {hook.url[7:]}", "idempotency-key: mark-3", f"content-length: {len(body)}"} <= set(fields)
    assert '"text": "ann: a try\\nIt can."' in body and '"id": "mark-3"' in body


@pytest.mark.parametrize("said", [(), (b"H",) * 100])
def test_a_webhook_that_is_slow_holds_up_nobody(monkeypatch: pytest.MonkeyPatch, said: Tuple[bytes, ...]) -> None:
    """Also where something comes of its answer each time."""
    monkeypatch.setattr(watch_tell, "WEBHOOK_WAITS", 0.2)
    hook = Hook(*said, b"", pause=0.05 if said else 60)
    with pytest.raises(watch_tell.Undelivered, match="^127.0.0.1: no answer$"):
        watch_tell.post(Webhook(hook.url), IT)


# ---- what is told, one after another


class Told:
    """A teller over a store with these events, and what it says; its way is the test's."""

    def __init__(self, file: str, *names: str) -> None:
        self.store = Store(file)
        self.store.keep(watch_store.nothing(), [Event(it, NOW, ["way"], {**BODY, "subject": f"event {it}"}) for it in names])
        self.said: List[str] = []
        self.taken: List[str] = []
        self.fault: Optional[Exception] = None
        self.teller = watch_tell.Messenger(self.store, "way", self.way, self.said.append)

    def way(self, it: Delivery) -> str:
        if self.fault:
            raise self.fault
        self.taken.append(it.body["subject"])
        return "ann"


@pytest.fixture
def told(tmp_path: pathlib.Path, monkeypatch: pytest.MonkeyPatch) -> Told:
    monkeypatch.setattr(watch_store, "time", types.SimpleNamespace(time=lambda: float(NOW)))
    return Told(str(tmp_path / "watch.db"), "a", "b")


def test_each_message_is_told_once_and_printed(told: Told, capsys: pytest.CaptureFixture[str]) -> None:
    assert told.teller._one() and told.teller._one() and not told.teller._one()
    assert told.taken == ["event a", "event b"]
    assert capsys.readouterr().out == "told by way to ann: event a\ntold by way to ann: event b\n"


def test_a_message_that_goes_to_nobody_isnt_printed(told: Told, capsys: pytest.CaptureFixture[str]) -> None:
    told.teller.way = lambda it: ""
    assert told.teller._one()
    assert capsys.readouterr().out == ""


def test_whatever_a_way_raises_holds_no_other_message_up(told: Told) -> None:
    told.fault = KeyError()
    assert told.teller._one() and told.teller._one() and not told.teller._one()
    assert told.said == [f"way: KeyError: 'event {it}' is tried again in 5 seconds" for it in "ab"]


def test_a_message_of_long_ago_is_given_up(told: Told, monkeypatch: pytest.MonkeyPatch) -> None:
    told.fault = watch_tell.Undelivered("host: refused")
    monkeypatch.setattr(watch_store, "GIVES_UP", -1)
    assert told.teller._one()
    assert told.said == ["way: host: refused: 'event a' is given up"]
    assert told.teller._one() and not told.teller._one()


def test_nothing_more_is_told_until_what_was_is_noted(told: Told, monkeypatch: pytest.MonkeyPatch) -> None:
    """Else it would be told twice, by the next process."""
    plain, full = told.store.done, [True]

    def done(it: Delivery, way: str) -> None:
        if full:
            raise sqlite3.OperationalError("database or disk is full")
        plain(it, way)

    monkeypatch.setattr(told.store, "done", done)
    for _ in range(2):
        with pytest.raises(sqlite3.Error):
            told.teller._one()
    assert told.taken == ["event a"]
    full.clear()
    assert told.teller._one()
    assert told.taken == ["event a", "event b"]


def test_a_thread_goes_on_over_faults_of_its_store_and_ends_when_asked(told: Told, monkeypatch: pytest.MonkeyPatch) -> None:
    def broken(*_: object) -> None:
        raise sqlite3.OperationalError("disk I/O error")

    class Wake:
        def wait(self, seconds: float) -> None:
            assert seconds == watch_tell.LOOKS, "a store that can't be read is looked at as often as an empty one"
            told.teller.is_to_end = True

        def clear(self) -> None:
            pass

    monkeypatch.setattr(told.store, "take", broken)
    monkeypatch.setattr(told.teller, "wake", Wake())
    told.teller.run()
    assert told.said == ["what is told by way can't be noted: disk I/O error"]


# ---- farm-watch itself


def test_the_files_desk_stands_for_what_isnt_given(monkeypatch: pytest.MonkeyPatch) -> None:
    monkeypatch.setenv("WATCH_USER", "eve")
    options = argparse.Namespace(server="http://given", user=None, timeout=None)
    watch.use_table(options, {"server": "http://file", "user": "ann", "timeout": "3"})
    assert vars(options) == {"server": "http://given", "user": None, "timeout": "3"}


class Served:
    """farm-watch's looks: each does what the test says next, and the last is followed by a signal."""

    def __init__(self, monkeypatch: pytest.MonkeyPatch, *looks: Optional[Exception]) -> None:
        self.looks = list(looks)
        self.desk = types.SimpleNamespace(server="http://desk")
        monkeypatch.setattr(time, "sleep", self.sleep)

    def round(self) -> None:
        it = self.looks.pop(0)
        if it:
            raise it

    def sleep(self, seconds: float) -> None:
        assert 0 <= seconds <= 5
        if not self.looks:
            raise service.Interrupted(signal.SIGTERM)

    def serve(self) -> None:
        it: Any = self
        service.rounds(watch.tell, 5.0, lambda: watch.look(it, []))


def test_troubles_of_looks_are_told_once_and_their_end(
    monkeypatch: pytest.MonkeyPatch, capsys: pytest.CaptureFixture[str]
) -> None:
    away, full = Unreachable("refused", "http://desk"), sqlite3.OperationalError("disk is full")
    looks = Served(monkeypatch, away, away, None, None, full, Refused(409, 4, "full"), None)
    with pytest.raises(service.Interrupted):
        looks.serve()
    assert capsys.readouterr().err.splitlines() == [f"farm-watch: {it}" for it in (
        "no answer from the desk at http://desk: refused", "it goes on", "what was seen can't be kept: disk is full",
        "the desk refuses: 4 full", "it goes on")]


@pytest.mark.parametrize("status", [401, 403])
def test_a_desk_that_doesnt_let_it_in_ends_it(
    monkeypatch: pytest.MonkeyPatch, capsys: pytest.CaptureFixture[str], status: int
) -> None:
    with pytest.raises(SystemExit) as end:
        Served(monkeypatch, None, Refused(status, 0, "no"), None).serve()
    assert end.value.code == 3
    assert capsys.readouterr().err == f"farm-watch: the desk at http://desk refuses: {status} no\n"
