"""watch.toml: what it may say, and how a fault is told with its line."""
from __future__ import annotations

import pathlib
from typing import Any

import pytest
from farm_watch import rules as watch_file
from fizgruk import limits
from fizgruk.words import BadFile

MAIL = "[mail]\nfrom = 'farm@lab.example'\nto = '{owner}@lab.example'\nadmin = 'l@lab.example'\n"
HOOK = "[webhook]\nurl = 'https://chat.lab.example/hook'\n"
FAULTS = [
    ("", "there is neither [mail] nor [webhook], so nobody can be told"),
    (MAIL, "it has no rule: nothing of [hold], [job], [board]"),
    (f"{MAIL}[hold]\nremnd = '4h'\n", "line 6: [hold] remnd: no such key: is remind meant?"),
    (f"{MAIL}[holds]\nremind = '4h'\n", "line 5: [holds]: no such table: is [hold] meant?"),
    (f"{MAIL}[hold]\n\nremind = '4 hors'\n",
     "line 7: [hold] remind: '4 hors' is no time, as \"4h\" or \"90 minutes\" is one"),
    (f"{MAIL}[hold]\nremind = 4\n",
     "line 6: [hold] remind: 4 is no time, as \"4h\" or \"90 minutes\" is one"),
    (f"{MAIL}[hold]\nend = '3s'\n", "line 6: [hold] end: '3s' isn't within 1 minute to 365 days"),
    (f"{MAIL}[hold]\nend = '4h'\nremind = '5h'\n",
     "line 7: [hold] remind: it isn't less than end"),
    (f"{MAIL}[hold]\nend = '4h'\nremind = '240 minutes'\n",
     "line 7: [hold] remind: it isn't less than end"),
    (f"{MAIL}[job]\nended = 'yes'\n",
     "line 6: [job] ended: 'yes' is none of these: true, false or a list of \"Complete\", "
     "\"Incomplete\", \"Infra\", \"Canceled\""),
    (f"{MAIL}[job]\nended = true\nby = ['webhook']\n",
     "line 7: [job] by: there is no table [webhook]"),
    (f"{MAIL}[board]\nbad = true\n", "line 6: [board] bad: it is an alarm of Prometheus now (examples/alerts.yml)"),
    (f"{MAIL}[board]\nfree = 'some'\n",
     "line 6: [board] free: 'some' is none of true, false, \"all\""),
    ("[mail]\nfrom = 'farm'\n",
     "line 2: [mail] from: 'farm' is no address of mail, as \"ann@lab.example\" is one"),
    ("[mail]\nfrom = 'f@x.example'\nto = 'a@x.example'\n",
     "line 3: [mail] to: 'a@x.example' has no {owner}, as \"{owner}@lab.example\" has"),
    ("[mail]\nfrom = 'f@x.example'\n[job]\nended = true\n",
     "line 4: [job] ended: its mail goes to owners, and [mail] has no to"),
    ("[mail]\n[job]\nended = true\n", "line 1: [mail]: from is missing: whom the mail comes from"),
    ("[webhook]\nurl = 'ftp://x/'\n",
     "line 2: [webhook] url: 'ftp://x/' is no address, "
     "as \"https://chat.lab.example/hook\" is one"),
    (f"{MAIL}[owners]\nann = 'ann'\n",
     "line 6: [owners] ann: 'ann' is no address of mail, as \"ann@lab.example\" is one"),
    (f"{MAIL}[pass]\nlate = '60s'\n", "line 5: [pass]: it is an alarm of Prometheus now (examples/alerts.yml)"),
    ("[webhook]\nca_file = '/x'\n[job]\nended = true\n", "line 1: [webhook]: url is missing"),
    (f"{MAIL}[mail.more]\nx = 1\n[job]\nended = true\n",
     "line 5: [mail] more: no such key: there are from, to, admin, sendmail"),
    (f"job = 1\n{MAIL}", "line 1: [job]: it isn't a table"),
    (f"{MAIL}sendmail = 'sendmail'\n", "line 5: [mail] sendmail: 'sendmail' is no path from / on, "
     "as \"/usr/sbin/sendmail\" is one"),
    (f"{MAIL}[owners]\n'a b' = 'ann@lab.example'\n", "line 6: [owners] a b: the owner's name 'a b' isn't a name of "
     "1 to 48 letters, digits, '-', '_', '.'"),
]


def rules_of(folder: pathlib.Path, text: str) -> watch_file.Rules:
    file = folder / "watch.toml"
    file.write_text(text)
    return watch_file.read_file(str(file))


@pytest.mark.parametrize("text, told", FAULTS, ids=[told for _, told in FAULTS])
def test_a_fault_is_told_with_its_line_and_what_is_allowed(tmp_path: pathlib.Path, text: str, told: str) -> None:
    with pytest.raises(BadFile) as fault:
        rules_of(tmp_path, text)
    assert str(fault.value) == f"{tmp_path}/watch.toml: {told}"


def test_what_is_no_toml_is_told_with_its_line(tmp_path: pathlib.Path) -> None:
    with pytest.raises(BadFile, match="watch.toml: .*line 1"):
        rules_of(tmp_path, "[mail\n")


def test_what_is_no_utf_8_is_told_with_its_byte(tmp_path: pathlib.Path) -> None:
    (tmp_path / "watch.toml").write_bytes(b"ok = '\xff'")
    with pytest.raises(BadFile, match="it isn't UTF-8 at byte 6"):
        watch_file.read_file(str(tmp_path / "watch.toml"))


def test_a_whole_file(tmp_path: pathlib.Path) -> None:
    rules = rules_of(tmp_path, (
        f"[desk]\nserver = 'http://desk'\n{MAIL}sendmail = '/bin/mail'\n"
        f"[owners]\nbob = 'b.smith@other.example'\ncat = ''\n{HOOK}"
        "[hold]\nremind = '90 minutes'\nend = '1d'\nby = ['webhook', 'mail']\n"
        "[job]\nended = ['Infra', 'Complete']\nby = ['mail']\n[board]\nfree = 'all'\n"
    ))
    assert rules.mail is not None and rules.webhook is not None
    addresses = [rules.mail.address_of(it) for it in ("ann", "bob", "cat")]
    assert addresses == ["ann@lab.example", "b.smith@other.example", ""]
    assert (rules.mail.sender, rules.mail.admin, rules.mail.sendmail) == (
        "farm@lab.example", ("l@lab.example",), "/bin/mail",
    )
    assert (rules.webhook.url, rules.webhook.ca_file) == ("https://chat.lab.example/hook", None)
    assert (rules.remind, rules.end) == (5400.0, 86400.0)
    assert (rules.outcomes, rules.free) == (("Complete", "Infra"), ("reservation", "group"))
    assert rules.desk == {"server": "http://desk"}
    both = ("mail", "webhook")
    assert rules.by == {"hold": both, "job": ("mail",), "board": both}


def test_what_a_file_doesnt_say(tmp_path: pathlib.Path) -> None:
    rules = rules_of(tmp_path, f"{HOOK}[job]\nended = true\n")
    assert (rules.mail, rules.remind, rules.end) == (None, None, None)
    assert rules.free == ()
    assert rules.outcomes == ("Complete", "Incomplete", "Infra", "Canceled")
    assert rules.by["job"] == ("webhook",)


def test_mail_is_sent_by_the_systems_sendmail_unless_the_file_names_one(tmp_path: pathlib.Path) -> None:
    mail = rules_of(tmp_path, f"{MAIL}[job]\nended = true\n").mail
    assert mail is not None and mail.sendmail == "/usr/sbin/sendmail"


def test_a_webhook_alone_wants_no_addresses(tmp_path: pathlib.Path) -> None:
    rules = rules_of(tmp_path, f"[mail]\nfrom = 'f@x.example'\n{HOOK}[board]\nfree = true\nby = ['webhook']\n")
    assert rules.by["board"] == ("webhook",)


@pytest.mark.parametrize("text, seconds", [
    ("4h", 14400), ("1h30m", 5400), ("1.5h", 5400), ("2d", 172800), ("90s", 90), ("90 minutes", 5400),
    ("1 hour 30 minutes", 5400), ("1 day", 86400),
])
def test_a_time_is_short_or_as_a_job_file_has_it(text: str, seconds: float) -> None:
    assert watch_file.seconds_of(text) == seconds


@pytest.mark.parametrize("said", ["", "4", "h", "4h x", "h4", "4 h 30", "-4h", "4w", 4, None, ["4h"]])
def test_what_is_no_time(said: Any) -> None:
    with pytest.raises(limits.BadTime):
        watch_file.seconds_of(said)


def test_the_ends_of_a_span_are_within_it(tmp_path: pathlib.Path) -> None:
    for value in ("60s", "365d"):
        rules_of(tmp_path, f"hold.remind = '{value}'\n{MAIL}")
    for value in ("9s", "366d"):
        with pytest.raises(BadFile, match="isn't within"):
            rules_of(tmp_path, f"hold.remind = '{value}'\n{MAIL}")


@pytest.mark.parametrize("url", ["http://x", "https://x:1/y?z", "http://[::1]/"])
def test_an_address_of_a_webhook(url: str) -> None:
    assert watch_file.url_of(url) == url


@pytest.mark.parametrize("url", ["", "x", "ftp://x", "http://", "http://x:0", "http://x:99999", "http://[", 5])
def test_what_is_no_address_of_a_webhook(url: Any) -> None:
    with pytest.raises(BadFile):
        watch_file.url_of(url)


@pytest.mark.parametrize("address", ["ann", "@x", "ann@", "a b@x", "a@x, b@y", "ä@x.example", "", "ann@x\n", 5])
def test_what_is_no_address_of_mail(address: Any) -> None:
    with pytest.raises(BadFile):
        watch_file.address_of(address)
