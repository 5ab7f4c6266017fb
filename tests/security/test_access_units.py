"""Ways round the way to boards, by its units under a systemd: what a session, a job, the sshd's account, a slow desk, and
who only connects can't do; and what maintainer scripts do to links in folders of others."""
from __future__ import annotations

import json
import os
import re
import subprocess
import sys
from typing import Callable, Iterator, List

import pytest

sys.path.insert(0, os.path.join(os.path.dirname(os.path.abspath(__file__)), "../tools"))
import access_lab  # noqa: E402
from access_lab import GROUPS, PLACE, Lab, lab_fixture, until  # noqa: E402
from machine import ACCOUNTS, Machine  # noqa: E402
from served import TOP  # noqa: E402

__all__ = ["lab_fixture"]
pytestmark = [pytest.mark.xdist_group("machine"), pytest.mark.slow(60)]
NOT_YOURS, LOST = 5, 6
DESK = "curl -sS -m 3 -H x-user:admin http://127.0.0.1:880/status"
# Who is handed an open file of a board's from within a hold, and writes to it from outside of all of them.
CONFEDERATE = """\
import os, socket, time
there = socket.socket(socket.AF_UNIX)
there.bind("/srv/open/there")
os.chmod("/srv/open/there", 0o777)
there.listen()
line = there.accept()[0]
opened = socket.recv_fds(line, 10, 1)[1][0]
while True:
    os.write(opened, b"CONFEDERATE")
    time.sleep(0.02)
"""
GIVES = """\
import os, socket
line = socket.socket(socket.AF_UNIX)
line.connect("/srv/open/there")
socket.send_fds(line, [b"x"], [os.open("/dev/boards/b2", os.O_RDWR | os.O_NOCTTY)])
"""
# Between farm-access and the desk: each answer comes so many seconds late.
SLOW = """\
import http.server, socketserver, sys, time, urllib.request
class Late(http.server.BaseHTTPRequestHandler):
    def do_GET(self):
        said = urllib.request.urlopen(urllib.request.Request("http://127.0.0.1:880" + self.path, headers={"x-user": "access"})).read()
        time.sleep(float(sys.argv[1]))
        self.send_response(200)
        self.send_header("content-type", "application/json")
        self.send_header("content-length", str(len(said)))
        self.end_headers()
        self.wfile.write(said)
    def log_message(self, *words): pass
http.server.ThreadingHTTPServer(("127.0.0.1", 8881), Late).serve_forever()
"""


def shell(lab: Lab, board: str, script: str) -> str:
    """What a person gets who has a way of the lab's that is a shell."""
    tried = lab.session("ann", board, "shell", said=f"exec 2>&1\n{script}\n".encode())
    return tried.output.decode(errors="replace")


# ---- out of a hold, and to what is another's


OUT_OF_A_HOLD = (
    ("echo $$ > /sys/fs/cgroup/cgroup.procs", "Read-only|Permission denied|nonexistent"),
    ("echo 1 > /sys/fs/cgroup/system.slice/farm.service/cgroup.kill", "Read-only|Permission denied|nonexistent"),
    ("systemd-run true", "Failed to connect|not been booted|No such file"),
    ("unshare -Ur true", "Operation not permitted"),
    ("cat < /dev/boards/b3", "Operation not permitted"),
    ("cat < /dev/boards/b1", "Operation not permitted|Permission denied"),
    ("mknod /tmp/b3 c 136 2", "Operation not permitted"),
    (DESK, "Couldn't connect|Failed to connect"),
    ("farm-access way b3 say x", "the door to the boards isn't open"),
    ("touch /etc/x", "Read-only"),
    ("cat /var/lib/farm-access/consoles/*/*", "No such file|Permission denied"),
)
OUT_OF_A_JOB = (
    ("echo x > /dev/boards/b1", "Permission denied"),
    ("echo x > /dev/boards/b2", "Permission denied"),
    ("farm-access way b1 console < /dev/null", "b1 is no board of this job's"),
    ("echo $$ > /sys/fs/cgroup/cgroup.procs", "Read-only"),
    ("echo x > /run/farm-access/b1.last", "Permission denied"),
    (DESK, "Couldn't connect|Failed to connect"),
)
OF_THE_BOARDS_SSHD = (
    DESK, "ls /run/farm-access", "ls /var/lib/farm-access", "echo x > /dev/boards/b2", "python3 -c 'import socket; s = socket.socket(1);"
    " s.connect(\"/run/farm-access-opener.socket\")'", "echo 1 > /sys/fs/cgroup/farm.slice/cgroup.kill", "touch /etc/farm/keys/mallory",
)


def test_from_within_a_hold_nothing_else_is_reached(lab: Lab) -> None:
    lab.reserve("ann", "b2")
    for script, refused in OUT_OF_A_HOLD:
        said = shell(lab, "b2", script)
        assert re.search(refused, said), (script, said)
    assert lab.machine.status("farm") == "active"


def test_a_job_writes_to_no_board_that_somebody_else_holds(lab: Lab) -> None:
    """Also where its unit has all devices of the machine in sight."""
    lab.reserve("ann", "b1")
    number, before = lab.submit("b2"), lab.text("b1")
    for script, refused in OUT_OF_A_JOB:
        tried = lab.try_words(lab.job(number, "/bin/sh", "-c", script))
        assert re.search(refused, tried.errors + tried.output.decode()), (script, tried)
    assert lab.text("b1") == before


def test_the_account_of_the_boards_sshd_has_no_rights(lab: Lab) -> None:
    for script in OF_THE_BOARDS_SSHD:
        assert lab.machine.run("sh", "-c", script, user="board", check=False).returncode != 0, script
    found = lab.machine.run("find", "/etc", "/usr", "/opt", "/srv", "-xdev", "-writable", "-not", "-type", "l", user="board", check=False)
    assert found.stdout == ""


def test_the_guard_kills_below_the_slice_of_holds_and_nothing_else(lab: Lab) -> None:
    main = lab.machine.run("systemctl", "show", "-P", "MainPID", "farm-access-guard").stdout.strip()
    for unit in ("farm.service", "farm-access.service"):
        script = f"echo 1 > /sys/fs/cgroup/system.slice/{unit}/cgroup.kill"
        ran = lab.machine.run("nsenter", "-t", main, "-m", "sh", "-c", script, check=False)
        assert "Read-only" in ran.stderr, ran
    lab.machine.run("nsenter", "-t", main, "-m", "sh", "-c", f"echo 1 > {GROUPS}/cgroup.kill")
    with open(lab.there(f"/proc/{main}/status"), encoding="ascii") as file:
        assert re.search("^CapEff:\t0+$", file.read(), re.MULTILINE)
    assert lab.machine.status("farm") == "active"


def test_what_is_forged_at_the_door_is_refused(lab: Lab) -> None:
    """A job says whose key it has; and what is no question at all."""
    lab.reserve("ann", "b1")
    number = lab.submit("b2")
    key = lab.read(f"{PLACE}/people/ann.pub").split()[1]
    program = (
        "import os, socket, sys; s = socket.socket(socket.AF_UNIX); s.connect('/run/farm-access-jobs.socket');"
        " socket.send_fds(s, [sys.argv[1].encode()], [os.open('/dev/null', os.O_RDWR)] * 3); s.settimeout(60); print(s.recv(9999).decode())"
    )
    for words in (json.dumps({"words": "b1 console", "auth": f"publickey ssh-ed25519 {key}"}), "{" * 8000, '{"words": 1}', "null", "x"):
        tried = lab.try_words(lab.job(number, "/usr/bin/python3", "-c", program, words))
        assert '"status": 0' not in tried.output.decode() and not lab.units("b1"), (words, tried)
    assert lab.session("ann", "b1", "say", "x").output == b"x\n"


# ---- what outlives a session


def test_a_session_ends_with_the_key_by_which_it_came(lab: Lab) -> None:
    """Within its hold, where the person has another key still; whose key stays goes on."""
    lab.reserve("ann", "b2")
    lab.reserve("bob", "b3")
    taken, other = lab.begin("ann", "b2", "sleep"), lab.begin("bob", "b3", "sleep")
    lab.running("b2", "sleep")
    lab.running("b3", "sleep")
    keys = "/etc/farm/keys/ann"
    lab.machine.run("sh", "-c", f"cp {keys} /root/ann; cp {PLACE}/people/stranger.pub /etc/farm/new")
    lab.machine.run("mv", "-T", "/etc/farm/new", keys)  # (at once, as an editor does)
    try:
        assert taken.wait(60) == NOT_YOURS
        assert taken.stderr and b"your key is nobody's any more" in taken.stderr.read()
        assert other.poll() is None and any("farm-hold-b3" in it for it in lab.units("b3"))
    finally:
        lab.machine.run("mv", "/root/ann", keys)


def test_a_device_that_was_handed_on_is_taken_away_at_the_next_hold(lab: Lab) -> None:
    lab.machine.write("/srv/there.py", CONFEDERATE)
    lab.machine.write("/srv/gives.py", GIVES)
    lab.machine.run("install", "-d", "-m", "777", "/srv/open")
    lab.machine.run("systemd-run", "-q", "--unit=confederate", "-p", "User=nobody", "/usr/bin/python3", "/srv/there.py")
    lab.machine.wait("it", "ls", "/srv/open")
    number = lab.reserve("ann", "b2")
    shell(lab, "b2", "python3 /srv/gives.py")
    until(lambda: lab.text("b2").endswith(b"CONFEDERATE"))
    lab.cancel("ann", number)
    lab.reserve("bob", "b2")
    lab.begin("bob", "b2", "nasty", "bob", "0.02")
    until(lambda: lab.text("b2").endswith(b"bob"))
    until(lambda: lab.text("b2").count(b"bob") > 20)
    said = lab.text("b2")
    assert b"CONFEDERATE" in said and b"CONFEDERATE" not in said[said.index(b"bob"):]
    assert lab.machine.status("confederate") == "failed"


# ---- a slow desk, and who only connects


@pytest.fixture
def slow(lab: Lab) -> Iterator[Callable[[float], None]]:
    """Puts what answers late between farm-access and the desk."""
    lab.machine.write("/srv/slow.py", SLOW)

    def begin(seconds: float) -> None:
        lab.machine.run("systemd-run", "-q", "--unit=slow", "/usr/bin/python3", "/srv/slow.py", str(seconds))
        lab.machine.wait("it", "sh", "-c", "ss -ltn | grep :8881")
        lab.machine.write("/etc/farm/access.toml", f'desk = "http://127.0.0.1:8881"\n{access_lab.WAYS}')
        lab.machine.run("systemctl", "restart", "farm-access-guard")

    yield begin
    lab.machine.run("systemctl", "stop", "slow")
    lab.machine.write("/etc/farm/access.toml", access_lab.WAYS)
    lab.machine.run("systemctl", "restart", "farm-access-guard")


@pytest.mark.parametrize("seconds", [1.3, 5.0])
def test_a_hold_ends_where_the_desk_answers_late(lab: Lab, slow: Callable[[float], None], seconds: float) -> None:
    slow(seconds)
    number = lab.reserve("ann", "b2")
    before = len(lab.got("b2"))
    line = lab.begin("ann", "b2", "nasty", "late", "0.03")
    until(lambda: len(lab.got("b2")) > before)
    assert len(lab.got("b2")) > before, "a late answer counts when it comes"
    lab.cancel("ann", number)
    assert line.wait(60) == LOST
    assert not lab.units("b2")


def test_idle_connections_keep_nobody_out_who_comes_from_elsewhere(lab: Lab) -> None:
    program = (
        "import socket, sys, time\nthere = [socket.create_connection(('127.0.0.1', 2222)) for _ in range(420)]\n"
        "print('there', flush=True)\ntime.sleep(100)"
    )
    lab.reserve("ann", "b2")
    idle = lab.begun("/usr/bin/python3", "-c", program)
    assert idle.stdout and idle.stdout.readline() == b"there\n"
    lab.machine.run("ip", "address", "add", "192.0.2.7/32", "dev", "lo")
    assert lab.session("ann", "b2", "say", "x", options=["-b", "192.0.2.7"]).output == b"x\n"
    lab.machine.run("pkill", "-f", "range[(]420")
    idle.wait(60)


def nobody_is_there(lab: Lab) -> None:
    """No use of the tests before goes on: not in the door, and so in no unit."""
    lab.machine.run("systemctl", "kill", "--signal=KILL", "farm-access")
    until(lambda: not lab.units() and lab.session("bob", "b3", "ways").status == 0)


def test_a_person_has_so_many_places_at_once_and_no_more(lab: Lab) -> None:
    """Of all that the door has; what ends gives its place back."""
    nobody_is_there(lab)
    lab.reserve("ann", "b2")
    lab.reserve("bob", "b3")
    there: List["subprocess.Popen[bytes]"] = []
    while len(lab.units("b2")) < 16 and len(there) < 30:  # (so many at once don't log in)
        before = len(lab.units("b2"))
        there.append(lab.begin("ann", "b2", "sleep"))
        until(lambda: len(lab.units("b2")) > before or there[-1].poll() is not None)
    assert len(lab.units("b2")) == 16, [it.stderr and it.stderr.read() for it in there if it.poll() is not None]
    more = lab.session("ann", "b2", "say", "x")
    assert (more.status, more.output) == (4, b"") and "you use 16 ways at once" in more.errors, more
    assert lab.session("bob", "b3", "say", "x").output == b"x\n"
    next(it for it in there if it.poll() is None).kill()
    until(lambda: lab.session("ann", "b2", "say", "x").status == 0)
    assert lab.session("ann", "b2", "say", "x").output == b"x\n"


def test_who_asks_for_a_record_and_doesnt_read_it_has_a_place(lab: Lab) -> None:
    nobody_is_there(lab)
    number = lab.reserve("ann", "b2")
    record = f"/var/lib/farm-access/consoles/b2/reservation-{number}.cast"
    head = json.dumps({"version": 2, "env": {"FARM_PERSON": "ann"}})
    row = json.dumps([0.0, "o", "x" * 50_000])
    lab.machine.run("sh", "-c", f"mkdir -p $(dirname {record}); (echo '{head}'; yes '{row}' | head -n 200) > {record}")
    there: List["subprocess.Popen[bytes]"] = []
    while len(there) < 16:
        there.append(lab.begin("ann", "b2", "console", "--log"))
        assert there[-1].stdout and there[-1].stderr
        assert there[-1].stdout.read(1) == b"x", there[-1].stderr.read()
    more = lab.session("ann", "b2", "ways")
    assert "you use 16 ways at once" in more.errors, more
    for it in there:
        it.kill()
    until(lambda: lab.session("ann", "b2", "ways").status == 0)
    assert lab.session("ann", "b2", "ways").status == 0


def test_who_logs_in_and_opens_nothing_is_let_go(lab: Lab) -> None:
    """(It waits for less than the package's sshd does.)"""
    lab.machine.run("sh", "-c", "sed 's/^UnusedConnectionTimeout .*/UnusedConnectionTimeout 2/; s/^Port .*/Port 2223/'"
                    " /etc/farm/farm-access-sshd.conf > /etc/farm/short.conf")
    lab.machine.run("systemd-run", "-q", "--unit=short", "-p", "User=board", "/usr/sbin/sshd", "-D", "-e", "-f", "/etc/farm/short.conf")
    lab.machine.wait("it", "sh", "-c", "ss -ltn | grep :2223")
    try:
        idle = lab.begin("ann", options=["-N", "-p", "2223"])
        assert idle.wait(60) == 255
    finally:
        lab.machine.run("systemctl", "stop", "short")


# ---- units and scripts


def test_units_have_limits(lab: Lab) -> None:
    """(test_units.py says how much is open in each.)"""
    for unit in ("farm-access-sshd", "farm-access-guard", "farm-access", "farm-access-opener"):
        shown = lab.machine.run("systemctl", "show", f"{unit}.service", "-P", "TasksMax", "-P", "MemoryMax").stdout
        assert len(shown.split()) == 2 and "infinity" not in shown, unit


def test_a_device_is_opened_by_the_opener_alone(lab: Lab) -> None:
    """The door, which is root's, may open none."""
    main = lab.machine.run("systemctl", "show", "-P", "MainPID", "farm-access").stdout.strip()
    with open(lab.there(f"/proc/{main}/status"), encoding="ascii") as file:
        assert re.search("^CapEff:\t0+$", file.read(), re.MULTILINE)
    script = "echo $$ > /sys/fs/cgroup/system.slice/farm-access.service/cgroup.procs; exec head -c 0 /dev/boards/b2"
    tried = lab.machine.run("sh", "-c", script, check=False)
    assert "Operation not permitted" in tried.stderr, tried


SCRIPTS = [
    (package, script, words)
    for package in ("fizgruk-access", "fizgruk-farm")
    for script, words in (("postinst", "configure"), ("postinst", "configure 1.9-1"), ("preinst", "upgrade 1.9-1"), ("prerm", "remove"),
                          ("postrm", "remove"), ("postrm", "purge"))
    if os.path.exists(os.path.join(TOP, f"packaging/debian/{package}.{script}"))
]


@pytest.mark.parametrize("package, script, words", SCRIPTS, ids=[" ".join(it) for it in SCRIPTS])
def test_a_maintainer_script_follows_no_link(machine: Machine, package: str, script: str, words: str) -> None:
    """Each folder of each account is a link to a folder of root's: that stays as it was."""
    with open(os.path.join(TOP, f"packaging/debian/{package}.{script}"), encoding="utf-8") as file:
        machine.write("/srv/script", file.read())
    accounts = [*ACCOUNTS, "board", "farm-backup"]
    places: List[str] = [f"/var/lib/{it}" for it in ("farm-access", "farm-access-sshd", *accounts)]
    places += [f"/var/log/{it}" for it in ("farm", "farm-access")] + ["/run/farm-access", "/var/lib/prometheus/node-exporter"]
    machine.run("sh", "-c", "mkdir -p /srv/roots/jobs /srv/roots/consoles; echo secret > /srv/roots/shadow; chmod -R go= /srv/roots")
    machine.run("sh", "-c", 'getent passwd board > /dev/null || adduser --system --group --quiet --no-create-home board')
    machine.run("sh", "-c", 'mkdir -p /var/lib/prometheus; for it; do rm -rf "$it"; ln -s /srv/roots "$it"; done', "sh", *places)
    look = ["find", "/srv/roots", "-printf", "%p %u %g %m %y %s\\n"]
    before = machine.run(*look).stdout
    tmpfiles = os.path.join(TOP, f"packaging/debian/{package}.tmpfiles")
    if os.path.exists(tmpfiles):
        with open(tmpfiles, encoding="utf-8") as file:
            machine.write(f"/usr/lib/tmpfiles.d/{package}.conf", file.read())
    script_words = ["env", "DEBIAN_FRONTEND=noninteractive", "DPKG_MAINTSCRIPT_PACKAGE=" + package, "sh", "/srv/script", *words.split()]
    ran: "subprocess.CompletedProcess[str]" = machine.run(*script_words, check=False)
    assert machine.run(*look).stdout == before, ran


def test_who_may_reach_the_boards_addresses_is_said_without_a_desk_too(lab: Lab) -> None:
    lab.machine.run("systemctl", "stop", "farm")
    try:
        lab.machine.run("systemctl", "restart", "farm-access-guard")
        assert "reject" in lab.machine.run("nft", "list", "table", "inet", "farm").stdout
    finally:
        lab.machine.serve()
