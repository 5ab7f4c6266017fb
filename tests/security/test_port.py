"""The desk's port believes what name it is told: who may connect to it on the machine that it serves, and who can
listen in its place."""
from __future__ import annotations

import pytest

from machine import ACCOUNTS, PORT, Machine

pytestmark = [pytest.mark.xdist_group("machine"), pytest.mark.slow(15)]
TABLE = ("nft", "list", "table", "inet", "farm")
BIND = f"import socket; socket.create_server(('127.0.0.1', {PORT}))"
CONNECTS_NOT = 7


@pytest.fixture
def desk(machine: Machine) -> Machine:
    machine.serve()
    return machine


def test_only_the_desks_own_accounts_the_proxy_and_root_reach_the_port(desk: Machine) -> None:
    for account in (*ACCOUNTS, "www-data", "root"):
        assert desk.asked(account, "admin", "/status") == 0, account
    for account in ("ann", "nobody", "games"):
        assert desk.asked(account, "admin", "/status") == CONNECTS_NOT, account
    desk.run("sh", "-c", "systemd-run -q --wait -p DynamicUser=yes true")
    job = ("systemd-run", "-q", "--wait", "-p", "DynamicUser=yes", *desk.curl("admin", "/status"))
    assert desk.run(*job, check=False).returncode == CONNECTS_NOT, "an account that systemd makes"


def test_no_login_can_listen_in_the_desks_place(desk: Machine) -> None:
    desk.run("systemctl", "stop", "farm")
    for account in ("ann", "nobody", "farm-dispatch", "www-data"):
        ran = desk.run("python3", "-c", BIND, user=account, check=False)
        assert (ran.returncode, "Permission denied" in ran.stderr) == (1, True), (account, ran.stderr)


# Whether somebody may connect to the boards' sshd's place from an address.
CONNECTS = "import socket; socket.create_connection(('127.0.0.1', 2222), 5, ('{}', 0))"


def test_nobody_takes_many_of_the_machines_own_addresses(desk: Machine) -> None:
    """By each of which as many connections would count as an address has."""
    desk.run("systemd-run", "-q", "--unit=listens", "python3", "-m", "http.server", "2222", "--bind", "127.0.0.1")
    desk.wait("it listens", "sh", "-c", "ss -ltn | grep :2222")
    came = [desk.run("python3", "-c", CONNECTS.format(it), user="ann", check=False) for it in ("127.0.0.1", "127.0.0.2")]
    desk.run("systemctl", "stop", "listens")
    assert [it.returncode for it in came] == [0, 1] and "ConnectionRefusedError" in came[1].stderr


def test_whom_a_file_of_the_lab_adds_is_let_in_too(desk: Machine) -> None:
    """Beside the table of the way to boards, which is loaded with it."""
    desk.run("sh", "-c", "getent passwd board || adduser --system --group --quiet --no-create-home board; addgroup --system farm-hold")
    assert desk.asked("board", "admin", "/status") == CONNECTS_NOT
    desk.run("install", "-D", "-m", "644", "/tmp/source/examples/farm-port-access.nft", "/etc/farm/port.d/access.nft")
    desk.write("/etc/farm/port.d/lab.nft", "add element inet farm may_connect { board }\n")
    desk.run("systemctl", "reload", "farm-port")
    desk.run("systemctl", "restart", "farm")
    desk.wait("the desk", *desk.curl("root", "/status"))
    assert desk.asked("board", "admin", "/status") == 0
    assert desk.asked("ann", "admin", "/status") == CONNECTS_NOT
    desk.run("rm", "-r", "/etc/farm/port.d")
    desk.run("systemctl", "reload", "farm-port")
    assert desk.asked("board", "admin", "/status") == CONNECTS_NOT


def test_the_table_is_there_as_long_as_the_desk_is(desk: Machine) -> None:
    assert "reject" in desk.run(*TABLE).stdout
    desk.run("systemctl", "restart", "farm")
    assert "reject" in desk.run(*TABLE).stdout
    desk.run("systemctl", "stop", "farm")
    desk.wait("the table is gone", "sh", "-c", f"! {' '.join(TABLE)} > /dev/null 2>&1 && echo gone")
    desk.serve()
    assert "reject" in desk.run(*TABLE).stdout


def test_a_desk_without_the_table_serves_nobody(desk: Machine) -> None:
    desk.run("systemctl", "stop", "farm")
    rule = "/usr/local/lib/farm-tools/farm-port.nft"
    desk.run("mv", rule, f"{rule}.away")
    try:
        assert desk.run("systemctl", "start", "farm", check=False).returncode != 0
        assert desk.asked("root", "admin", "/status") == CONNECTS_NOT
    finally:
        desk.run("mv", f"{rule}.away", rule)
        desk.run("systemctl", "reset-failed", "farm-port", "farm", check=False)


@pytest.mark.parametrize("word", ["reload", "restart"])
def test_the_table_comes_back_when_debians_firewall_flushes_all(desk: Machine, word: str) -> None:
    desk.write("/etc/nftables.conf", "#!/usr/sbin/nft -f\nflush ruleset\n", 0o755)
    desk.run("systemctl", "start", "nftables")
    desk.serve()
    desk.run("systemctl", word, "nftables")
    desk.wait("the desk, which begins again where the table does", *desk.curl("root", "/status"))
    desk.wait("the table", *TABLE)
    assert desk.asked("ann", "admin", "/status") == CONNECTS_NOT


def test_the_nightly_backup_compares_its_copy_with_what_the_desk_says(desk: Machine) -> None:
    desk.run("systemctl", "start", "farm-backup")
    desk.wait("the copy's name", "sh", "-c", "journalctl -q -u farm-backup | grep /var/lib/farm-backup/farm-")
    assert "isn't compared" not in desk.journal("farm-backup")
    server = f"http://127.0.0.1:{PORT}"
    ran = desk.run("farm-backup", "--verbose", "--server", server, "/var/lib/farm-backup", user="farm")
    assert f"compared with the desk at {server}: " in ran.stderr
