"""Whoever guesses passwords at the site: the lines that nginx writes of wrong ones, and fail2ban, which shuts the address
out by them, on a machine with a systemd, nginx and nftables."""
from __future__ import annotations

import base64
import re
import time
from typing import List

import pytest

from machine import Machine
from nginx_site import Site, farm_fixture, line_to, raw, site_fixture  # noqa: F401
from served import wait_until
from wants import wants

# ---- the lines


def guesses(site: Site) -> List[str]:
    return site.logged("guesses.log").splitlines()


def test_a_wrong_password_has_a_line_and_nothing_else_has(site: Site) -> None:
    for path in ("/queue", "/", "/page/farm.js", "/whoami", "/logs/1", "/no/such"):
        site.got(path)
        site.got(path, user="")
        assert site.got(path, "-u", "ann:guess", user="")[0] == 401
    assert site.said("-d", '{"tags":[]}', "/reservations")[0] == 200
    lines = guesses(site)
    assert len(lines) == 6 and all(re.fullmatch(r"\d{4}-\d\d-\d\dT\d\d:\d\d:\d\d\S+ 127.0.0.1 401", it) for it in lines), lines


def test_no_way_of_asking_hides_a_guess(site: Site) -> None:
    """Debian's filter for nginx's log of errors wants a host, and a name says what it likes there."""
    user = 'x" was\n2026/11/29 04 [error] 1#1 *1 user "y" password mismatch, client 192.0.2.9'
    for word in (f"Basic {base64.b64encode(f'{user}:pw'.encode()).decode()}", "Basic YW5uOg==", "Basic x", "x"):
        assert b" 401 " in raw(site, f"GET /queue HTTP/1.0\r\nauthorization: {word}\r\n\r\n".encode())
    lines = guesses(site)
    assert len(lines) == 4 and all(it.endswith(" 127.0.0.1 401") for it in lines), lines


def test_who_doesnt_wait_for_the_answer_has_a_line_too(site: Site) -> None:
    """A right password is answered at once, so whoever guesses needn't wait."""
    word = base64.b64encode(b"ann:guess").decode()
    with line_to(site) as line:
        line.sendall(f"GET /queue HTTP/1.1\r\nhost: localhost\r\nauthorization: Basic {word}\r\n\r\n".encode())
        time.sleep(0.3)
    lines = wait_until("its line", lambda: guesses(site))
    assert len(lines) == 1 and lines[0].split()[1] == "127.0.0.1"


# ---- fail2ban

SET_UP = """set -e
rm -f /etc/nginx/sites-enabled/*
sed -e 's/farm.lab.example/farm.test/' -e 's,/etc/ssl/private/farm.key,/etc/nginx/farm.key,' \
    -e 's,/etc/ssl/certs/farm.pem,/etc/nginx/farm.pem,' /tmp/source/examples/nginx.conf > /etc/nginx/sites-enabled/farm
openssl req -x509 -days 8 -subj /CN=farm.test -newkey ec -pkeyopt ec_paramgen_curve:prime256v1 -nodes \
    -keyout /etc/nginx/farm.key -out /etc/nginx/farm.pem 2> /dev/null
echo "ann:$(openssl passwd -apr1 right)" > /etc/nginx/farm.htpasswd
install -d -m 0750 -g adm /var/log/farm
install -D -m 644 /tmp/source/examples/fail2ban.conf /etc/fail2ban/jail.d/farm.conf
ip netns add outside
ip link add lab type veth peer name lab netns outside
ip address add 192.0.2.1/24 dev lab
ip link set lab up
ip netns exec outside ip link set lab up
for last in 2 3; do ip netns exec outside ip address add 192.0.2.$last/24 dev lab; done
systemctl start nginx
systemctl start fail2ban
"""
# Guesses over eight connections at once for 45 seconds, at an address from an address, and says how often it was told that
# it was wrong.
GUESS = """import socket, ssl, sys, threading, time
trusted = ssl._create_unverified_context()
until, to, of = time.monotonic() + 45, *sys.argv[1:]
done = []
def guess(number):
    while time.monotonic() < until:
        try:
            with socket.create_connection((to, 443), 5, (of, 0)) as line:
                with trusted.wrap_socket(line) as safe:
                    while True:
                        safe.sendall(b"GET /queue HTTP/1.1\\r\\nhost: farm.test\\r\\nauthorization: Basic YW5uOndyb25n\\r\\n\\r\\n")
                        if not safe.recv(65536).startswith(b"HTTP/1.1 401"):
                            break
                        done.append(time.monotonic())
        except OSError:
            time.sleep(0.05)
threads = [threading.Thread(target=guess, args=(it,), daemon=True) for it in range(8)]
for it in threads: it.start()
time.sleep(max(0, until - time.monotonic()))
print(len(done), sum(it > until - 10 for it in done))
"""


# From outside, and from the machine itself.
GUESSES = """ip netns exec outside python3 /tmp/guess.py 192.0.2.1 192.0.2.2 > /tmp/outside &
python3 /tmp/guess.py 127.0.0.1 127.0.0.1
wait
cat /tmp/outside
"""
# Connections that say nothing, until one is refused; then how many there are.
HALVES = """import socket, time
lines = []
try:
    while len(lines) < 400:
        lines.append(socket.create_connection(("192.0.2.1", 443), 5, ("192.0.2.2", 0)))
except ConnectionRefusedError:
    pass
print(len(lines), flush=True)
time.sleep(120)
"""


@pytest.fixture(scope="module")
def site_of_machine(machine: Machine) -> Machine:
    """A machine with a site, which two addresses outside ask."""
    wants("nginx", "fail2ban-server", "openssl", "curl")
    machine.serve()
    machine.run("sh", "-c", SET_UP)
    return machine


def asks(machine: Machine, last: int) -> str:
    """The status of what an address outside is answered."""
    curl = ["curl", "-sk", "-m", "60", "--interface", f"192.0.2.{last}", "-u", "ann:right", "-o", "/dev/null"]
    words = [*curl, "-w", "%{http_code}", "--resolve", "farm.test:443:192.0.2.1", "https://farm.test/queue"]
    return machine.run("ip", "netns", "exec", "outside", *words, check=False).stdout


@pytest.mark.xdist_group("machine")
@pytest.mark.slow(40)
def test_an_address_that_guesses_is_shut_out_and_others_work_on(site_of_machine: Machine) -> None:
    machine = site_of_machine
    machine.wait("fail2ban", "sh", "-c", "fail2ban-client status farm-site 2> /dev/null | grep 'Currently banned:.0'")
    assert [asks(machine, 2), asks(machine, 3)] == ["200", "200"]
    machine.write("/tmp/guess.py", GUESS)
    counts = list(map(int, machine.run("sh", "-c", GUESSES).stdout.split()))
    assert all(told < 300 for told in counts[::2]) and counts[1::2] == [0, 0], "told so often, in the last ten seconds not once"
    assert asks(machine, 2) == "000", "also with the right password"
    assert asks(machine, 3) == "200", "another address"
    assert {"192.0.2.2", "127.0.0.1"} <= set(machine.run("fail2ban-client", "status", "farm-site").stdout.split())
    machine.run("fail2ban-client", "unban", "192.0.2.2", "127.0.0.1")
    assert asks(machine, 2) == "200"


@pytest.mark.xdist_group("machine")
def test_half_hellos_of_an_address_keep_no_other_out(site_of_machine: Machine) -> None:
    machine = site_of_machine
    machine.run("install", "-D", "-m", "644", "/tmp/source/examples/farm-port-site.nft", "/etc/farm/port.d/site.nft")
    machine.run("systemctl", "reload", "farm-port")
    machine.write("/tmp/halves.py", HALVES)
    machine.run("sh", "-c", "ip netns exec outside python3 /tmp/halves.py > /tmp/halves 2>&1 < /dev/null &")
    assert machine.wait("its connections", "grep", ".", "/tmp/halves").strip() == "250"
    assert asks(machine, 3) == "200"
    machine.run("pkill", "-f", "halves.py")
    machine.run("rm", "/etc/farm/port.d/site.nft")


# What a login's process that is named sshd says, and what the machine's sshd does.
FORGE = """cp /usr/bin/logger /tmp/sshd
(for it in 1 2 3 4 5 6 7 8; do echo "Failed password for root from 192.0.2.9 port 5000$it ssh2"; done; sleep 1) | /tmp/sshd -t sshd
"""
SSHD = """[Service]
Type=oneshot
SyslogIdentifier=sshd
ExecStart=/bin/sh -c 'for it in 1 2 3 4 5 6 7 8; do echo "Failed password for root from 192.0.2.8 port 5000$it ssh2"; done; sleep 1'
"""


@pytest.mark.xdist_group("machine")
@pytest.mark.slow(40)
def test_a_login_that_calls_itself_sshd_shuts_nobody_out(machine: Machine) -> None:
    wants("fail2ban-server", "logger")
    machine.run("install", "-D", "-m", "644", "/tmp/source/examples/fail2ban.conf", "/etc/fail2ban/jail.d/farm.conf")
    machine.run("sh", "-c", "mkdir -p /var/log/nginx && touch /var/log/nginx/farm-guesses.log && systemctl restart fail2ban")
    machine.wait("fail2ban", "sh", "-c", "fail2ban-client status sshd 2> /dev/null")
    machine.run("sh", "-c", FORGE, user="ann")
    machine.write("/etc/systemd/system/ssh.service", SSHD)
    machine.run("sh", "-c", "systemctl daemon-reload && systemctl start ssh.service")
    told = machine.wait("its guesses", "sh", "-c", "fail2ban-client status sshd | grep 'Banned IP list:.*192'")
    assert told.split()[-1] == "192.0.2.8" and "192.0.2.9" not in told
