"""What a hostile job can't do on a machine that is set up as docs/setting-up.md says: each job is a service with an account of
its own, which neither reaches the desk's port nor the files and processes of the dispatcher and of other jobs."""
from __future__ import annotations

import errno
import json
import os
import re
import time
from typing import Iterator

import pytest

from machine import Machine
from machine_lab import MORE, PASSWORD, PLACE, MachineLab
from wants import wants

pytestmark = [pytest.mark.xdist_group("machine"), pytest.mark.slow(60)]
# Leaves its job's session, its parents, its open files and its environment.
AWAY = """(setsid env -i PATH=$PATH sh -c 'exec <&- >&- 2>&-; cd /; while :; do sleep 0.1; done' away & )"""

GONE_AWAY = "do sleep 0[.]1; done away"
# A board at a serial port of the group dialout, and at a port of an address of its own: it says what it hears.
BOARD = """import os, shutil, socket, threading, tty
board, port = os.openpty()
tty.setraw(port)
shutil.chown(os.ttyname(port), "root", "dialout")
os.chmod(os.ttyname(port), 0o660)
os.symlink(os.ttyname(port), "/dev/ttyBoard")
def answer(line):
    while (said := os.read(line, 100)):
        os.write(line, said)
threading.Thread(target=answer, args=(board,)).start()
server = socket.create_server(("192.0.2.7", 23))
while True:
    answer(server.accept()[0].detach())
"""
BITS = """cc -m32 -nostdlib -static -x c -o /usr/local/bin/bits - << 'END'
void _start(void) { __asm__("mov $1, %eax; mov $42, %ebx; int $0x80"); }
END
:"""
OWN = "/etc/systemd/system/farm-job-.service.d/lab.conf"  # what a lab adds
# What jobs do at boards and on their machine: each of these tests fails where their unit shuts that out.
WORK = """cat > test_work.py << 'END'
import concurrent.futures, mmap, os, socket, subprocess, termios, tty
def ends(*words):
    return subprocess.run(words, check=False).returncode
def test_serial_port():
    line = os.open("/dev/ttyBoard", os.O_RDWR | os.O_NOCTTY)
    tty.setraw(line)
    told = termios.tcgetattr(line)
    told[4:6] = [termios.B115200] * 2
    termios.tcsetattr(line, termios.TCSANOW, told)
    os.write(line, b"typed")
    assert os.read(line, 100) == b"typed"
def test_port_of_a_board():
    with socket.create_connection(("192.0.2.7", 23)) as line:
        line.sendall(b"sent")
        assert line.recv(100) == b"sent"
def test_threads_and_processes():
    for pool in (concurrent.futures.ThreadPoolExecutor, concurrent.futures.ProcessPoolExecutor):
        with pool(2) as workers:
            assert list(workers.map(len, ["a", "bc"])) == [1, 2]
def test_compiler():
    with open("x.c", "w") as text:
        text.write("int main(void) { return 7; }")
    assert (ends("cc", "x.c"), ends("./a.out")) == (0, 7)
def test_program_of_32_bits():
    assert ends("sh", "-c", "bits") == STATUS
def test_code_that_is_written_and_run():
    mmap.mmap(-1, 4096, prot=mmap.PROT_READ | mmap.PROT_WRITE | mmap.PROT_EXEC)
def test_what_ping_does_first():
    os.setuid(os.getuid())
def test_nice_and_taskset():
    os.nice(1)
    os.sched_setaffinity(0, os.sched_getaffinity(0))
    assert ends("ionice", "-c3", "true") == 0
def test_group_and_rights_of_a_file():
    with open("x", "w"):
        os.chown("x", -1, os.getgroups()[-1])
    assert ends("sh", "-c", "[ $(umask) = 0022 ]") == 0
def test_machine_s_processors_and_networks():
    with open("/proc/cpuinfo") as text:
        assert text.read()
    socket.if_nameindex()
END
exec /usr/bin/python3 -m pytest -q -p no:cacheprovider test_work.py
"""
# All that a job is told of its account's name; of accounts of systemd's there is no other.
NAMES = """id -un; getent passwd $(id -u) $(id -un); getent group $(id -g) $(id -gn); getent passwd | grep ':Dynamic User:'
touch own; stat -c '%U %G' own; ssh -TG board | grep '^user '; echo told; while [ ! -e go ]; do sleep 0.1; done"""
# What an account has no use for; without privileges the kernel alone answers EPERM to a packet socket.
SHUT = """unshare -U true 2> /dev/null || echo no namespace
grep -E "Seccomp:|NoNewPrivs:|CapBnd:" /proc/self/status
python3 -c "
import ctypes, errno, socket
try:
    socket.socket(socket.AF_PACKET, socket.SOCK_RAW)
except OSError as fault:
    print(errno.errorcode[fault.errno])
print(ctypes.CDLL(None).ptrace(0, 0, 0, 0))"
"""


@pytest.fixture(scope="module")
def booted(machine: Machine) -> MachineLab:
    return MachineLab(machine)


@pytest.fixture
def lab(booted: MachineLab) -> Iterator[MachineLab]:
    """The lab, whose boards are all free and Good again after a test."""
    yield booted
    for view in booted.look("/boards")["boards"]:
        if view["health"] not in ("Good", "Retired"):
            booted.tell("admin", f"/boards/{view['name']}/health", {"health": "Good"})


def test_each_job_has_a_number_of_its_own_and_no_devices_group(lab: MachineLab) -> None:
    numbers = [lab.submit("id -u; id -Gn; sleep 2") for _ in range(2)]
    logs = []
    for number in numbers:
        assert lab.finished(number) == "Complete"
        logs.append(lab.log(number))
    uids = [int(it.split()[0]) for it in logs]
    own = {int(lab.machine.run("id", "-u", it).stdout) for it in ("root", "farm", "farm-dispatch", "www-data")}
    assert len(set(uids)) == 2 and not set(uids) & own
    assert not any(group in it for it in logs for group in ("dialout", "plugdev"))


def test_a_job_does_what_jobs_do(lab: MachineLab) -> None:
    """By pytest: a serial port whose group the lab gives to jobs, a board's port, threads, processes, compilers, programs
    of 32 bits as far as this machine runs them, and code that is written and run, as QEMU's."""
    wants("cc")
    lab.machine.run("ip", "addr", "add", "192.0.2.7/32", "dev", "lo")
    lab.machine.write("/tmp/board.py", BOARD)
    lab.machine.run("systemd-run", "--unit=board", "python3", "/tmp/board.py")
    lab.machine.wait("the board", "sh", "-c", "ss -ltn | grep 192.0.2.7:23 && ls /dev/ttyBoard")
    lab.machine.run("sh", "-c", BITS)
    lab.machine.write(OWN, "[Service]\nSupplementaryGroups=dialout\n")
    lab.machine.run("systemctl", "daemon-reload")
    status = lab.machine.run("sh", "-c", "bits", user="nobody", check=False).returncode
    said = lab.ran(WORK.replace("STATUS", str(status)))
    assert re.search("^10 passed in ", said, re.MULTILINE), said
    lab.machine.run("systemctl", "stop", "board")
    lab.machine.run("rm", OWN)
    lab.machine.run("systemctl", "daemon-reload")


def test_a_job_has_nothing_that_an_account_has_no_use_for(lab: MachineLab) -> None:
    shut = ["CapBnd:\t0000000000000000", "NoNewPrivs:\t1", "Seccomp:\t2"]
    assert lab.ran(SHUT).splitlines() == ["no namespace", *shut, "EAFNOSUPPORT", "-1"]
    with lab.jobs_with("gdb, strace", "LAVA", "CAN and Bluetooth"):
        assert lab.ran(SHUT).splitlines() == [*shut, "EAFNOSUPPORT", "0"]
        lab.said(lab.submit("echo began; sleep 5"), "began")
        families = lab.machine.run("systemctl", "show", "-P", "RestrictAddressFamilies", "farm-job-*.service").stdout.split()
        assert sorted(families) == ["AF_BLUETOOTH", "AF_CAN", "AF_INET", "AF_INET6", "AF_NETLINK", "AF_UNIX"]


def test_a_job_retires_no_board_and_reserves_as_nobody_at_the_desks_port(lab: MachineLab) -> None:
    lab.submit("")
    at = "curl -sS -m 10 http://127.0.0.1:880"
    before = len(lab.look("/reservations")["reservations"])
    said = lab.ran(f"""{at}/boards/b1/health -H 'x-user: admin' -d '{{"health":"Retired"}}' || echo "refused $?"
{at}/reservations -H 'x-user: bob' -d '{{"tags":[]}}' || echo "refused $?"
{at}/jobs/1/finish -H 'x-user: dispatcher' -d '{{"outcome":"Complete"}}' || echo "refused $?" """)
    assert said.count("refused 7\n") == 3, said
    assert [it["health"] for it in lab.look("/boards")["boards"]] == ["Good"] * 3
    assert len(lab.look("/reservations")["reservations"]) == before


def test_a_job_changes_no_other_jobs_log_and_no_history(lab: MachineLab) -> None:
    other = lab.submit("echo mine")
    assert lab.finished(other) == "Complete"
    running = lab.submit("echo mine; sleep 8")
    lab.said(running, "mine")
    files = [f"{PLACE}/{it}" for it in (f"logs/{other}", "history.json", "history.jsonl", "passes.json", f"open/{running}", "id")]
    unit = os.path.basename(lab.folder(running).rstrip("/"))
    files += [f"/var/lib/farm-worker/log/{unit}", f"/run/farm-jobs/marks/{unit}/ended", f"/run/farm-jobs/in/{unit}/env"]
    before = lab.machine.run("cat", f"{PLACE}/logs/{other}").stdout
    said = lab.ran("".join(f"(echo forged > {it}) 2> /dev/null || echo refused\nrm -f {it} 2> /dev/null\n" for it in files) + "true")
    assert said.count("refused\n") == len(files), said
    assert lab.machine.run("cat", f"{PLACE}/logs/{other}").stdout == before
    assert lab.finished(running) == "Complete"
    history = lab.machine.run("sh", "-c", f"cat {PLACE}/history.json {PLACE}/history.jsonl {PLACE}/passes.json").stdout
    assert "forged" not in history and f'"job":{other}' in history.replace(" ", "")


def test_a_job_forges_not_even_its_own_served_log(lab: MachineLab) -> None:
    number = lab.submit("echo first; echo forged > log; rm -f log; ln -s /etc/passwd log; echo last")
    assert lab.finished(number) == "Complete"
    assert re.sub("sh: .*\n", "", lab.log(number)) == "first\nlast\n"


def test_a_job_ends_neither_the_dispatcher_nor_another_job(lab: MachineLab) -> None:
    before = lab.machine.run("systemctl", "show", "-p", "MainPID", "--value", "farm-dispatch").stdout
    other = lab.submit("echo began; sleep 8; echo whole")
    lab.said(other, "began")
    pids = lab.machine.run("sh", "-c", "pgrep -u farm-dispatch; pgrep sleep").stdout.split()
    lab.submit(f"for pid in {' '.join(pids)}; do kill -KILL $pid; done; kill -KILL -1")
    assert lab.finished(other) == "Complete" and "whole" in lab.log(other)
    assert lab.machine.run("systemctl", "show", "-p", "MainPID", "--value", "farm-dispatch").stdout == before


def test_a_job_reads_no_password_no_farm_and_no_other_jobs_folder(lab: MachineLab) -> None:
    other = lab.submit("echo secret > kept; sleep 8")
    kept = lab.folder(other, "kept")
    lab.machine.wait("its file", "cat", kept)
    pid = lab.machine.run("systemctl", "show", "-p", "MainPID", "--value", "farm-dispatch").stdout.strip()
    files = [PASSWORD, "/var/lib/farm/lab.db", kept, kept.replace("/private", ""), f"/proc/{pid}/environ",
             f"{PLACE}/open/{other}", f"/run/farm-jobs/in/{kept.split('/')[-2]}/env"]
    said = lab.ran("".join(f"cat {it} 2> /dev/null || echo refused\n" for it in files))
    assert said == "refused\n" * len(files)
    assert lab.finished(other) == "Complete"


@pytest.mark.parametrize("by", ["a login", "a job"])
def test_nobody_reads_a_jobs_text_or_log_on_its_machine(lab: MachineLab, by: str) -> None:
    """Who knows the name of its unit, which the kernel tells everybody."""
    other = lab.submit("echo secret; sleep 8")
    lab.said(other, "secret")
    tries = """for it in /sys/fs/cgroup/farm.slice/farm-job.slice/farm-job-*.service; do
it=$(basename $it .service); echo $it; cat /run/farm-jobs/in/$it/job.toml /var/lib/farm-worker/log/$it 2> /dev/null; done; true"""
    said = lab.machine.run("sh", "-c", tries, user="ann").stdout if by == "a login" else lab.ran(tries)
    assert f"-{other}-" in said
    assert "echo secret" not in said and "secret\n" not in said, said
    assert lab.finished(other) == "Complete"


def test_what_a_job_leaves_behind_is_dead_before_its_board_is_given_on(lab: MachineLab) -> None:
    number = lab.submit(f"{AWAY}\nwhile [ ! -e go ]; do sleep 0.2; done; echo left; exit 3")
    lab.machine.wait("it is away", "pgrep", "-f", GONE_AWAY)
    lab.machine.run("touch", lab.folder(number, "go"))
    assert lab.finished(number) == "Incomplete"
    assert lab.processes(GONE_AWAY) == [] and "left" in lab.log(number)


def test_what_runs_a_job_cant_be_read_or_traced_by_it(lab: MachineLab) -> None:
    trace = "import ctypes; print(ctypes.CDLL(None).ptrace(16, int(__import__('os').environ['ABOVE']), 0, 0))"
    said = lab.ran(f"""cat /proc/$PPID/environ > /dev/null 2>&1 || echo unread
ls /proc/$PPID/fd > /dev/null 2>&1 || echo closed
ABOVE=$PPID python3 -c "{trace}" """)
    assert said == "unread\nclosed\n-1\n"


def test_what_a_job_left_is_kept_within_what_it_may_read(lab: MachineLab) -> None:
    number = lab.submit(f"""umask 077; mkdir out out/closed; echo said > out/log; echo x > out/shut; chmod 0 out/shut out/closed
ln -s /etc/shadow out/link; ln {PLACE}/history.jsonl out/hard; ln -s {PLACE}/id out/id; mkfifo out/pipe""")
    lab.finished(number)
    place = f"{PLACE}/artifacts/{number}"
    lab.machine.wait("what it left", "cat", f"{place}/index.json")
    index = json.loads(lab.machine.run("cat", f"{place}/index.json", user="www-data").stdout)
    assert [it["name"] for it in index["files"]] == ["log"]
    assert {it["name"]: it["why"] for it in index["left_out"]} == {
        "closed": "it can't be read", "id": "a link", "link": "a link", "pipe": "no file", "shut": "it can't be read",
    }
    assert lab.machine.run("cat", f"{place}/1", user="www-data").stdout == "said\n"
    assert lab.machine.run("stat", "-c", "%U %a", f"{place}/1").stdout == "farm-dispatch 644\n"
    lab.machine.wait("its line", "grep", f'"job":{number},.*"artifacts"', f"{PLACE}/history.jsonl")


@pytest.fixture
def small_folders(lab: MachineLab) -> Iterator[None]:
    """Gives folders of jobs a limit of 1 MB."""
    lab.machine.write("/etc/farm/desk.ini", "[dispatch]\nfolder_limit = 1 MB\n")
    lab.machine.run("systemctl", "restart", "farm-dispatch")
    yield
    lab.machine.run("sh", "-c", "rm -rf /tmp/systemd-private-x-* /var/tmp/systemd-private-x-* /etc/farm/desk.ini")
    lab.machine.run("systemctl", "restart", "farm-dispatch")


@pytest.mark.usefixtures("small_folders")
@pytest.mark.parametrize("grows", [
    "mkdir -m 700 own; head -c 5000000 /dev/zero > own/x",
    "for it in 1 2 3 4 5; do head -c 900000 /dev/zero > /tmp/$it; done",
    "head -c 5000000 /dev/zero > /var/tmp/x",
    "seq 1000 | xargs touch",
    "mkdir -p out; seq 1000 | (cd out; xargs mkdir)",
])
def test_a_folder_that_grows_unseen_ends_its_job(lab: MachineLab, grows: str) -> None:
    """By bytes or by files, as a disk is full without a free one, and in what is its own of /tmp."""
    number = lab.submit(f"{grows}; sleep 600")
    assert lab.finished(number) == "Incomplete"
    assert "farm-dispatch: folder limit, signal" in lab.log(number)


@pytest.mark.usefixtures("small_folders")
def test_nobody_else_makes_a_jobs_folder_too_large(lab: MachineLab) -> None:
    """A login that knows the name of its unit, in /tmp and /var/tmp, where systemd makes a folder of a job's."""
    fills = """for it in /sys/fs/cgroup/farm.slice/farm-job.slice/farm-job-*.service; do
for place in /tmp /var/tmp; do own=$place/systemd-private-x-$(basename $it)-x; mkdir $own; head -c 5000000 /dev/zero > $own/x; done; done"""
    number = lab.submit("echo began; sleep 10")
    lab.said(number, "began")
    lab.machine.run("sh", "-c", fills, user="ann")
    assert lab.finished(number) == "Complete", lab.log(number)


def test_a_jobs_folder_is_gone_soon_after_it(lab: MachineLab) -> None:
    lab.ran("umask 777; mkdir closed; touch shut; mkdir -m 755 out; ln -s / out/link")
    gone = "[ -z \"$(find /var/lib/private/farm-job -name 'farm-job-*')\" ] && echo gone"
    lab.machine.wait("no job's folder is left", "sh", "-c", gone)


def test_a_job_doesnt_reach_systemds_socket_of_notes(lab: MachineLab) -> None:
    """Nor its other ones, of which it reads what comes in the place of starting and ending units; the journal is there."""
    said = lab.ran("""python3 -c "
import socket
for name, kind in (('notify', socket.SOCK_DGRAM), ('io.system.ManagedOOM', socket.SOCK_STREAM), ('private', socket.SOCK_STREAM)):
    print(socket.socket(socket.AF_UNIX, kind).connect_ex('/run/systemd/' + name))"
ls -A /run/systemd/userdb; logger said && echo logged""")
    assert said.split() == [str(errno.EACCES)] * 3 + ["logged"]


def test_a_job_has_its_accounts_name_and_no_other_jobs(lab: MachineLab) -> None:
    """As systemd tells it on the machine itself; without a name ssh would connect nowhere."""
    wants("ssh")
    numbers, names = [lab.submit(NAMES) for _ in range(2)], set()
    for number in numbers:
        lab.said(number, "told")
        name, *said = lab.log(number).splitlines()
        user, group = [lab.machine.run("getent", it, name).stdout.strip() for it in ("passwd", "group")]
        assert said == [user, user, group, group, user, f"{name} {name}", f"user {name}", "told"] and user.startswith(name)
        names.add(name)
    assert len(names) == 2
    for number in numbers:
        lab.machine.run("touch", lab.folder(number, "go"))
        assert lab.finished(number) == "Complete"


def test_nobody_else_asks_for_a_job(lab: MachineLab) -> None:
    connect = "import socket; socket.socket(socket.AF_UNIX).connect('/run/farm-worker.socket')"
    for account in ("ann", "www-data", "farm", "farm-watch"):
        assert "PermissionError" in lab.machine.run("python3", "-c", connect, user=account, check=False).stderr, account


def test_without_the_file_that_says_what_jobs_are_nothing_is_run(lab: MachineLab) -> None:
    unit = f"{MORE}/farm.conf"
    lab.machine.run("mv", unit, f"{unit}.away")
    lab.machine.run("systemctl", "daemon-reload")
    try:
        lab.machine.wait("it is told", "grep", "farm.conf: no such file", f"{PLACE}/workers.json")
        number = lab.submit("echo ran")
        time.sleep(3)
        assert lab.look(f"/jobs/{number}")["state"] == "Submitted"
    finally:
        lab.machine.run("mv", f"{unit}.away", unit)
        lab.machine.run("systemctl", "daemon-reload")
    assert lab.finished(number) == "Complete", "and it is run when it is there"
