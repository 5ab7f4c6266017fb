"""A machine with a systemd of its own: this one's files, over which it writes in memory alone, in new namespaces of
everything, with the desk set up as docs/setting-up.md says from the source. It wants root, systemd, nft and overlays."""
from __future__ import annotations

import atexit
import contextlib
import os
import pathlib
import signal
import subprocess
import time
from typing import IO, Iterator, List, Optional, Sequence

import pytest

import counting
from served import PATIENCE, STARTED, TOP, ends_with_us
from wants import lacks, wants

ACCOUNTS = ("farm", "farm-dispatch", "farm-door", "farm-metrics", "farm-watch")
PORT = 880
# In namespaces of mounts and of nothing else: a cgroup of its own, over which the rest is then made.
OUTSIDE = """\
set -e
mount -t tmpfs tmpfs "$1"
mkdir "$1/up" "$1/work" "$1/root" "$1/groups"
mount -t cgroup2 cgroup2 "$1/groups"
mkdir "$1/groups/$2"
echo $$ > "$1/groups/$2/cgroup.procs"
mount -t overlay overlay -o "lowerdir=/,upperdir=$1/up,workdir=$1/work" "$1/root"
exec unshare --mount --pid --fork --kill-child --uts --ipc --net --cgroup --propagation private sh -c "$3" sh "$1/root" "$4" "$5"
"""
INSIDE = """\
set -e
mount -t proc proc "$1/proc"
mount -t sysfs -o ro sysfs "$1/sys"
mount -t cgroup2 cgroup2 "$1/sys/fs/cgroup"
for folder in run tmp var/tmp; do mount -t tmpfs tmpfs "$1/$folder"; done
chmod 1777 "$1/tmp" "$1/var/tmp"
mount -t tmpfs -o mode=755 tmpfs "$1/dev"
for name in null zero full random urandom tty; do
    touch "$1/dev/$name"
    mount --bind "/dev/$name" "$1/dev/$name"
done
[ -z "$2" ] || mount -m --bind "$2" "$1$3"
mkdir "$1/dev/shm" "$1/dev/pts"
mount -t devpts -o newinstance,ptmxmode=666 devpts "$1/dev/pts"
ln -s pts/ptmx "$1/dev/ptmx"
ip link set lo up
hostname farm-test
cd "$1"
rm -rf etc/fstab etc/systemd/system/*.wants root/.config var/lib/farm* etc/farm etc/systemd/system/farm*
pivot_root . mnt
umount -l /mnt
exec env -i container=lxc PATH=/usr/sbin:/usr/bin:/sbin:/bin /lib/systemd/systemd --system --unit=basic.target
"""
# As docs/setting-up.md has it (As services, from the source), over files that stand in /tmp/source.
SET_UP = """\
set -e
cd /tmp/source
install farm /usr/local/bin
install -Dt /usr/local/lib/farm-tools tools/desk tools/farm-*
cp -rt /usr/local/lib/farm-tools tools/farm_* python/src/fizgruk tools/page
install -m 644 -t /usr/local/lib/farm-tools examples/farm-port.nft
install -Dt /etc/farm examples/run-job examples/check-board
install -m 644 -t /etc/systemd/system examples/*.service examples/*.timer examples/*.socket
cp -rt /etc/systemd/system examples/farm-job-.service.d
for user in ACCOUNTS ann; do
    getent passwd $user > /dev/null || adduser --system --group --quiet --no-create-home --home /var/lib/$user $user
done
install -d -o farm -g farm -m 0700 /var/lib/farm
runuser -u farm -- farm init --db /var/lib/farm/lab.db
ln -sf /usr/local/lib/farm-tools/desk /usr/local/lib/farm-tools/farm-* /usr/local/bin
systemctl daemon-reload
""".replace("ACCOUNTS", " ".join(ACCOUNTS))


class Machine:
    """The machine, booted and set up; nothing of the desk is started."""

    def __init__(self, folder: str, program: str):
        wants("systemctl", "nft", "unshare", "nsenter", "pivot_root", "adduser", "curl", "ip")
        if os.getuid() != 0:
            lacks("no right to boot a systemd in namespaces")
        if not os.path.ismount("/"):
            lacks("/ is no mount point, as in a chroot (`mount --bind DIR DIR` before `chroot DIR` makes it one)")
        self.room = os.path.join(folder, "machine")
        self.group = f"farm-test-{os.getpid()}-{time.monotonic_ns()}"
        os.mkdir(self.room)
        self.log = open(os.path.join(folder, "machine.log"), "wb")  # pylint: disable=consider-using-with
        words = ["unshare", "--mount", "--propagation", "private", "sh", "-c", OUTSIDE, "sh"]
        words += [self.room, self.group, INSIDE, counting.FOLDER, counting.THERE]
        self.process = subprocess.Popen(
            words, stdin=subprocess.DEVNULL, stdout=self.log, stderr=self.log, preexec_fn=ends_with_us()
        )
        STARTED.append(self.process)
        atexit.register(self.end)
        try:
            self.first = self._booted()
            self._set_up(program)
        except BaseException:
            self.end()
            raise

    def _booted(self) -> int:
        """The process that is the machine's first, once it has booted."""
        until = time.monotonic() + PATIENCE
        while time.monotonic() < until and self.process.poll() is None:
            for pid in self._children():
                self.first = pid
                ran = self.run("systemctl", "is-system-running", check=False)
                if ran.stdout.strip() in ("running", "degraded"):
                    return pid
            time.sleep(0.1)
        self.end()
        lacks(f"no systemd can be booted here ({pathlib.Path(self.log.name).read_text(errors='replace')[-200:]!r})")

    def _children(self) -> List[int]:
        with contextlib.suppress(OSError):
            pid = self.process.pid
            return [int(it) for it in pathlib.Path(f"/proc/{pid}/task/{pid}/children").read_text().split()]
        return []

    def _set_up(self, program: str) -> None:
        parts = ["-C", TOP, "tools", "python", "examples", "-C", os.path.dirname(program), os.path.basename(program)]
        with subprocess.Popen(["tar", "-ch", "--exclude=__pycache__", *parts], stdout=subprocess.PIPE) as packed:
            self.run("sh", "-c", "mkdir /tmp/source && tar -xC /tmp/source", stdin=packed.stdout)
        if os.path.basename(program) != "farm":
            self.run("mv", f"/tmp/source/{os.path.basename(program)}", "/tmp/source/farm")
        for name, text in counting.files_of_a_machine().items():
            self.write(name, text)
        self.run("sh", "-c", SET_UP)

    def run(
        self, *words: str, user: str = "", check: bool = True, stdin: Optional[IO[bytes]] = None
    ) -> "subprocess.CompletedProcess[str]":
        """Runs a command in the machine, as root or another user."""
        around = ["env", "-i", "PATH=/usr/local/bin:/usr/sbin:/usr/bin:/sbin:/bin", "HOME=/root", "LC_ALL=C"]
        head = ["runuser", "-u", user, "--"] if user else []
        ran = subprocess.run(
            ["nsenter", "-t", str(self.first), "-a", "--wdns=/", *around, *head, *words],
            stdin=stdin or subprocess.DEVNULL, capture_output=True, text=True, timeout=550, check=False,
        )
        assert not check or ran.returncode == 0, f"{words}: {ran.stdout}{ran.stderr}"
        return ran

    def write(self, file: str, text: str, mode: int = 0o644) -> None:
        """Makes a file in the machine."""
        script = 'mkdir -p "$(dirname "$1")" && printf %s "$2" > "$1" && chmod "$3" "$1"'
        self.run("sh", "-c", script, "sh", file, text, f"{mode:o}")

    def status(self, unit: str) -> str:
        return self.run("systemctl", "is-active", unit, check=False).stdout.strip()

    def wait(self, what: str, *words: str, limit: float = PATIENCE) -> str:
        """What a command says once it ends well and says something."""
        until, pause = time.monotonic() + limit, 0.1
        while True:
            ran = self.run(*words, check=False)
            if ran.returncode == 0 and ran.stdout.strip():
                return ran.stdout
            assert time.monotonic() < until, f"{what}: not within {limit} s: {ran.stdout}{ran.stderr}"
            time.sleep(pause)
            pause = min(pause * 1.2, 0.5)

    def serve(self) -> None:
        """Starts the desk, and waits until it answers."""
        self.run("systemctl", "start", "farm")
        self.wait("the desk", *self.curl("root", "/status"))

    def curl(self, name: str, path: str, *words: str) -> List[str]:
        """The words that ask the desk's port under a name."""
        return ["curl", "-sS", "-m", "20", "-H", f"x-user: {name}", *words, f"http://127.0.0.1:{PORT}{path}"]

    def asked(self, account: str, name: str, path: str, *words: str) -> int:
        """What curl ends with as an account of the machine: 7 where it can't connect."""
        return self.run(*self.curl(name, path, *words), user=account, check=False).returncode

    def journal(self, unit: str) -> str:
        return self.run("journalctl", "--no-pager", "-o", "cat", "-u", unit, check=False).stdout

    def end(self) -> None:
        """Ends all that is in it, where it hasn't ended."""
        counting.keep(self.group)
        for pid in self._children():
            with contextlib.suppress(ProcessLookupError):
                os.kill(pid, signal.SIGKILL)
        self.process.wait(timeout=PATIENCE)
        self.log.close()
        script = 'mount -t cgroup2 cgroup2 "$1" && find "$1/$2" -depth -type d -exec rmdir {} + || :'
        words: Sequence[str] = ["unshare", "--mount", "--propagation", "private", "sh", "-c", script, "sh"]
        subprocess.run([*words, self.room, self.group], check=False, stderr=subprocess.DEVNULL)


def booted(program: str, folders: pytest.TempPathFactory) -> Iterator[Machine]:
    """A machine, for a fixture of any scope."""
    machine = Machine(str(folders.mktemp("machine")), program)
    STARTED.remove(machine.process)  # (it may last longer than a test)
    yield machine
    machine.end()


@pytest.fixture(name="machine")
def machine_fixture(program: str, tmp_path_factory: pytest.TempPathFactory) -> Iterator[Machine]:
    """A machine with a systemd of its own and a desk that is set up, for a test."""
    yield from booted(program, tmp_path_factory)
