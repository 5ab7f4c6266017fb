#!/usr/bin/env python3
"""Two machines (QEMU) with a farm on DRBD, as examples/farm.res has it: python3 tests/faults/failover.py bin/farm
[ROUNDS [SEED [FORM]]]

Clients send keyed commands and passes without a pause, and farm-dispatch runs their jobs there; the machine that serves
is killed (SIGKILL of QEMU) at any moment, and every second time as a job starts; the other one has it switched off by its
relay (examples/farm-fence, another way than the cable), becomes primary, mounts the farm and serves it; the killed one
boots, catches up, and they change places; the last one boots without the cable, and mustn't take over. At each failover
every answered command is there once, and each repeated key is answered as it was; in the end each job was begun once at
most on both, and has ended. FORM is

    plain    the above
    upgrade  what is killed is `farm migrate` over a farm of the first edition: the other one migrates it, or finds it
             migrated, and it is the farm that it was
    cut      the cable is cut eight seconds before the kill, without fencing: what is answered after it is lost, which
             has to be found
    frozen   the same with fencing and a relay that doesn't answer: nothing is answered behind the cut, and the other
             machine refuses to be primary; forced by an admin, nothing is lost

20 rounds where no number is given, some half an hour; test_failover.py asks for two, and one of each other form. The
machines are emulated without /dev/kvm. Their kernel is that of tests/gate/unpack.sh, or as in tests/shared/kernels.py.
"""
from __future__ import annotations

import contextlib
import glob
import gzip
import http.client
import itertools
import json
import os
import random
import shutil
import socket
import subprocess
import sys
import tempfile
import threading
import time
from typing import Any, Callable, Dict, List, Optional, Sequence, Set, Tuple

HERE = os.path.dirname(os.path.realpath(__file__))
TOP = os.path.dirname(os.path.dirname(HERE))
sys.path.append(os.path.join(TOP, "tests/shared"))
from kernels import unpacked  # noqa: E402
from ports import free_port  # noqa: E402

WANTED = ("qemu-system-x86_64", "busybox", "socat", "drbdadm", "drbdsetup", "drbdmeta", "mkfs.ext4", "modinfo", "cpio")
MODULES = ("virtio_pci", "virtio_blk", "virtio_net", "drbd")
INIT = """\
#!/bin/busybox sh
# Boots a machine, and then does what comes over the first serial port, a line at a time.
export PATH=/bin:/sbin:/usr/bin:/usr/sbin
/bin/busybox mkdir -p /proc /sys /dev /sbin /usr/bin /usr/sbin /run /tmp /mnt /rest /var/lib/drbd /var/lock /var/run/drbd
/bin/busybox --install -s
mount -t proc proc /proc; mount -t sysfs sys /sys; mount -t devtmpfs dev /dev
for module in /modules/*.ko; do insmod "$module"; done 2> /dev/null
name=$(sed 's/.*machine=\\([a-z]*\\).*/\\1/' /proc/cmdline)
hostname "$name"
ip link set lo up
ip addr add "$(sed -n "s/.*on $name .*address \\([0-9.]*\\):.*/\\1/p" /etc/drbd.d/farm.res)/24" dev eth0; ip link set eth0 up
ip addr add 10.0.2.15/24 dev eth1; ip link set eth1 up
stty -F /dev/ttyS0 -echo
exec < /dev/ttyS0 > /dev/ttyS0 2>&1
echo "READY $name"
while read -r line; do
    eval "$line" < /dev/null
    echo "DONE $?"
done
"""
# The relay of a machine, a program for each request: it answers where the machine is off, and not where it can't see to that.
RELAY = """\
while read -r line && [ "${{#line}}" -gt 1 ]; do :; done
[ -e {folder}/broken ] || [ -e {folder}/{name}.on ] || printf 'HTTP/1.0 200 OK\\r\\nContent-Length: 0\\r\\n\\r\\n'
"""
# wget in a machine, where busybox' own looks for more libraries.
ASKS = """\
#!/bin/sh
printf 'GET %s HTTP/1.0\\r\\n\\r\\n' "$1" | socat -t 20 - TCP:10.0.2.9:16421 | grep -q ' 200 '
"""
# What a job runs: the note that it began leaves the machine before anything else.
BEGINS = """\
#!/bin/sh
echo "$FARM_JOB" | socat -t 20 - TCP:10.0.2.9:81
sleep 0.3
"""
DISPATCH = """\
import sys
sys.path[:0] = ["/opt/farm/tools", "/opt/farm/src"]
from farm_dispatch import main
sys.exit(main.main())
"""
RELAY_PORT = 16421  # pdudaemon's
DISK = 64 << 20
BODY, JOB = {"tags": ["hdmi"]}, "job_name = 'short'\ndevice_type = 'real'\n"
LAB = (
    ("/types", {"name": "virtual"}), ("/types", {"name": "real"}), ("/boards", {"name": "v1", "type": "virtual", "tags": ["hdmi"]}),
    ("/boards", {"name": "r1", "type": "real", "tags": []}), ("/boards/r1/health", {"health": "Good"}),
    ("/boards", {"name": "r2", "type": "real", "tags": []}), ("/boards/r2/health", {"health": "Good"}),
)
REPORTS = "(for each in queue boards reservations; do farm report --db /mnt/lab.db $each || exit 1; done)"
FIRST = os.path.join(TOP, "tests/shared/first_edition")
OTHER = {"alpha": "beta", "beta": "alpha"}
AFTER_CUT, PATIENCE = 8.0, 240.0  # seconds


class Wrong(Exception):
    """Something isn't as it has to be."""


def lacking() -> str:
    """What this machine lacks for the trial; nothing where it has all."""
    there = f"{os.environ['PATH']}:/usr/sbin:/sbin"
    missing = [it for it in WANTED if not shutil.which(it, path=there)]
    if missing:
        return f"there is no {', no '.join(missing)}"
    return "" if kernel() else "there is no kernel with drbd.ko unpacked (tests/gate/unpack.sh), in /boot or named by FARM_TEST_KERNEL"


def kernel() -> str:
    """The path of a kernel that has drbd.ko; nothing where there is none."""
    named = os.environ.get("FARM_TEST_KERNEL")
    places = [str(unpacked() / "boot"), "/boot"]
    for it in [named] if named else [it for place in places for it in sorted(glob.glob(f"{place}/vmlinuz-*"), reverse=True)]:
        if os.access(it, os.R_OK) and "drbd" in modules_of(it):
            return it
    return ""


def modules_of(kernel_file: str) -> Dict[str, str]:
    """The files of a kernel's modules, which lie beside its folder in lib/modules, by their names."""
    base, version = os.path.dirname(os.path.dirname(kernel_file)), os.path.basename(kernel_file).partition("-")[2]
    files = glob.glob(f"{base}/lib/modules/{version}/kernel/**/*.ko", recursive=True)
    return {os.path.basename(it)[:-3].replace("-", "_"): it for it in files}


# ---- a machine's ramdisk


def ramdisk(program: str, folder: str) -> str:
    """The initial ramdisk of both machines: busybox, DRBD with its tools, ext4's mkfs, the desk and the examples' files."""
    root = os.path.join(folder, "root")
    os.makedirs(f"{root}/modules")
    for number, module in enumerate(modules()):
        shutil.copy(module, f"{root}/modules/{number:03}-{os.path.basename(module)}")
    there = f"{os.environ['PATH']}:/usr/sbin:/sbin"
    names = ("busybox", "socat", "drbdadm", "drbdsetup", "drbdmeta", "mkfs.ext4", "timeout")
    programs = {name: str(shutil.which(name, path=there)) for name in names}
    for name, found in {**programs, "farm": program, "python3": "/usr/bin/python3"}.items():
        # (where DRBD's part in the kernel looks for the one that it calls)
        put(root, f"{'sbin' if name.startswith('drbd') else 'bin'}/{name}", os.path.realpath(found))
        for library in libraries(found):
            put(root, library[1:], library)
    for name in glob.glob("/lib/drbd/drbd*"):  # (drbdadm hands its work to the one of the kernel's version)
        put(root, name[1:], name)
    with open(f"{TOP}/examples/farm-fence", encoding="utf-8") as file:
        write(root, "etc/farm/fence", file.read().replace("wget -q -T 20 -O /dev/null", "asks"), 0o755)
    write(root, "bin/asks", ASKS, 0o755)
    put_dispatcher(root)
    for name in ("lab.db", "lab.db-wal"):
        with gzip.open(f"{FIRST}/{name}.gz") as packed:
            write_bytes(root, f"first/{name}", packed.read())
    write(root, "etc/drbd.conf", 'include "drbd.d/*.res";\n')
    with open(f"{TOP}/examples/farm.res", encoding="utf-8") as file:
        text = file.read().replace("/dev/VOLUME_GROUP/farm-rest", "/dev/vdb").replace("/dev/VOLUME_GROUP/farm", "/dev/vda")
    write(root, "etc/drbd.d/farm.res", text)
    write(root, "init", INIT, 0o755)
    image = os.path.join(folder, "image.gz")
    subprocess.run(["sh", "-c", 'find . | cpio -o -H newc --quiet | gzip -1 > "$0"', image], cwd=root, check=True)
    shutil.rmtree(root)
    return image


def put_dispatcher(root: str) -> None:
    """farm-dispatch, and what Python has of its own."""
    ignored = shutil.ignore_patterns("test", "idlelib", "lib2to3", "ensurepip", "tkinter", "pydoc_data", "dist-packages")
    own = subprocess.run(["/usr/bin/python3", "-c", "import os; print(os.__file__)"], capture_output=True, text=True, check=True)
    library = os.path.dirname(own.stdout.strip())
    shutil.copytree(library, f"{root}{library}", symlinks=True, ignore=ignored)
    for part in glob.glob(f"{library}/lib-dynload/*.so"):
        for found in libraries(part):
            put(root, found[1:], found)
    for name, to in (("tools/farm_dispatch", "tools/farm_dispatch"), ("python/src/fizgruk", "src/fizgruk")):
        shutil.copytree(f"{TOP}/{name}", f"{root}/opt/farm/{to}", ignore=shutil.ignore_patterns("__pycache__"))
    put(root, "opt/farm/tools/farm-worker", f"{TOP}/tools/farm-worker")
    write(root, "opt/farm/dispatch.py", DISPATCH)
    write(root, "bin/begins", BEGINS, 0o755)


def modules(names: Sequence[str] = MODULES) -> List[str]:
    """These of the kernel's modules, each behind those that it needs itself."""
    files, found = modules_of(kernel()), []
    modinfo = str(shutil.which("modinfo", path="/usr/sbin:/sbin"))

    def add(name: str) -> None:
        file = files.get(name)  # (what the kernel has built in has none)
        if file and file not in found:
            ran = subprocess.run([modinfo, "-F", "depends", file], capture_output=True, text=True, check=True)
            for each in ran.stdout.strip().split(","):
                add(each.replace("-", "_"))
            found.append(file)

    for module in names:
        add(module)
    return found


def libraries(program: str) -> List[str]:
    said = subprocess.run(["ldd", program], capture_output=True, text=True, check=False).stdout
    return [word for word in said.split() if word.startswith("/")]


def put(root: str, name: str, source: str) -> None:
    os.makedirs(os.path.dirname(f"{root}/{name}"), exist_ok=True)
    shutil.copy(source, f"{root}/{name}")


def write(root: str, name: str, text: str, mode: int = 0o644) -> None:
    write_bytes(root, name, text.encode(), mode)


def write_bytes(root: str, name: str, said: bytes, mode: int = 0o644) -> None:
    os.makedirs(os.path.dirname(f"{root}/{name}"), exist_ok=True)
    with open(f"{root}/{name}", "wb") as file:
        file.write(said)
    os.chmod(f"{root}/{name}", mode)


# ---- a machine


class Machine:
    """One of the two: its disks stay when it is killed."""

    def __init__(self, name: str, image: str, folder: str, cable: int):
        self.name, self.image, self.folder, self.cable = name, image, folder, cable
        self.port = free_port()
        self.process: Optional["subprocess.Popen[bytes]"] = None
        for disk in "01":
            with open(f"{folder}/{name}.disk{disk}", "wb") as made:
                made.truncate(DISK)
        write(folder, f"{OTHER[name]}.relay", RELAY.format(folder=folder, name=OTHER[name]))
        write(folder, f"{name}.begins", f'read -r number && echo "$number" >> {folder}/begun\n')

    @property
    def serial(self) -> str:
        return f"{self.folder}/{self.name}.serial"

    def words(self) -> List[str]:
        """What QEMU is started with."""
        mac = f"52:54:00:00:00:0{list(OTHER).index(self.name)}"
        words = [
            *"qemu-system-x86_64 -accel tcg,tb-size=64 -cpu max -M pc -m 384 -display none -no-reboot -serial chardev:s".split(),
            "-kernel", kernel(), "-initrd", self.image,
            "-append", f"console=ttyS1 panic=-1 quiet no_timer_check machine={self.name}",
            "-chardev", f"socket,id=s,path={self.serial},server=on,wait=off", "-serial", f"file:{self.folder}/{self.name}.console",
            # (a cable that outlives either end)
            "-netdev", f"socket,id=n,mcast=230.0.0.1:{self.cable},localaddr=127.0.0.1",
            "-device", f"virtio-net-pci,netdev=n,mac={mac}",
            "-netdev", f"user,id=u,restrict=on,hostfwd=tcp:127.0.0.1:{self.port}-10.0.2.15:9081,"
            f"guestfwd=tcp:10.0.2.9:{RELAY_PORT}-cmd:sh {self.folder}/{OTHER[self.name]}.relay,"
            f"guestfwd=tcp:10.0.2.9:81-cmd:sh {self.folder}/{self.name}.begins",
            "-device", "virtio-net-pci,netdev=u",
        ]
        for disk in "01":
            words += ["-drive", f"file={self.folder}/{self.name}.disk{disk},format=raw,if=none,id=d{disk},cache=writethrough"]
            words += ["-device", f"virtio-blk-pci,drive=d{disk}"]
        return words

    def boot(self) -> None:
        with contextlib.suppress(FileNotFoundError):
            os.unlink(self.serial)
        self.process = subprocess.Popen(self.words(), stdin=subprocess.DEVNULL, start_new_session=True)
        write(self.folder, f"{self.name}.on", "")
        self.line = socket.socket(socket.AF_UNIX)
        until = time.monotonic() + PATIENCE
        while self.line.connect_ex(self.serial):
            if time.monotonic() > until or self.process.poll() is not None:
                raise Wrong(f"{self.name} doesn't boot")
            time.sleep(0.1)
        self.read = self.line.makefile("r", errors="replace")
        self._until("READY")

    def _until(self, word: str) -> Tuple[str, List[str]]:
        self.line.settimeout(PATIENCE)
        said: List[str] = []
        for text in self.read:
            text = text.strip("\r\n")
            if text.startswith(word):
                return text, said
            said.append(text)
        raise Wrong(f"{self.name} ended: {said[-5:]}")

    def ran(self, command: str) -> Tuple[bool, str]:
        """Whether a command of its shell ended well, and what it said."""
        self.line.sendall(command.encode() + b"\n")
        end, said = self._until("DONE")
        return end == "DONE 0", "\n".join(said)

    def do(self, command: str) -> str:
        is_done, said = self.ran(command)
        if not is_done:
            raise Wrong(f"{self.name}: {command}: {said[-600:]}")
        return said

    def wait(self, what: str, command: str) -> None:
        until = time.monotonic() + PATIENCE
        while not self.ran(command)[0]:
            if time.monotonic() > until:
                raise Wrong(f"{self.name}: {what}: not within {PATIENCE} s: {self.ran('cat /proc/drbd; dmesg | tail')[1]}")
            time.sleep(0.1)

    def kill(self) -> None:
        if self.process:
            self.process.kill()
            self.process.wait()
            os.unlink(f"{self.folder}/{self.name}.on")
            self.line.close()
            self.process = None

    def ask(self, user: str, path: str, body: Any = None, key: str = "", patience: float = 60) -> Tuple[int, Any]:
        """The status and the body of its desk's answer."""
        line = http.client.HTTPConnection("127.0.0.1", self.port, timeout=patience)
        with contextlib.closing(line):
            fields = {"x-user": user, **({"x-key": key} if key else {})}
            sent = body if isinstance(body, str) else json.dumps(body or {})
            line.request("GET" if body is None else "POST", path, sent, fields)
            answer = line.getresponse()
            return answer.status, json.loads(answer.read())

    # ---- as docs/second-machine.md has it

    def comes_back(self) -> None:
        self.boot()
        self.do(f"echo 'http://10.0.2.9:16421/off?port={OTHER[self.name]} 0' > /etc/farm/fence.conf")

    def is_primary(self) -> bool:
        return self.do("cat /proc/drbd").count("ro:Primary/") == 2

    def dispatches(self) -> None:
        """Runs what is given its boards, as a try by hand: there is no systemd."""
        self.do("mount /dev/drbd1 /rest && mkdir -p /rest/dispatch")
        words = "--server http://127.0.0.1:9080 --folder /rest/dispatch --every 1 --clock any begins"
        self.do(f"PYTHONDONTWRITEBYTECODE=1 python3 /opt/farm/dispatch.py {words} > /tmp/dispatch 2>&1 &")

    def serves(self) -> None:
        """Serves the farm, which is mounted where it isn't yet."""
        self.do("grep -q ' /mnt ' /proc/mounts || mount /dev/drbd0 /mnt")
        self.do("farm serve --db /mnt/lab.db --port 9080 --max 100000000 > /tmp/serve 2>&1 &")
        self.wait("the desk", "grep -q listening /tmp/serve")
        self.do("socat TCP-LISTEN:9081,fork,reuseaddr,backlog=60 TCP:127.0.0.1:9080 > /dev/null 2>&1 &")
        until = time.monotonic() + PATIENCE
        while True:
            with contextlib.suppress(OSError, http.client.HTTPException, ValueError):
                if self.ask("ann", "/status", patience=5)[0] == 200:
                    return
            if time.monotonic() > until:
                raise Wrong(f"{self.name} doesn't serve: {self.do('cat /tmp/serve')}")
            time.sleep(0.05)


# ---- the people


class Clients:
    """What was answered, and what was sent without an answer."""

    def __init__(self, dice: random.Random):
        self.answered: Dict[str, int] = {}
        self.open: Set[str] = set()
        self.refused: List[str] = []
        self.numbers, self.lock = itertools.count(1), threading.Lock()
        self.at: Optional[Machine] = None
        self.jobs: Dict[str, int] = {}
        for whom in (*[self._run] * 4, *[self._submit] * 2):
            threading.Thread(target=whom, args=(random.Random(dice.random()),), daemon=True).start()

    def _run(self, dice: random.Random) -> None:
        while True:
            machine = self.at
            if machine is None:
                time.sleep(0.02)
                continue
            with contextlib.suppress(OSError, http.client.HTTPException, ValueError):
                if dice.random() < 0.1:
                    machine.ask("dispatcher", "/pass", {}, patience=2)
                else:
                    self._reserve(machine)

    def _submit(self, _: random.Random) -> None:
        """One job after another: the next once the desk says that the one before has ended."""
        key, number = "", 0
        while True:
            machine = self.at
            time.sleep(0.1)
            with contextlib.suppress(OSError, http.client.HTTPException, ValueError):
                if machine is None or number and machine.ask("bob", f"/jobs/{number}", patience=2)[1]["state"] != "Finished":
                    continue
                with self.lock:
                    key, number = key or f"j{next(self.numbers):08}", 0
                status, said = machine.ask("bob", "/jobs", JOB, key, 2)
                if status == 200:
                    self.jobs[key], key, number = said["number"], "", said["number"]
                else:
                    self.refused.append(f"{status} {said}")

    def _reserve(self, machine: Machine) -> None:
        with self.lock:
            key = f"k{next(self.numbers):08}"
            self.open.add(key)
        status, said = machine.ask("ann", "/reservations", BODY, key, 2)
        with self.lock:
            if status == 200:
                self.answered[key] = said["number"]
            else:
                self.refused.append(f"{status} {said}")
            self.open.discard(key)


class Found:
    """What was found of the commands over all failovers."""

    def __init__(self) -> None:
        self.lost = self.twice = self.otherwise = self.failovers = self.jobs = self.begun_twice = 0
        self.seconds: List[float] = []

    def look(self, machine: Machine, clients: Clients, dice: random.Random) -> None:
        """Compares what a machine serves with what was answered, and sends what had no answer again."""
        with clients.lock:
            answered, unanswered, jobs = dict(clients.answered), set(clients.open), dict(clients.jobs)
        there = {it["number"] for it in machine.ask("ann", "/reservations")[1]["reservations"]}
        self.lost += sum(it not in there for it in answered.values())
        self.twice += len(answered) - len(set(answered.values()))
        for key in [*dice.sample(sorted(answered), min(40, len(answered))), *sorted(unanswered)]:
            status, said = machine.ask("ann", "/reservations", BODY, key)
            if key not in answered and status == 200:
                clients.answered[key] = said["number"]
                clients.open.discard(key)
            elif said.get("number") != answered.get(key):
                self.otherwise += 1
        there = {it["number"] for it in machine.ask("ann", "/reservations")[1]["reservations"]}
        self.twice += len(there - set(clients.answered.values()))
        for key in dice.sample(sorted(jobs), min(20, len(jobs))):
            self.lost += machine.ask("bob", f"/jobs/{jobs[key]}")[0] != 200
            self.otherwise += machine.ask("bob", "/jobs", JOB, key)[1].get("number") != jobs[key]


# ---- the trial


class Trial:
    """Two machines and their people."""

    def __init__(self, program: str, folder: str, seed: int, form: str, tell: Callable[[str], None]):
        self.form, self.folder, self.tell, self.dice, self.found = form, folder, tell, random.Random(seed), Found()
        image, cable = ramdisk(os.path.realpath(program), folder), free_port()
        self.machines = {name: Machine(name, image, folder, cable) for name in OTHER}

    def begin(self) -> None:
        """The first start, in the order of docs/second-machine.md."""
        for machine in self.machines.values():
            machine.comes_back()
            if self.form == "cut":
                machine.do("sed -i '/fencing/d' /etc/drbd.d/farm.res")
            machine.do("yes yes | drbdadm create-md --force farm")
            machine.do("drbdadm up farm")
        first = self.machines["alpha"]
        first.wait("the cable", "[ $(grep -c cs:Connected /proc/drbd) = 2 ]")
        # (both disks are empty, so there is nothing to copy)
        first.do("drbdadm new-current-uuid --clear-bitmap farm/0 && drbdadm new-current-uuid --clear-bitmap farm/1")
        first.do("drbdadm primary farm")
        first.do("for it in 0 1; do mkfs.ext4 -q /dev/drbd$it; done; mount /dev/drbd0 /mnt && farm init --db /mnt/lab.db && umount /mnt")
        first.serves()
        first.dispatches()
        for path, body in LAB:
            if first.ask("admin", path, body)[0] != 200:
                raise Wrong(f"{path} is refused")

    def takes_over(self, machine: Machine) -> None:
        """The other machine is gone, or nobody knows."""
        if self.form == "frozen":
            is_done, said = machine.ran("drbdadm primary farm")
            if is_done or machine.is_primary():
                raise Wrong(f"{machine.name} is primary though nobody fenced the other: {said}")
            self.tell(f"{machine.name} refuses to be primary: {' '.join(said.split())[:160]}")
            machine.do("drbdadm primary --force farm")
        else:
            machine.wait("primary", "drbdadm primary farm")
        machine.serves()

    def refuses_what_is_old(self, machine: Machine, serving: Machine) -> None:
        """A machine that was off while the other one served boots without the cable, and its relay would do what it is told."""
        serving.do("ip link set eth0 down")
        machine.comes_back()
        machine.do("drbdadm up farm")
        os.unlink(f"{self.folder}/{serving.name}.on")
        is_done, said = machine.ran("drbdadm primary farm")
        write(self.folder, f"{serving.name}.on", "")
        if is_done or machine.is_primary():
            raise Wrong(f"{machine.name} is primary with what it had before {serving.name} served alone")
        self.tell(f"{machine.name} was off, and refuses to be primary: {' '.join(said.split())[:160]}")

    def cuts(self, machine: Machine, clients: Clients) -> None:
        """Cuts the cable, and lets people go on."""
        if self.form == "frozen":
            write(self.folder, "broken", "")
        machine.do("ip link set eth0 down")
        before = len(clients.answered)
        time.sleep(AFTER_CUT)
        count = len(clients.answered) - before
        self.tell(f"answered within {AFTER_CUT:g} s after the cut: {count}")
        if self.form == "frozen" and count > 4:  # (each client may have one that was written before)
            raise Wrong(f"{count} commands were answered behind the cut")

    def fails_over(self, serving: Machine, clients: Clients) -> Machine:
        """One round. Returns who serves then."""
        other = self.machines[OTHER[serving.name]]
        serving.wait("both disks", "[ $(grep -c ds:UpToDate/UpToDate /proc/drbd) = 2 ]")
        before, clients.at = len(clients.answered), serving
        until = time.monotonic() + PATIENCE
        while len(clients.answered) < before + 10 and time.monotonic() < until:
            time.sleep(0.01)
        if self.found.failovers % 2:
            self.awaits_start(clients)
        else:
            time.sleep(self.dice.uniform(0, 2))
        if self.form != "plain":
            self.cuts(serving, clients)
        serving.kill()
        clients.at, killed = None, time.monotonic()
        self.takes_over(other)
        self.found.seconds.append(time.monotonic() - killed)
        self.found.failovers += 1
        other.dispatches()
        time.sleep(2.1)  # (after which no client waits for the killed one)
        self.found.look(other, clients, self.dice)
        self.tell(f"{self.found.failovers}: served again by {other.name} after {self.found.seconds[-1]:.1f} s; {self.said(clients)}")
        return other

    def awaits_start(self, clients: Clients) -> None:
        """Waits until a job starts: the desk says so, which is before its command begins, or this has begun."""
        machine, begun = clients.at, len(self.begun())
        states = self.dice.choice((("Scheduled",), ("Running",), ()))
        until = time.monotonic() + PATIENCE
        while machine and time.monotonic() < until and len(self.begun()) == begun:
            newest = max(clients.jobs.values(), default=0)
            with contextlib.suppress(OSError, http.client.HTTPException, ValueError):
                if newest and machine.ask("bob", f"/jobs/{newest}", patience=2)[1]["state"] in states:
                    return

    def begun(self) -> List[int]:
        """The jobs whose commands noted that they began, in their order."""
        with contextlib.suppress(FileNotFoundError), open(f"{self.folder}/begun", encoding="utf-8") as file:
            return [int(it) for it in file.read().split()]
        return []

    def ends_jobs(self, machine: Machine, clients: Clients) -> None:
        """Lets all jobs end, and looks how often each was begun."""
        for number in clients.jobs.values():
            until = time.monotonic() + PATIENCE
            while machine.ask("bob", f"/jobs/{number}")[1]["state"] != "Finished":
                if time.monotonic() > until:
                    raise Wrong(f"job {number} doesn't end: {machine.do('tail -n 30 /tmp/dispatch')}")
                time.sleep(0.5)
            times, result = self.begun().count(number), machine.ask("bob", f"/jobs/{number}")[1]["result"]
            self.found.begun_twice += times > 1
            if result not in ("Complete", "Infra") or result == "Complete" and not times:
                raise Wrong(f"job {number} is {result}, and was begun {times} times")
        self.found.jobs = len(clients.jobs)

    def said(self, clients: Clients) -> str:
        found, count = self.found, len(clients.answered) + len(clients.jobs)
        return f"{count} commands: {found.lost} lost, {found.twice} twice, {found.otherwise} answered otherwise"

    def upgrades(self, rounds: int) -> Found:
        """Kills the migration of a farm of the first edition, again and again, and lets the other machine go on with it."""
        self.begin()
        serving = self.machines["alpha"]
        serving.do("pkill farm; sleep 1; umount /rest; umount -l /mnt; true")
        serving.do("mount /dev/drbd0 /mnt || grep /mnt /proc/mounts")
        began = time.monotonic()
        serving.do("rm -f /mnt/*; cp /first/* /mnt/; farm migrate --db /mnt/lab.db")
        seconds = time.monotonic() - began
        wanted = serving.do(REPORTS)
        for round_ in range(rounds):
            other = self.machines[OTHER[serving.name]]
            serving.wait("both disks", "[ $(grep -c ds:UpToDate/UpToDate /proc/drbd) = 2 ]")
            serving.do("rm -f /mnt/*; cp /first/* /mnt/; sync; farm migrate --db /mnt/lab.db > /tmp/migrated 2>&1 &")
            time.sleep(self.dice.uniform(0, seconds))
            serving.kill()
            other.wait("primary", "drbdadm primary farm")
            other.do("mount /dev/drbd0 /mnt")
            is_done, said = other.ran("farm migrate --db /mnt/lab.db 2>&1")
            if not is_done and "64 new schema" not in said or other.do(REPORTS) != wanted:
                raise Wrong(f"{other.name} finds another farm: {said}")
            self.found.failovers += 1
            self.tell(f"{round_ + 1}: {other.name} goes on: {said.strip()}")
            serving.comes_back()
            serving.do("drbdadm up farm")
            serving = other
        return self.found

    def run(self, rounds: int) -> Found:
        try:
            if self.form == "upgrade":
                return self.upgrades(rounds)
            self.begin()
            clients, serving = Clients(self.dice), self.machines["alpha"]
            for left in reversed(range(rounds)):
                gone, serving = serving, self.fails_over(serving, clients)
                if left:
                    gone.comes_back()
                    gone.do("drbdadm up farm")
            if clients.refused:
                raise Wrong(f"refused: {clients.refused[0]}")
            if self.form == "plain":
                self.refuses_what_is_old(gone, serving)
            self.ends_jobs(serving, clients)
            seconds = self.found.seconds
            span = f"{min(seconds):.1f} to {max(seconds):.1f} s"
            jobs = f"{self.found.jobs} jobs, {self.found.begun_twice} begun twice"
            self.tell(f"{self.form}: {rounds} failovers, {self.said(clients)}; {jobs}; served again after {span}")
            return self.found
        finally:
            for machine in self.machines.values():
                machine.kill()


def main(program: str, rounds: int = 20, seed: int = 1, form: str = "plain", tell: Callable[[str], None] = print) -> Found:
    why = lacking()
    if why:
        raise Wrong(why)
    with tempfile.TemporaryDirectory() as folder:
        return Trial(program, folder, seed, form, tell).run(rounds)


if __name__ == "__main__":
    given = sys.argv[1:]
    if not given:
        sys.exit(__doc__)
    came = main(given[0], *map(int, given[1:3]), *given[3:], tell=lambda text: print(text, flush=True))
    is_well = not (came.twice or came.otherwise or came.begun_twice) and bool(came.lost) == (given[3:] == ["cut"])
    sys.exit(not is_well)
