#!/usr/bin/env python3
"""The guide's words for a second machine, run as they stand on two machines with Debian (QEMU), systemd and the packages:
python3 tests/by_hand/second_machine.py ROOT PACKAGES

ROOT is a folder with Debian 12 as debootstrap(8) makes it, with --variant=minbase and --include=systemd-sysv,udev,kmod,dbus,
iproute2,lvm2,drbd-utils,wget,nginx-light,procps,adduser,sensible-utils and what the packages want; PACKAGES the folder of the .deb files of
packaging/build.sh. Root runs it, by hand, for some twenty minutes; the machines are those of failover.py.

What is typed in an editor is done by sed(1): the group of volumes is `rack`, and the volumes are small, as what is emulated
copies two megabytes a second. Everything else is what the guide's blocks say, in their order: setting up, the loss of the
machine that serves (SIGKILL of QEMU) and the take-over, the lost one back as the other, and the way back by intention.
Behind each the answered reservation is there, once; each unit that the guide starts is active on the one that serves, and
refused on the other. It wants a machine at ease: DRBD takes what is emulated too slowly for a lost cable.
"""
from __future__ import annotations

import glob
import os
import re
import shutil
import subprocess
import sys
import tempfile
import time
from typing import Dict, List

TESTS = os.path.dirname(os.path.dirname(os.path.realpath(__file__)))
sys.path += [os.path.join(TESTS, it) for it in ("shared", "faults")]
import failover  # noqa: E402
from failover import OTHER, TOP, Machine, Wrong, kernel, libraries, put, write  # noqa: E402
from ports import free_port  # noqa: E402

UNITS = ("farm", "farm-dispatch", "farm-watch", "farm-door", "nginx")
INIT = """\
#!/bin/busybox sh
export PATH=/bin:/sbin:/usr/bin:/usr/sbin
/bin/busybox mkdir -p /dev /root /sbin /usr/bin /usr/sbin
/bin/busybox --install -s
mount -t devtmpfs dev /dev
for module in /modules/*.ko; do insmod "$module"; done 2> /dev/null
until mount -t ext4 /dev/vda /root 2> /dev/null; do sleep 0.2; done
exec switch_root /root /lib/systemd/systemd
"""
# Does what comes over the first serial port, a line at a time.
SHELL = """\
#!/bin/bash
name=$(hostname)
ip link set eth0 up; ip address add "$([ "$name" = alpha ] && echo 192.0.2.1 || echo 192.0.2.2)/24" dev eth0
ip link set eth1 up; ip address add 10.0.2.15/24 dev eth1
stty -F /dev/ttyS0 -echo
exec < /dev/ttyS0 > /dev/ttyS0 2>&1
export HOME=/root DEBIAN_FRONTEND=noninteractive
cd /root
echo "READY $name"
while read -r line; do
    eval "$(printf %b "$line")" < /dev/null
    echo "DONE $?"
done
"""
UNIT = "[Unit]\nAfter=basic.target\n[Service]\nExecStart=/trial.sh\n[Install]\nWantedBy=default.target\n"
ROOT_SIZE, LAB_SIZE = 3 << 30, 1 << 30
MODULES = ("virtio_pci", "virtio_blk", "virtio_net", "ext4")
failover.PATIENCE = 900.0  # seconds


class Debian(Machine):
    """One of the two: the first disk has its system, the second the lab's group of volumes."""

    def words(self) -> List[str]:
        own = super().words()
        own[own.index("384")], own[own.index("tcg,tb-size=64")] = "768", "tcg,tb-size=256"
        own[own.index("-append") + 1] += " net.ifnames=0 systemd.show_status=1 systemd.hostname=" + self.name
        own[own.index("-append") + 1] = own[own.index("-append") + 1].replace(" quiet", "")
        return own

    def types(self, block: str) -> str:
        """Types a block of the guide, and demands that it ends well."""
        text = "set -e\n" + block
        return self.do(f"( {text} )".replace("\\", "\\\\").replace("\n", "\\n"))


def image_of(root: str, packages: str, folder: str) -> str:
    """The first disk of both: Debian with the packages, the kernel's modules and the trial's shell."""
    place = os.path.join(folder, "debian")
    subprocess.run(["cp", "-a", root, place], check=True)
    version = os.path.basename(kernel()).partition("-")[2]
    os.makedirs(f"{place}/lib/modules", exist_ok=True)
    subprocess.run(["cp", "-a", f"{os.path.dirname(os.path.dirname(kernel()))}/lib/modules/{version}", f"{place}/lib/modules"], check=True)
    subprocess.run(["depmod", "-b", place, version], check=True)
    os.makedirs(f"{place}/debs")
    for file in glob.glob(f"{packages}/*.deb"):
        shutil.copy(file, f"{place}/debs")
    write(place, "usr/sbin/policy-rc.d", "#!/bin/sh\nexit 101\n", 0o755)
    installs = 'mount -t proc proc "$0/proc" && DEBIAN_FRONTEND=noninteractive chroot "$0" sh -c "dpkg -i /debs/*.deb"'
    subprocess.run(["unshare", "--mount", "sh", "-c", installs, place], check=True)
    os.unlink(f"{place}/usr/sbin/policy-rc.d")
    write(place, "etc/hosts", "127.0.0.1 localhost\n192.0.2.1 alpha\n192.0.2.2 beta\n10.0.2.9 pdu.lab.example\n")
    write(place, "trial.sh", SHELL, 0o755)
    write(place, "etc/systemd/system/trial.service", UNIT)
    masked = ("serial-getty@ttyS1.service", "e2scrub_reap.service", "cron.service", "systemd-timesyncd.service")
    for link, to in (("default.target.wants/trial.service", "../trial.service"), *((it, "/dev/null") for it in masked)):
        os.makedirs(os.path.dirname(f"{place}/etc/systemd/system/{link}"), exist_ok=True)
        os.symlink(to, f"{place}/etc/systemd/system/{link}")
    image = os.path.join(folder, "debian.ext4")
    subprocess.run(["mke2fs", "-q", "-t", "ext4", "-d", place, image, str(ROOT_SIZE >> 10)], check=True)
    shutil.rmtree(place)
    return image


def ramdisk(folder: str) -> str:
    root = os.path.join(folder, "root")
    for number, module in enumerate(failover.modules(MODULES)):
        put(root, f"modules/{number:03}-{os.path.basename(module)}", module)
    put(root, "bin/busybox", os.path.realpath(shutil.which("busybox") or ""))
    for library in libraries("/bin/busybox"):
        put(root, library[1:], library)
    write(root, "init", INIT, 0o755)
    image = os.path.join(folder, "image.gz")
    subprocess.run(["sh", "-c", 'find . | cpio -o -H newc --quiet | gzip -1 > "$0"', image], cwd=root, check=True)
    shutil.rmtree(root)
    return image


def blocks_of(section: str) -> List[str]:
    """The commands of a section of the guide: its indented blocks."""
    files = [it for it in glob.glob(f"{TOP}/docs/*.md") if re.search("^#+ A second machine$", read(it), re.M)]
    text = re.split("^#+ A second machine$", read(files[0]), flags=re.M)[1]
    part = re.split(f"^#+ {section}$", text, flags=re.M)[1].split("\n#")[0]
    found = re.findall(r"(?:(?<=\n\n)|^)((?:    .*\n|\n(?=    ))+)", part)
    return [re.sub("^    ", "", it, flags=re.M) for it in found]


def read(file: str) -> str:
    with open(file, encoding="utf-8") as said:
        return said.read()


class Guide:
    """What is typed on the two."""

    def __init__(self, folder: str, root: str, packages: str):
        system, image, cable = image_of(root, packages, folder), ramdisk(folder), free_port()
        self.machines: Dict[str, Debian] = {it: Debian(it, image, folder, cable) for it in OTHER}
        for name in OTHER:
            subprocess.run(["cp", "--sparse=always", system, f"{folder}/{name}.disk0"], check=True)
            os.truncate(f"{folder}/{name}.disk1", LAB_SIZE)

    def sets_up(self) -> None:
        both, fstab, first = blocks_of("Setting it up")
        for name, machine in self.machines.items():
            machine.boot()
            machine.do("pvcreate -q /dev/vdb && vgcreate -q rack /dev/vdb")
            edit = "sed -i s/VOLUME_GROUP/rack/ /etc/drbd.d/farm.res"
            text = both.replace("VOLUME_GROUP", "rack").replace("sensible-editor /etc/drbd.d/farm.res", edit)
            text = text.replace("-L 2G", "-L 100M").replace("-L 100G", "-L 400M")
            tell(f"{name}: {machine.types(text)[-300:]}")
            tell(f"{name}: {machine.types(fstab)[-300:]}")
        serving = self.machines["alpha"]
        serving.wait("the cable", "[ $(grep -c cs:Connected /proc/drbd) = 2 ]")
        tell(f"alpha: {serving.types(first)[-300:]}")
        self.serves(serving)
        self.is_refused(self.machines["beta"])

    def serves(self, machine: Debian) -> None:
        machine.wait("the desk", "wget -q -O /dev/null http://127.0.0.1:880/status")
        for unit in UNITS:
            machine.wait(f"{unit} is active", f"systemctl is-active -q {unit} || systemctl show -P ConditionResult {unit} | grep -q no")

    def is_refused(self, machine: Debian) -> None:
        """Started on the other machine, each unit is refused, and an installation makes no farm there."""
        for unit in UNITS:
            is_done, said = machine.ran(f"systemctl start {unit} 2>&1")
            if is_done:
                raise Wrong(f"{unit} starts on {machine.name}, where nothing is mounted: {said}")
        machine.ran("dpkg-reconfigure fizgruk-farm")
        if machine.do("ls -A /var/lib/farm"):
            raise Wrong(f"{machine.name} has a farm of its own: {machine.do('ls -A /var/lib/farm')}")

    def sends(self, machine: Debian, user: str, path: str, body: str, key: str = "") -> str:
        fields = f"--header 'x-user: {user}'" + (f" --header 'x-key: {key}'" if key else "")
        return machine.do(f"wget -q -O - {fields} --post-data '{body}' http://127.0.0.1:880{path} && echo").strip()

    def reserves(self, machine: Debian) -> str:
        """What a keyed reservation is answered, the first time and again."""
        return self.sends(machine, "ann", "/reservations", '{"tags":["hdmi"]}', "k1")

    def run(self) -> None:
        self.sets_up()
        alpha, beta = self.machines["alpha"], self.machines["beta"]
        self.sends(alpha, "admin", "/types", '{"name":"virtual"}')
        self.sends(alpha, "admin", "/boards", '{"name":"v1","type":"virtual","tags":["hdmi"]}')
        answered = self.reserves(alpha)
        tell(f"alpha answered: {answered}")
        alpha.kill()
        takes_over, by_intention = blocks_of("The other machine takes over")
        began = time.monotonic()
        beta.wait("primary", takes_over.splitlines()[0])
        tell(f"beta: {beta.types(takes_over)[-300:]}")
        self.serves(beta)
        tell(f"served again after {time.monotonic() - began:.0f} s")
        if self.reserves(beta) != answered:
            raise Wrong(f"k1 is answered otherwise: {self.reserves(beta)}")
        alpha.boot()
        alpha.do("drbdadm up farm")
        for machine in (alpha, beta):  # (or DRBD takes what is emulated for a slow cable that others need)
            machine.do("for it in 0 1; do drbdsetup disk-options $it --c-plan-ahead=0 --resync-rate=400M --c-min-rate=0; done")
        beta.wait("both disks", "[ $(grep -c ds:UpToDate/UpToDate /proc/drbd) = 2 ]")
        self.is_refused(alpha)
        tell(f"beta: {beta.types(by_intention)[-300:]}")
        tell(f"alpha: {alpha.types(takes_over)[-300:]}")
        self.serves(alpha)
        if self.reserves(alpha) != answered:
            raise Wrong(f"k1 is answered otherwise: {self.reserves(alpha)}")
        tell("the guide's words did what they say")


def tell(text: str) -> None:
    print(text, flush=True)


def main(root: str, packages: str) -> None:
    with tempfile.TemporaryDirectory() as folder:
        guide = Guide(folder, root, packages)
        try:
            guide.run()
        except Wrong:
            for name in OTHER:
                subprocess.run(["tail", "-n", "25", f"{folder}/{name}.console"], check=False)
            raise
        finally:
            for machine in guide.machines.values():
                machine.kill()


if __name__ == "__main__":
    if len(sys.argv) != 3:
        sys.exit(__doc__)
    main(*sys.argv[1:])
