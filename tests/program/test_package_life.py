"""The packages' life under a systemd: what ran before an upgrade runs after it, what an admin disabled stays so, and
purging leaves nginx a configuration that it takes; and a machine that runs jobs, set up as the guide says. (packaging/try.sh
does more, in a clean Debian, by hand.)"""
from __future__ import annotations

import os
import re
import secrets
import subprocess
import textwrap
from typing import Dict, Iterator, List

import pytest
from machine import Machine
from served import STARTED, TOP
from wants import wants

pytestmark = [pytest.mark.xdist_group("packages"), pytest.mark.slow(90), pytest.mark.timeout(1200)]
BY_ITSELF = ("farm.service", "farm-dispatch.service", "farm-worker.service")
BY_THE_ADMIN = (
    "farm-backup.timer", "farm-metrics.timer", "farm-door.service", "farm-access-sshd.service", "farm-access-guard.service",
)
UNITS = BY_ITSELF + BY_THE_ADMIN
ON, OFF = "enabled active", "disabled inactive"
# Makes the packages in the folder before/ those of the version before, where the commands of jobs were fizgruk-farm's.
BEFORE = """\
set -e
rm -rf before && mkdir before && cd before
for name in fizgruk-farm fizgruk-access python3-fizgruk fizgruk-desk fizgruk-worker; do
    dpkg-deb -R ../"$name"_*.deb $name
    sed -i 's/2[.]0-[0-9]*/2.0-1/g; /^Breaks:/d; /^Replaces:/d; s/fizgruk-worker ([^)]*), *//' $name/DEBIAN/control
done
for file in run-job run-job-labgrid run-job-lava check-board; do
    mkdir -p fizgruk-farm/etc/farm
    mv fizgruk-worker/etc/farm/$file fizgruk-farm/etc/farm
    echo /etc/farm/$file >> fizgruk-farm/DEBIAN/conffiles
done
for name in fizgruk-farm fizgruk-access python3-fizgruk fizgruk-desk; do dpkg-deb -Znone -b $name $name.deb > /dev/null; done
"""
ADDRESS = "10.9.8.2"  # (of the machine that runs jobs)


class Debian(Machine):
    """A machine on which the packages are, in /tmp/packages, and nothing of them is installed."""

    def __init__(self, folder: str, program: str, packages: str):
        self.packages = packages
        super().__init__(folder, program)

    def _set_up(self, program: str) -> None:
        self.run("rm", "-f", "/usr/sbin/policy-rc.d")  # (by which images of containers start nothing)
        names = [it for it in os.listdir(self.packages) if not it.startswith("fizgruk_")]
        with subprocess.Popen(["tar", "-cC", self.packages, *names], stdout=subprocess.PIPE) as packed:
            self.run("sh", "-c", "mkdir /tmp/packages && tar -xC /tmp/packages", stdin=packed.stdout)

    def install(self) -> str:
        """Installs the packages; where they are there those that have units are upgraded."""
        # (the index of manual pages isn't made anew each time)
        script = """rm -f /var/lib/man-db/auto-update
            cd /tmp/packages
            if dpkg -s fizgruk-desk > /dev/null 2>&1; then set -- fizgruk-worker_* fizgruk-farm_* fizgruk-access_*; else set -- *.deb; fi
            DEBIAN_FRONTEND=noninteractive dpkg -i "$@\""""
        self.run("sh", "-c", script)
        return self.run("systemctl", "is-failed", *UNITS, check=False).stdout

    def has_packages(self) -> None:
        """Installs the packages, unless they are installed."""
        words = ["dpkg-query", "-W", "-f", "${db:Status-Status}", "fizgruk-farm"]
        if self.run(*words, check=False).stdout != "installed":
            self.install()

    def units(self) -> Dict[str, str]:
        """Whether each unit is enabled, and whether it is active."""
        found = {}
        for unit in UNITS:
            enabled = self.run("systemctl", "is-enabled", unit, check=False).stdout.strip()
            found[unit] = f"{enabled} {self.status(unit)}"
        return found


@pytest.fixture(scope="module")
def debian(program: str, packages: str, tmp_path_factory: pytest.TempPathFactory) -> Iterator[Debian]:
    wants("dpkg", "nginx")
    booted = Debian(str(tmp_path_factory.mktemp("debian")), program, packages)
    STARTED.remove(booted.process)  # (it lasts longer than a test)
    yield booted
    booted.end()


def test_an_upgrade_leaves_running_what_ran(debian: Debian) -> None:
    """By the rules of deb-systemd-invoke: what is enabled begins, what is disabled only where it ran."""
    wanted = {**dict.fromkeys(BY_ITSELF, ON), **dict.fromkeys(BY_THE_ADMIN, OFF)}
    debian.install()
    assert debian.units() == wanted
    first = ("farm-backup.timer", "farm-door.service", "farm-access-sshd.service")
    debian.run("systemctl", "enable", "--now", *first)
    wanted.update(dict.fromkeys(first, ON))
    debian.install()
    assert debian.units() == wanted
    stopped = ("farm-backup.timer", "farm-dispatch.service", "farm-door.service")
    debian.run("systemctl", "disable", "--now", *stopped)
    debian.run("systemctl", "enable", "--now", "farm-access-guard.service")
    debian.run("systemctl", "start", "farm-metrics.timer")
    wanted.update(dict.fromkeys(stopped, OFF))
    wanted.update({"farm-access-guard.service": ON, "farm-metrics.timer": "disabled active"})
    debian.install()
    assert debian.units() == wanted
    debian.wait("the desk", *debian.curl("root", "/status"))


def test_purging_leaves_a_configuration_that_nginx_takes(debian: Debian) -> None:
    """And an admin's own link of another name, whatever it leads to."""
    debian.has_packages()
    links = "/etc/nginx/sites-enabled"
    debian.run("sh", "-c", f"rm -f {links}/*; ln -s ../sites-available/farm {links}/farm")
    debian.run("ln", "-s", "/srv/ours", f"{links}/ours")
    debian.run("sh", "-c", "dpkg --remove fizgruk-access fizgruk-farm && test -e /etc/nginx/sites-enabled/farm")
    debian.run("sh", "-c", "DEBIAN_FRONTEND=noninteractive dpkg --purge fizgruk-access fizgruk-farm")
    assert debian.run("ls", links).stdout.split() == ["ours"]
    debian.run("rm", f"{links}/ours")
    tried = debian.run("nginx", "-t", check=False)
    assert tried.returncode == 0, tried.stderr
    assert debian.run("ls", "/var/lib/farm").stdout.split() != [], "the farm stays"


def test_another_site_of_the_same_name_stays(debian: Debian) -> None:
    debian.has_packages()
    link = "/etc/nginx/sites-enabled/farm"
    debian.run("sh", "-c", f"echo 'server {{ listen 127.0.0.1:8099; }}' > /srv/mine && ln -sf /srv/mine {link}")
    debian.run("sh", "-c", "DEBIAN_FRONTEND=noninteractive dpkg --purge fizgruk-access fizgruk-farm")
    assert debian.run("readlink", link).stdout.strip() == "/srv/mine"
    debian.run("rm", link)


def test_no_farm_is_made_below_a_mount_that_is_missing(debian: Debian) -> None:
    """Neither by a first installation nor by an upgrade; nor is a farm that lies there taken."""
    debian.run("sh", "-c", "DEBIAN_FRONTEND=noninteractive dpkg --purge fizgruk-access fizgruk-farm; rm -rf /var/lib/farm")
    debian.write("/etc/fstab", "/srv/device /var/lib/farm none bind,noauto 0 0\n")
    debian.run("touch", "/srv/device")  # (which can't be mounted there)
    for _ in range(2):
        debian.install()
        assert debian.run("ls", "-A", "/var/lib/farm").stdout == ""
        assert debian.status("farm") != "active"
    debian.run("sh", "-c", "runuser -u farm -- farm init --db /var/lib/farm/lab.db && touch -d '2 months ago' /var/lib/farm/before-1")
    debian.install()
    assert debian.run("ls", "/var/lib/farm").stdout.split() == ["before-1", "lab.db", "lab.db-wal"]
    assert debian.status("farm") != "active"
    debian.run("sh", "-c", "rm /srv/device && mkdir /srv/device && mv /var/lib/farm/* /srv/device && chown farm:farm /srv/device")
    debian.run("systemctl", "start", "farm")
    debian.wait("the desk", *debian.curl("root", "/status"))
    debian.run("sh", "-c", "systemctl stop farm && umount /var/lib/farm && rm /etc/fstab && systemctl daemon-reload")


def test_an_upgrade_removes_the_copies_of_upgrades_that_are_older_than_a_month(debian: Debian) -> None:
    debian.has_packages()
    home, ages = "/var/lib/farm", {"before-1": 33, "before-upgrade-1": 33, "before-2": 29, "old-1": 99}
    for name, days in ages.items():
        debian.run("sh", "-c", f"runuser -u farm -- mkdir {home}/{name} && touch {home}/{name}/lab.db")
        debian.run("touch", "-d", f"{days} days ago", f"{home}/{name}")
    debian.install()
    there = debian.run("ls", home).stdout.split()
    assert [it for it in ages if it in there] == ["before-2", "old-1"]


def test_an_upgrade_keeps_the_commands_of_jobs(debian: Debian) -> None:
    """Which are of another package than before, in whichever order they are unpacked; removing what they were of leaves them."""
    all_of_them = "fizgruk-access fizgruk-farm fizgruk-worker fizgruk-desk python3-fizgruk"
    debian.run("sh", "-c", f"rm -f /var/lib/man-db/auto-update; cd /tmp/packages\n{BEFORE}")
    for words in ("apt-get install -y --no-install-recommends", "dpkg -i --auto-deconfigure"):
        debian.run("sh", "-c", f"export DEBIAN_FRONTEND=noninteractive; dpkg --purge {all_of_them}; rm -rf /etc/farm")
        debian.run("sh", "-c", "DEBIAN_FRONTEND=noninteractive dpkg -i /tmp/packages/before/*.deb")
        debian.run("sh", "-c", "dpkg -S /etc/farm/run-job | grep ^fizgruk-farm: && echo '# ours' >> /etc/farm/run-job")
        debian.run("sh", "-c", f"cd /tmp/packages && DEBIAN_FRONTEND=noninteractive {words} ./*.deb < /dev/null")
        assert {it: debian.units()[it] for it in BY_ITSELF} == dict.fromkeys(BY_ITSELF, ON)
        assert debian.run("dpkg", "-S", "/etc/farm/run-job").stdout == "fizgruk-worker: /etc/farm/run-job\n"
        debian.run("sh", "-c", "DEBIAN_FRONTEND=noninteractive dpkg --purge fizgruk-access fizgruk-farm")
        assert debian.run("tail", "-n1", "/etc/farm/run-job").stdout == "# ours\n"
        assert debian.status("farm-worker.socket") == "inactive"
    debian.run("sh", "-c", f"DEBIAN_FRONTEND=noninteractive dpkg --purge {all_of_them}")
    assert debian.run("sh", "-c", "ls -d /etc/farm/run* /run/farm-jobs /var/lib/farm-job /var/lib/farm-worker", check=False).stdout == ""


def _blocks(section: str) -> List[str]:
    """What a section of the guide has, piece by piece, that is typed or written."""
    with open(os.path.join(TOP, "docs", "setting-up.md"), encoding="utf-8") as guide:
        text = guide.read().partition(f"\n## {section}\n")[2].partition("\n## ")[0]
    return [textwrap.dedent(it) for it in re.findall(r"(?:^    .*\n)+", text, re.M)]


def _joined(desk: Machine, other: Machine) -> None:
    """Joins another machine to the desk's, under the name that it has in the guide."""
    around = ["nsenter", "-t", str(desk.first), "-n", "ip", "link"]
    subprocess.run([*around, "add", "rack2", "type", "veth", "peer", "name", "lab"], check=True)
    subprocess.run([*around, "set", "lab", "netns", str(other.first)], check=True)
    desk.run("sh", "-c", "ip addr add 10.9.8.1/24 dev rack2 && ip link set rack2 up")
    desk.run("sh", "-c", f"echo '{ADDRESS} rack2.lab.example' >> /etc/hosts")
    other.run("sh", "-c", f"ip addr add {ADDRESS}/24 dev lab && ip link set lab up && hostname rack2")


def test_a_worker_is_added_as_the_guide_says(
    debian: Debian, program: str, packages: str, tmp_path_factory: pytest.TempPathFactory
) -> None:
    wants("sshd", "ssh-keygen")
    debian.has_packages()
    rack = Debian(str(tmp_path_factory.mktemp("rack")), program, packages)
    _joined(debian, rack)
    rack.write("/etc/machine-id", f"{secrets.token_hex(16)}\n")
    rack.write("/usr/local/bin/editor", "#!/bin/sh\n", 0o755)
    rack.write("/etc/apt/apt.conf.d/yes", 'APT::Get::Assume-Yes "true";\n')  # (what an admin answers)
    install, key, allowed, workers, asked = _blocks("Adding a worker")
    rack.run("sh", "-euc", f"cd /tmp/packages\n{install}")
    listed = rack.run("dpkg-query", "-W", "-f", "${db:Status-Status} ${Package}\n", "*fizgruk*").stdout.splitlines()
    assert [it for it in listed if it.startswith("installed ")] == ["installed fizgruk-worker"]
    rack.run("sh", "-c", "ssh-keygen -A && systemctl start ssh")  # (as its installation does)
    public = debian.run("sh", "-euc", key).stdout.splitlines()[-1]
    rack.write("/root/.ssh/authorized_keys", f"{allowed.partition('ssh-ed25519')[0]}{public}\n", 0o600)
    rack.write("/etc/ssh/sshd_config.d/farm.conf", "PermitRootLogin forced-commands-only\n")
    rack.run("sh", "-c", "chmod 700 /root /root/.ssh && systemctl restart ssh")
    debian.write("/etc/farm/workers.toml", workers)
    for path, body in (("/types", '{"name":"bbb"}'), ("/boards", '{"name":"bbb-07","type":"bbb","tags":[]}')):
        debian.run(*debian.curl("admin", path, "-d", body))
    said = debian.run("sh", "-euc", asked).stdout
    assert re.search("^rack2: root@rack2.lab.example answers, as machine ", said, re.M), said
    debian.run(*debian.curl("admin", "/boards/bbb-07/health", "-d", '{"health":"Good"}'))
    job = 'job_name = "test"\ndevice_type = "bbb"\ntags = ["worker=rack2"]\n'
    assert '"number":' in debian.run(*debian.curl("ann", "/jobs", "--data-binary", job)).stdout
    row = debian.wait("the job has ended", "grep", '"kind":"job"', "/var/lib/farm-dispatch/history.jsonl")
    assert '"worker":"rack2"' in row and '"Complete"' in row, row
    rack.end()


def test_what_packages_want_is_said(folder: str) -> None:
    """A program, and what builds them."""
    build = os.path.join(TOP, "packaging", "build.sh")
    ran = subprocess.run(["sh", build, f"{folder}/farm", folder], capture_output=True, text=True, check=False)
    assert (ran.returncode, ran.stderr) == (1, "")
    assert ran.stdout == f"package: not built, since there is no program {folder}/farm: 'make bin' builds it\n"
    os.mkdir(f"{folder}/bin")
    for name in ("sed", "tr", "dirname", "realpath", "sh"):
        os.symlink(f"/usr/bin/{name}", f"{folder}/bin/{name}")
    words = ["sh", build, "/bin/sh", folder]
    ran = subprocess.run(words, capture_output=True, text=True, check=False, env={"PATH": f"{folder}/bin"})
    assert (ran.returncode, ran.stderr) == (1, "")
    assert ran.stdout.startswith("package: not built, since there is no dpkg-buildpackage, no dh, ")
    assert " apt install " in ran.stdout and {"debhelper", "dh-python", "po-debconf", "dpkg-dev"} <= set(ran.stdout.split())
