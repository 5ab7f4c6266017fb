"""Several labs: desks behind one name (examples/nginx-labs.conf), each with a site of its own, asked one by one or all at
once, by desk, from Python and by the page."""
from __future__ import annotations

import json
import os
import shutil
import subprocess
import sys
import urllib.parse
from typing import Any, Dict, Iterator, List, Optional, Sequence, Tuple

import pytest

import fizgruk
from browser import Visit
from completed import completed
from desks import at_ease
from nginx_site import AROUND, NEEDED, NGINX, WORDS, Site, openssl, write
from ports import free_port
from served import PATIENCE, STARTED, TOOLS, TOP, Board, Farm, environment, read, wait_until
from wants import wants

LABS = ("berlin", "paris")
BOARDS: Dict[str, Sequence[Board]] = {"berlin": [("b1", "bbb", ["hdmi"]), ("b2", "bbb", [])], "paris": [("p1", "rpi", ["hdmi"])]}
MENU = '{"labs":[{"name":"berlin","address":"/berlin/"},{"name":"paris","address":"/paris/"}]}\n'


class Front:
    """An nginx before the sites of two labs, and the settings of a user of both."""

    def __init__(self, folder: str, program: str):
        wants(*NEEDED)
        self.folder, self.port = folder, free_port()
        self.server = f"https://localhost:{self.port}"
        self.farms, self.sites = {}, {}
        for lab in LABS:
            place = os.path.join(folder, lab)
            os.mkdir(place)
            self.farms[lab] = Farm(program, place, BOARDS[lab])
            write(place, "labs.json", MENU, 0o644)
            self.sites[lab] = Site(self.farms[lab], place, [
                ("# set_real_ip_from 192.0.2.1;", "set_real_ip_from 127.0.0.1;"),
                ("# real_ip_header", "real_ip_header"),
                ("root /etc/farm;", f"root {place};"),
            ])
        self.certificate = os.path.join(folder, "front.pem")
        key = ["-newkey", "ec", "-pkeyopt", "ec_paramgen_curve:prime256v1", "-nodes", "-keyout", f"{folder}/front.key"]
        name = ["-subj", "/CN=localhost", "-addext", "subjectAltName=DNS:localhost"]
        openssl("req", "-x509", *name, *key, "-out", self.certificate)
        write(folder, "sites.pem", "".join(read(it.certificate) for it in self.sites.values()), 0o644)
        write(folder, "nginx.conf", AROUND.format(folder=folder, site=self.text()), 0o644)
        words = [str(NGINX), "-p", folder, "-c", f"{folder}/nginx.conf", "-g", "daemon off; master_process off;"]
        self.process = subprocess.Popen(words, stdout=subprocess.DEVNULL, stderr=subprocess.DEVNULL)
        STARTED.append(self.process)
        wait_until("nginx listens", lambda: self.curl("/")[0] != 0)
        self.config = write(folder, "desk.ini", "".join(map(self.section, LABS)), 0o644)

    def text(self) -> str:
        """The example's site in this folder."""
        site = read(os.path.join(TOP, "examples", "nginx-labs.conf"))
        for old, new in [
            ("listen 443 ssl", f"listen 127.0.0.1:{self.port} ssl"),
            ("server_name labs.example", "server_name localhost"),
            ("/etc/ssl/certs/labs.pem", self.certificate),
            ("/etc/ssl/private/labs.key", f"{self.folder}/front.key"),
            ("/etc/ssl/certs/ca-certificates.crt", f"{self.folder}/sites.pem"),
            # (localhost may be ::1 too, where no site listens)
            *((f"proxy_pass https://{lab}.lab.example/;",
               f"proxy_pass https://127.0.0.1:{self.sites[lab].port}/; proxy_ssl_name localhost;") for lab in LABS),
        ]:
            assert old in site, f"the example has no {old}"
            site = site.replace(old, new)
        return site

    def section(self, lab: str) -> str:
        password = os.path.join(self.folder, lab, "ann")
        own = f"server = {self.server}/{lab}\nuser = ann\npassword_file = {password}\n"
        return f"[lab {lab}]\n{own}ca_file = {self.certificate}\n"

    def curl(self, path: str, *words: str) -> Tuple[int, str]:
        """The status and the body of what ann is answered."""
        head = ["curl", "-s", "--cacert", self.certificate, "-u", f"ann:{WORDS['ann']}", "-w", "\n%{http_code}"]
        ran = subprocess.run([*head, *words, self.server + path], capture_output=True, text=True, check=False)
        body, _, status = ran.stdout.rpartition("\n")
        return int(status or 0), body

    def desk(self, *words: str, **more: str) -> Tuple[int, str, List[str]]:
        """What the client comes to, with errors line by line."""
        ran = subprocess.run(
            [sys.executable, os.path.join(TOOLS, "desk"), *words], capture_output=True, text=True, check=False,
            timeout=PATIENCE, env=environment(DESK_CONFIG=self.config, **more),
        )
        return ran.returncode, ran.stdout, at_ease(ran.stderr).splitlines()

    def of_both(self, *words: str) -> Tuple[int, str, List[str]]:
        """The same of all labs, once both answer within the client's ten seconds."""
        def ran() -> Optional[Tuple[int, str, List[str]]]:
            found = self.desk(*words)
            is_slow = any(it.startswith(("desk: lab berlin: ", "desk: lab paris: ")) for it in found[2])
            return None if is_slow else found

        found: Tuple[int, str, List[str]] = wait_until("both labs", ran)
        return found


@pytest.fixture(scope="module")
def front(program: str, tmp_path_factory: pytest.TempPathFactory) -> Iterator[Front]:
    before = len(STARTED)
    made = Front(str(tmp_path_factory.mktemp("labs")), program)
    lasting = STARTED[before:]
    del STARTED[before:]
    yield made
    for process in lasting:
        process.kill()
        process.wait()


# ---- a lab of several


def test_each_lab_is_asked_behind_its_prefix(front: Front) -> None:
    """Commands too, as the user whose password was checked, at that lab alone."""
    status, said, _ = front.desk("--lab", "berlin", "boards")
    assert status == 0 and [it.split()[0] for it in said.splitlines()[1:]] == ["b1", "b2"]
    status, said, _ = front.desk("reserve", "hdmi", DESK_LAB="paris")
    assert (status, said) == (0, "1\n")
    assert [it["owner"] for it in front.farms["paris"].look("/reservations")["reservations"]] == ["ann"]
    assert front.farms["berlin"].look("/reservations")["reservations"] == []
    assert front.desk("cancel-reservation", "1", DESK_LAB="paris")[0] == 0


def test_all_labs_are_asked_at_once(front: Front) -> None:
    status, said, errors = front.of_both("boards", "--all-labs", "hdmi")
    rows = [it.split() for it in said.splitlines()]
    assert (status, errors, rows[0][:3]) == (0, [], ["LAB", "NAME", "TYPE"])
    assert [it[:3] for it in rows[1:]] == [["berlin", "b1", "bbb"], ["paris", "p1", "rpi"]]
    status, said, _ = front.of_both("boards", "--all-labs", "--json")
    found = {it["lab"]: [row["name"] for row in it["boards"]] for it in map(json.loads, said.splitlines())}
    assert (status, found) == (0, {"berlin": ["b1", "b2"], "paris": ["p1"]})


@pytest.mark.parametrize("change, told, wanted", [
    ("server = http://127.0.0.1:{port}", "lab rome: no answer from the desk at http://127.0.0.1:{port}: ", 4),
    ("server = {server}/berlin\nuser = ann\nca_file = {ca}", "lab rome: refused: 401", 3),
    ("user = ann", "lab rome: [lab rome] has no server", 4),
])
def test_a_lab_that_doesnt_answer_is_told_and_the_others_are_shown(
    front: Front, folder: str, change: str, told: str, wanted: int
) -> None:
    port = str(free_port())
    text = change.format(port=port, server=front.server, ca=front.certificate)
    file = write(folder, "three.ini", read(front.config) + f"[lab rome]\n{text}\n", 0o644)
    status, said, errors = front.of_both("--config", file, "boards", "--all-labs", "hdmi")
    assert (status, said.count("\n"), len(errors)) == (wanted, 3, 1) and told.format(port=port) in errors[0]
    status, said, _ = front.of_both("--config", file, "boards", "--all-labs", "--json")
    assert list(json.loads(said.splitlines()[-1])) == ["lab", "fault"] and status == wanted


def test_words_of_several_labs(front: Front, folder: str) -> None:
    for words in (["--lab", "berlin", "boards", "--all-labs"], ["--server", "http://x:1", "boards", "--all-labs"],
                  ["--server", "http://x:1", "--lab", "berlin", "boards"]):
        assert front.desk(*words)[0] == 2, words
    none = write(folder, "none.ini", "[desk]\n", 0o644)
    status, said, errors = front.desk("--config", none, "boards", "--all-labs")
    assert (status, said, errors) == (4, "", ["desk: the settings have no labs: a section [lab NAME] for each"])
    assert front.desk("--lab", "rome", "boards")[2] == ["desk: the settings have no lab rome: there are berlin, paris"]


def test_a_shell_offers_the_labs(front: Front, folder: str) -> None:
    assert completed(folder, "desk --lab ", DESK_CONFIG=front.config) == {"berlin", "paris"}


def test_from_python(front: Front) -> None:
    assert fizgruk.labs(front.config) == ["berlin", "paris"]
    for lab in fizgruk.labs(front.config):
        with fizgruk.Client(lab=lab, config=front.config) as client, client.board("hdmi", timeout=PATIENCE) as board:
            assert front.farms[lab].board(board.name)["holder"] == f"reservation {board.reservation}"
            assert board.to == "ssh://board@localhost:2222"


@pytest.fixture(autouse=True)
def passes(front: Front) -> Iterator[None]:
    """Calls passes meanwhile."""
    script = "import sys, time, urllib.request as it\n" + (
        "while True:\n    time.sleep(0.2)\n    for port in sys.argv[1:]:\n"
        "        it.urlopen(it.Request(f'http://127.0.0.1:{port}/pass', b'', {'x-user': 'dispatcher'})).read()\n"
    )
    ports = [str(it.port) for it in front.farms.values()]
    with subprocess.Popen([sys.executable, "-c", script, *ports]) as process:
        yield
        process.kill()


# ---- the name before them


def test_a_foreign_page_commands_at_no_lab(front: Front) -> None:
    """The name that counts is the one before the labs, which their own sites don't know."""
    body = ["-d", '{"tags":["name=b2"]}']
    for field in ("origin: https://evil.example", f"origin: {front.sites['berlin'].server}", "sec-fetch-site: cross-site"):
        assert front.curl("/berlin/reservations", *body, "-H", field)[0] == 403, field
    assert all("name=b2" not in it["tags"] for it in front.farms["berlin"].look("/reservations")["reservations"])
    own = ["-H", f"origin: {front.server}", "-H", "sec-fetch-site: same-origin"]
    status, said = front.curl("/berlin/reservations", *body, *own)
    assert status == 200
    assert front.curl(f"/berlin/reservations/{json.loads(said)['number']}/cancel", "-X", "POST")[0] == 200


def test_a_labs_site_sees_whose_address_it_is_and_checks_the_password(front: Front) -> None:
    status, said = front.curl("/paris/jobs", "--interface", "127.0.0.9", "--data-binary", "job_name='j'\ndevice_type='rpi'")
    assert status == 200
    front.curl(f"/paris/jobs/{json.loads(said)['number']}/cancel", "-X", "POST")
    audited = [json.loads(it) for it in read(f"{front.sites['paris'].folder}/audit.log").splitlines()]
    assert [it["from"] for it in audited if it["command"] == "POST /jobs"] == ["127.0.0.9"]
    assert front.curl("/berlin/status", "-u", "ann:wrong")[0] == 401
    assert [front.curl(it)[0] for it in ("/", "/rome/status", "/status")] == [302, 404, 404]


def test_the_page_of_a_lab_is_whole_behind_its_prefix(front: Front, visit: Visit) -> None:
    """And the site has the menu of labs, for who has a password."""
    for path, words in [("page/farm.css", "main"), ("page/farm.js", "import"), ("whoami", "ann"), ("labs.json", MENU.strip())]:
        status, said = front.curl(f"/paris/{path}")
        assert status == 200 and words in said, path
    assert front.curl("/paris/labs.json", "-X", "POST")[0] == 405
    site = front.sites["paris"]
    assert site.curl("-o", "/dev/null", "-f", "/labs.json") == 22
    os.remove(f"{site.folder}/labs.json")
    assert front.curl("/paris/labs.json")[0] == 404
    shutil.copy(f"{front.sites['berlin'].folder}/labs.json", f"{site.folder}/labs.json")
    address = front.server.replace("https://", f"https://ann:{urllib.parse.quote(WORDS['ann'])}@")
    page: Any = visit.open(f"{address}/paris/")
    said = "document.body.innerText"
    wait_until("the board of Paris", lambda: "p1" in str(page.ask(said)))
    wait_until("the menu of labs", lambda: "berlin" in str(page.ask(said)))
    assert "b1" not in page.ask(said) and "ann" in page.ask(said)
