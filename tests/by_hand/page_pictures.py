#!/usr/bin/env python3
"""Draws the pictures of the status page: python3 tests/by_hand/page_pictures.py bin/farm [FOLDER]

A farm of the example lab as a user of it sees it: page.png 1280 points wide, and page-phone.png as a phone of 390
points has it, both in FOLDER, or in docs/. Ends with status 1 where Chromium isn't there.
"""
from __future__ import annotations

import json
import os
import subprocess
import sys
import tempfile
import time
from typing import Any, Dict

sys.path.insert(0, os.path.join(os.path.dirname(os.path.abspath(__file__)), "../shared"))
from browser import CHROMIUM, Browser  # noqa: E402
from pages import HOUR, PHONE, Lab, record, tell_at, until  # noqa: E402
from served import TOP, Farm  # noqa: E402

MINUTE = 60
LOG = "U-Boot 2026.01 (Jan 05 2026)\nDRAM:  2 GiB\nbooting ...\nlogin: \n"


def example(name: str) -> bytes:
    with open(os.path.join(TOP, "examples", name), "rb") as text:
        return text.read()


def use(farm: Farm, now: int) -> None:
    """A day of the lab, up to now."""
    boards = [it["name"] for it in farm.look("/boards")["boards"]]
    farm.kill()

    def tell(ago: int, user: str, path: str, body: Any = None) -> int:
        return tell_at(farm, now - ago, user, path, body)

    for name in boards:
        tell(26 * HOUR, "admin", f"/boards/{name}/health", {"health": "Good"})
    tell(26 * HOUR, "dispatcher", "/pass")
    held = tell(5 * HOUR, "bob", "/reservations", {"tags": ["hdmi", "power=pdu2"]})
    tell(5 * HOUR, "dispatcher", "/pass")
    tell(5 * HOUR - 20, "bob", f"/reservations/{held}/acquire")
    tell(4 * HOUR, "admin", "/boards/bbb-02/health", {"health": "Maintenance"})
    checks = {it["holder"] for it in json.loads(look(farm, now))["boards"]} - {"none"}
    for holder in sorted(it for it in checks if it.startswith("job ")):
        number = holder.split()[1]
        tell(3 * HOUR, "dispatcher", f"/jobs/{number}/start")
        tell(3 * HOUR - 90, "dispatcher", f"/jobs/{number}/finish", {"outcome": "Complete"})
    tell(2 * HOUR, "admin", "/boards/rpi4b-03/health", {"health": "Bad"})
    mine = tell(47 * MINUTE, "ann", "/reservations", {"tags": ["camera=imx219"]})
    tell(47 * MINUTE, "dispatcher", "/pass")
    tell(47 * MINUTE - 20, "ann", f"/reservations/{mine}/acquire")
    running = {"ann": "qemu-aarch64", "dan": "qemu-aarch64", "ci": "beaglebone-black"}
    for user, kind in running.items():
        job = f"job_name = 'boot {user}'\ndevice_type = '{kind}'\n".encode()
        number = tell(12 * MINUTE, user, "/jobs", job)
        tell(12 * MINUTE, "dispatcher", "/pass")
        tell(12 * MINUTE - 5, "dispatcher", f"/jobs/{number}/start")
    tell(60, "ann", "/jobs", example("multinode.toml"))
    tell(40, "eve", "/reservations", {"tags": ["kvm"]})
    tell(30, "dispatcher", "/pass")
    farm.start()
    for user, priority in (("ci", "high"), ("dan", "medium"), ("ci", "low")):
        text = f"job_name = 'nightly'\ndevice_type = 'rpi4b'\npriority = '{priority}'\n"
        farm.tell(user, "/jobs", text.encode())
    farm.tell("gus", "/reservations", {"tags": ["outlet=3", "wifi"]})


def look(farm: Farm, now: int) -> bytes:
    words = [farm.program, "once", "--db", farm.db, "--at", str(int(now - 4 * HOUR))]
    request = b"GET /boards HTTP/1.1\r\n\r\n"
    ran = subprocess.run(words, input=request, capture_output=True, check=True)
    return ran.stdout.split(b"\r\n\r\n", 1)[1]


def job(
    number: int, owner: str, board: str, kind: str, name: str, ended: int, took: int, outcome: str = "Complete",
    reason: str = "",
) -> Dict[str, Any]:
    begun = {"type": kind, "name": name, "submitted": ended - took - 40, "began": ended - took}
    return {**record(number, owner, board, ended, outcome, reason), **begun}


def past(now: int) -> bytes:
    jobs = [
        job(42, "ann", "qemu-02", "qemu-aarch64", "kernel next", now - 260, 190),
        job(40, "ci", "bbb-04", "beaglebone-black", "boot", now - 1500, 41),
        job(38, "ci", "rpi4b-01", "rpi4b", "usb gadget", now - 3100, 620, "Incomplete", "status 1"),
        job(37, "ann", "rpi4b-04", "rpi4b", "camera", now - 7000, 1900),
        job(35, "admin", "rpi4b-03", "rpi4b", "check", now - 7210, 95, "Incomplete", "no prompt"),
        job(33, "ann", "rpi4b-03", "rpi4b", "wifi", now - 9300, 3600, "Infra", "its time was over"),
    ]
    changes = [
        {"kind": "health", "board": "rpi4b-03", "from": "Unknown", "to": "Bad", "at": now - 7200,
         "reason": "job 35 was Incomplete"},
        {"kind": "health", "board": "rpi4b-03", "from": "Good", "to": "Unknown", "at": now - 9300,
         "reason": "job 33 was Infra"},
    ]
    return json.dumps({"at": now, "jobs": jobs, "boards": changes}).encode()


def present(farm: Farm, now: int) -> Dict[str, bytes]:
    """What the dispatcher tells of what runs, what waits and since when boards are held."""
    began = {"Running": now - 12 * MINUTE, "Reserved": None}
    since = {"rpi4b-02": now - 5 * HOUR, "rpi4b-04": now - 47 * MINUTE, "qemu-03": now - 30}
    jobs, holds = [], []
    for board in farm.look("/boards")["boards"]:
        kind, _, number = board["holder"].partition(" ")
        if kind == "job":
            view = farm.job(int(number))
            text = view["text"] or farm.job(view["group"])["text"]
            jobs.append({"job": int(number), "group": view["group"], "owner": view["owner"], "board": board["name"],
                         "type": board["type"], "name": text.splitlines()[0].partition("= ")[2].strip("'\""),
                         "began": began[board["state"]], "limit": 3600})
        elif kind == "reservation":
            holds.append({"board": board["name"], "reservation": int(number), "since": since[board["name"]]})
    groups = []
    for claim in (it for it in farm.look("/queue")["queue"] if it["kind"] == "group"):
        view = farm.job(claim["number"])
        groups.append({"group": claim["number"], "name": "nightly", "submitted": now - 20 * claim["number"],
                       "wants": [{"type": view["type"], "tags": view["tags"]}]})
    told = {"/running.json": {"at": now, "jobs": jobs, "holds": holds}, "/waiting.json": {"at": now, "groups": groups}}
    return {path: json.dumps(it).encode() for path, it in told.items()}


def sights(farm: Farm, now: int) -> str:
    """A script by which a page has seen the jobs come, as one that was open all the time."""
    since = {"Running": now - 12 * MINUTE, "Reserved": now - MINUTE}
    seen_before = [
        [f"{it['name']} {it['holder']}", {"at": since[it["state"]], "isSeen": True}]
        for it in farm.look("/boards")["boards"]
        if it["holder"].startswith("job ")
    ]
    return f"localStorage.setItem('sights', {json.dumps(json.dumps(seen_before))})"


def in_use(program: str, room: str, browser: Browser) -> Lab:
    """The example lab in use."""
    lab, now = Lab(browser, Farm(program, room, []), "ann"), int(time.time())
    lab.farm.kill()
    file = os.path.join(TOP, "examples", "lab.toml")
    words = [program, "import", "--db", lab.farm.db, "--at", str(now - 27 * HOUR), file]
    subprocess.run(words, check=True, stdout=subprocess.DEVNULL)
    lab.farm.start()
    use(lab.farm, now)
    lab.files.update({"/history.json": past(now), "/logs/42": LOG.encode()})
    lab.passes()
    lab.files.update(present(lab.farm, now))
    return lab


def draw(program: str, room: str, browser: Browser, folder: str) -> None:
    lab, now = in_use(program, room, browser), int(time.time())
    for name, wide, high in (("page.png", 1280, 1600), ("page-phone.png", PHONE, 1800)):
        lab.passes()
        opened = lab.opened(wide=wide, high=high, before=sights(lab.farm, now))
        until(opened, "the jobs' owners", lambda it: any("dan" in row[4] for row in it["boards"]))
        opened.resize(wide, min(high, opened.ask("document.documentElement.scrollHeight")))
        opened.draw(os.path.join(folder, name))
        opened.close()
    lab.end()


def main() -> None:
    if CHROMIUM is None:
        sys.exit("page_pictures: there is no Chromium")
    with tempfile.TemporaryDirectory(ignore_cleanup_errors=True) as work:  # (Chromium may still write)
        chromium = Browser(work)
        draw(os.path.realpath(sys.argv[1]), work, chromium, (sys.argv[2:] or [os.path.join(TOP, "docs")])[0])
        chromium.end()


if __name__ == "__main__":
    main()
