"""What farm-metrics prints of a farm, byte by byte: with jobs of a history by outcome and passes, since
when a claim waits, where the desk gives no answer, over HTTP, and with labels of any text; what it asks
the desk for; the dashboard of examples/."""
from __future__ import annotations

import http.client
import http.server
import json
import os
import re
import signal
import socket
import subprocess
import sys
import threading
import time
from typing import Any, Callable, Dict, Iterator, List, Tuple

import pytest
from desks import write
from served import TOOLS, TOP, Board, Farm, Tool, environment, read, wait_until
from wants import wants_modules

Made = Callable[..., Farm]
BOARDS: List[Board] = [("b1", "bbb", ["hdmi"]), ("b2", "bbb", []), ("b3", "bbb", []), ("c1", "ccc", [])]
AGE = "fizgruk_oldest_claim_age_seconds"
JOB = '{"kind":"job","job":%d,"group":%d,"owner":"ann","boards":["b1"],"type":"bbb","outcome":"%s"}\n'
HEALTH = '{"kind":"health","board":"b1","from":"Good","to":"Bad","outcome":"Complete"}\n'
SMALL = """\
# HELP fizgruk_up Whether the desk answers.
# TYPE fizgruk_up gauge
fizgruk_up 1.0
# HELP fizgruk_boards Boards.
# TYPE fizgruk_boards gauge
BOARDS
# HELP fizgruk_board_bad Boards that are Bad.
# TYPE fizgruk_board_bad gauge
fizgruk_board_bad{board="b3"} 1.0
# HELP fizgruk_claims_waiting Claims that wait for boards.
# TYPE fizgruk_claims_waiting gauge
fizgruk_claims_waiting{kind="group"} 2.0
fizgruk_claims_waiting{kind="reservation"} 1.0
# HELP fizgruk_oldest_claim_age_seconds Seconds since the oldest claim that waits was first seen here.
# TYPE fizgruk_oldest_claim_age_seconds gauge
fizgruk_oldest_claim_age_seconds AGE
# HELP fizgruk_collecting_group Number of the group that collects boards, 0 while none does.
# TYPE fizgruk_collecting_group gauge
fizgruk_collecting_group 0.0
# HELP fizgruk_commands_total Commands that were accepted.
# TYPE fizgruk_commands_total counter
fizgruk_commands_total 18.0
# HELP fizgruk_last_command_age_seconds Seconds since the last command; below 0 the farm's clock is ahead.
# TYPE fizgruk_last_command_age_seconds gauge
fizgruk_last_command_age_seconds AGE
# HELP fizgruk_rows Rows that the farm has.
# TYPE fizgruk_rows gauge
fizgruk_rows{table="types"} 2.0
fizgruk_rows{table="boards"} 4.0
fizgruk_rows{table="jobs"} 3.0
fizgruk_rows{table="reservations"} 2.0
# HELP fizgruk_rows_limit Rows that the farm can have.
# TYPE fizgruk_rows_limit gauge
fizgruk_rows_limit{table="types"} MOST
fizgruk_rows_limit{table="boards"} MOST
fizgruk_rows_limit{table="jobs"} MOST
fizgruk_rows_limit{table="reservations"} MOST
"""
NO_PASSES = """\
# HELP fizgruk_passes_total Passes that the dispatcher asked for. None are counted: no %s/passes.json.
# TYPE fizgruk_passes_total counter
"""
PASSES = """\
# HELP fizgruk_passes_total Passes that the dispatcher asked for.
# TYPE fizgruk_passes_total counter
fizgruk_passes_total 17280.0
# HELP fizgruk_last_pass_age_seconds Seconds since the last of them.
# TYPE fizgruk_last_pass_age_seconds gauge
fizgruk_last_pass_age_seconds AGE
"""
ENDED = """\
# HELP fizgruk_jobs_ended_total Jobs that ended.
# TYPE fizgruk_jobs_ended_total counter
fizgruk_jobs_ended_total{outcome="Complete"} 2.0
fizgruk_jobs_ended_total{outcome="Incomplete"} 1.0
fizgruk_jobs_ended_total{outcome="Infra"} 0.0
fizgruk_jobs_ended_total{outcome="Canceled"} 0.0
"""


def limits_in_machine() -> Dict[str, str]:
    """The limits of tables, as docs/MACHINE.md has them."""
    form = r"^\| ([a-z; ]+) \| `most_.*` \| ([0-9,; ]+) \|"
    rows = re.findall(form, read(f"{TOP}/docs/MACHINE.md"), re.MULTILINE)
    pairs = [pair for names, limits in rows for pair in zip(names.split("; "), limits.split("; "))]
    return {name: limit.replace(",", "") for name, limit in pairs}


THERE = {("Good", "Reserved", "bbb"), ("Good", "Running", "bbb"), ("Bad", "Idle", "bbb"), ("Good", "Idle", "ccc")}
SMALL = SMALL.replace("BOARDS\n", "".join(
    f'fizgruk_boards{{health="{health}",state="{state}",type="{kind}"}} {float((health, state, kind) in THERE)}\n'
    for kind in ("bbb", "ccc") for health in ("Good", "Bad", "Unknown", "Maintenance", "Retired")
    for state in ("Idle", "Reserved", "Running")))
for table, limit in limits_in_machine().items():
    SMALL = SMALL.replace(f'{{table="{table}"}} MOST\n', f'{{table="{table}"}} {limit}.0\n')


def metrics(server: str, *words: str) -> Tuple[int, str, str]:
    """What farm-metrics comes to: its status, output and errors."""
    ran = subprocess.run(
        [sys.executable, os.path.join(TOOLS, "farm-metrics"), *words],
        capture_output=True,
        text=True,
        timeout=120,
        check=False,
        env=environment(DESK_SERVER=server),
    )
    return ran.returncode, ran.stdout, ran.stderr


def without_ages(text: str) -> List[str]:
    return re.sub(r"(_age_seconds) -?[0-9.]+\n", r"\1 AGE\n", text).splitlines()


def value(text: str, name: str) -> float:
    """The value of a metric without labels, or with those that stand in the name."""
    return float(next(it.rpartition(" ")[2] for it in text.splitlines() if it.startswith(f"{name} ")))


def counts(text: str) -> Dict[str, int]:
    return {it[0]: int(it[1]) for it in re.findall(r'fizgruk_jobs_ended_total{outcome="(.*)"} (\d+)[.]0', text)}


def write_history(folder: str) -> str:
    """A dispatcher's history, whose last line is cut, and its count of passes."""
    text = JOB % (1, 1, "Complete") + HEALTH + "no line\n[1]\n" + JOB % (2, 2, "Incomplete")
    text += JOB % (3, 3, "Complete") + (JOB % (4, 4, "Infra"))[:40]
    write(folder, "passes.json", f'{{"count": 17280, "at": {time.time() - 40}}}\n')
    return str(write(folder, "history.jsonl", text))


@pytest.fixture
def small(make_farm: Made) -> Farm:
    """Eighteen commands (two types, four boards, five healths): boards that are held, Bad and free, and
    claims that wait."""
    farm = make_farm(BOARDS)
    farm.tell("admin", "/boards/b3/health", {"health": "Bad"})
    farm.tell("ann", "/reservations", {"tags": ["name=b1"], "priority": "high"})
    farm.submit("x")
    farm.tell("dispatcher", "/pass")
    job = farm.board("b2")["holder"].split()[1]
    farm.tell("dispatcher", f"/jobs/{job}/start")
    farm.submit("x")
    farm.submit("x")
    farm.tell("ann", "/reservations", {"tags": ["hdmi"]})
    return farm


# ---- the whole text


def test_a_small_farms_text_without_a_history(small: Farm, folder: str) -> None:
    status, text, errors = metrics(small.server, "--history", f"{folder}/none")
    assert (status, errors) == (0, "")
    assert without_ages(text) == (SMALL + NO_PASSES % folder).splitlines()


def test_a_small_farms_text_with_a_history_and_passes(small: Farm, folder: str) -> None:
    text = metrics(small.server, "--history", write_history(folder))[1]
    assert without_ages(text) == (SMALL + PASSES + ENDED).splitlines()
    assert value(text, "fizgruk_last_pass_age_seconds") >= 40
    assert value(text, "fizgruk_last_command_age_seconds") >= 0


@pytest.mark.parametrize("workers, shown", [
    ('[{"name":"rack2","answers":false,"since":5,"reason":"x"},{"name":"desk","answers":true,"since":5}]',
     ['fizgruk_worker_up{worker="desk"} 1.0', 'fizgruk_worker_up{worker="rack2"} 0.0']),
    ('[{"name":"a b","answers":true,"since":5},{"name":"r1","answers":1,"since":5},{"name":"r2","since":5},5]', []),
    ("7", []), ("]", []),
])
def test_workers_are_told_as_the_dispatcher_tells_them(stub: str, folder: str, workers: str, shown: List[str]) -> None:
    """Beside its history; of a file that is none, or isn't there, nothing is told, and that is no fault."""
    history = write(folder, "history.jsonl", "")
    write(folder, "workers.json", f'{{"at":9,"workers":{workers}}}')
    status, said, errors = metrics(stub, "--history", history)
    assert [it for it in said.splitlines() if it.startswith("fizgruk_worker_up")] == shown
    assert (status, errors) == (0, "")
    os.unlink(os.path.join(folder, "workers.json"))
    assert "fizgruk_worker_up" not in metrics(stub, "--history", history)[1]


def test_a_reader_of_prometheus_takes_it(small: Farm, folder: str) -> None:
    """Python's client library reads a text with a history and one without: each metric has its type and its words."""
    wants_modules("prometheus_client")
    import prometheus_client.parser as reader

    families_of: Any = reader.text_string_to_metric_families

    for history in (write_history(folder), f"{folder}/none/none"):
        text = metrics(small.server, "--history", history)[1]
        families = list(families_of(text))
        shown = {line.split("{")[0].split(" ")[0] for line in text.splitlines() if line and not line.startswith("#")}
        assert {it.name for family in families for it in family.samples} == shown
        assert [it.name for it in families if it.type not in ("gauge", "counter") or not it.documentation] == []
        assert [it.name for it in families if not it.name.startswith("fizgruk_")] == []


def test_the_dashboard_shows_what_there_is() -> None:
    """Each panel shows metrics that there are, and none lies on another."""
    panels = json.loads(read(f"{TOP}/examples/grafana.json"))["panels"]
    known = set(re.findall("^# TYPE (fizgruk_[a-z_]+) ", SMALL + PASSES + ENDED, re.M))
    asked = [set(re.findall("fizgruk_[a-z_]+", it["expr"])) for panel in panels for it in panel["targets"]]
    assert set().union(*asked) == known
    assert all(asked), "a panel without a metric"
    places = [
        (it["gridPos"]["x"] + x, it["gridPos"]["y"] + y)
        for it in panels for x in range(it["gridPos"]["w"]) for y in range(it["gridPos"]["h"])
    ]
    assert len(places) == len(set(places))
    assert len(panels) == len({it["id"] for it in panels})


# ---- jobs that ended, passes, claims


def test_a_historys_lines_are_counted_once_over_processes(make_farm: Made, folder: str) -> None:
    farm, history, prom = make_farm(), write_history(folder), f"{folder}/fizgruk.prom"

    def counted() -> Dict[str, int]:
        assert metrics(farm.server, "--history", history, "--textfile", prom) == (0, "", "")
        return counts(read(prom))

    assert counted() == {"Complete": 2, "Incomplete": 1, "Infra": 0, "Canceled": 0}
    assert os.stat(prom).st_mode & 0o777 == 0o644
    text, odd = read(history), 'a \\"b\\" \\\\c\\nd'
    with open(history, "r+", encoding="utf-8") as lines:
        # what was counted is never read again
        lines.write("x" * text.index(JOB % (3, 3, "Complete")))
        lines.seek(0, os.SEEK_END)
        lines.write((JOB % (4, 4, "Infra"))[40:] + JOB % (5, 5, "Canceled") + JOB % (6, 6, odd))
    wanted = {"Complete": 2, "Incomplete": 1, "Infra": 1, "Canceled": 1, odd: 1}
    assert counted() == wanted
    os.remove(history)
    assert counted() == wanted, "none in its place"
    assert sorted(it for it in os.listdir(folder) if "prom" in it) == ["fizgruk.prom", "fizgruk.prom.state"]


def test_passes_are_counted_where_another_file_is_named(make_farm: Made, folder: str) -> None:
    """Also where the clock was set back since the last."""
    other = write(folder, "other.json", f'{{"count": 3, "at": {time.time() + 3600}}}\n')
    status, text, errors = metrics(make_farm().server, "--history", f"{folder}/none", "--passes", other)
    assert (status, value(text, "fizgruk_passes_total"), errors) == (0, 3.0, "")
    assert value(text, "fizgruk_last_pass_age_seconds") == 0.0


@pytest.mark.parametrize("odd", [
    "", "[3]", '{"count": "3", "at": 5}', '{"count": 3}', '{"count": -1, "at": 5}', '{"count": true, "at": 5}',
])
def test_a_file_of_passes_that_is_none_is_told(stub: str, folder: str, odd: str) -> None:
    other = write(folder, "other.json", odd)
    status, text, errors = metrics(stub, "--history", f"{folder}/none", "--passes", other)
    assert (status, "pass" in text) == (0, False)
    assert (errors.count("\n"), errors.find("farm-metrics: passes aren't counted: ")) == (1, 0)


# ---- no desk, and files that can't be used


def test_no_answer_from_the_desk_is_a_metric_too(make_farm: Made, folder: str) -> None:
    farm, prom = make_farm(), f"{folder}/gone.prom"
    write_history(folder)
    farm.kill()
    status, said, errors = metrics(farm.server, "--textfile", prom, "--history", f"{folder}/none")
    assert (status, said) == (4, "")
    wanted = "# HELP fizgruk_up Whether the desk answers.\n# TYPE fizgruk_up gauge\nfizgruk_up 0.0\n" + PASSES
    assert without_ages(read(prom)) == wanted.splitlines()
    assert errors.count(f"farm-metrics: no answer from the desk at {farm.server}: ") == 1


def test_files_that_cant_be_written_are_told(stub: str, folder: str) -> None:
    status, said, errors = metrics(stub, "--history", f"{folder}/none", "--textfile", f"{folder}/none/x.prom")
    assert (status, said, errors.count("\n")) == (4, "", 2), "the text, and its state"
    words = ["--state", f"{folder}/none/state", "--history", f"{folder}/none"]
    status, said, errors = metrics(stub, *words)
    assert (status, value(said, "fizgruk_up"), errors.count("\n")) == (4, 1.0, 1), "the state"


def test_bad_words_end_it_with_2(folder: str) -> None:
    assert metrics("http://127.0.0.1:1", "--listen", "1", "--textfile", f"{folder}/x.prom")[0] == 2


# ---- over HTTP


def get(port: int, path: str) -> Tuple[int, str, str]:
    line = http.client.HTTPConnection("127.0.0.1", port, timeout=60)
    line.request("GET", path)
    answer = line.getresponse()
    body = answer.read().decode()
    line.close()
    return answer.status, answer.getheader("content-type") or "", body


def test_it_is_served_beside_a_client_that_stalls(
    small: Farm, start_tool: Callable[..., Tool], folder: str
) -> None:
    words = ["farm-metrics", "--listen", "0", "--history", write_history(folder)]
    tool = start_tool(*words, DESK_SERVER=small.server)
    said = re.fullmatch(r"listening (\d+)\n", wait_until("a port", tool.output))
    assert said
    port = int(said.group(1))
    with socket.create_connection(("127.0.0.1", port)) as stalled:
        stalled.sendall(b"GET /met")
        status, kind, body = get(port, "/metrics")
    assert (status, kind) == (200, "text/plain; version=0.0.4; charset=utf-8")
    assert without_ages(body) == (SMALL + PASSES + ENDED).splitlines()
    assert get(port, "/")[0] == 404
    small.kill()
    assert value(get(port, "/metrics")[2], "fizgruk_up") == 0.0
    small.start()
    assert value(get(port, "/metrics")[2], "fizgruk_up") == 1.0
    lines = tool.errors().splitlines()
    assert (lines[0], lines[-1]) == (f"farm-metrics: asks the desk at {small.server}", "farm-metrics: it goes on")
    assert len(lines) == 3
    assert metrics(small.server, "--listen", str(port))[0] == 4, "a port that is taken"
    tool.send(signal.SIGTERM)
    assert tool.ends() == 0


class Stub(http.server.BaseHTTPRequestHandler):
    """A desk with a type of an odd name, which notes what it is asked for."""

    asked: List[str] = []
    answers = {
        "/status": {
            "boards": 1, "clock": 5, "collector": 7, "count": 3, "jobs": 99999, "next": 9, "reservations": 2, "types": 1
        },
        "/boards": {"boards": [{"type": 'q"\\\n', "health": "Good", "state": "Idle"}]},
        "/queue": {"queue": []},
    }

    def do_GET(self) -> None:
        self.asked.append(self.path)
        body = json.dumps(self.answers[self.path]).encode()
        self.send_response(200)
        self.send_header("content-length", str(len(body)))
        self.end_headers()
        self.wfile.write(body)

    def log_message(self, *_: object) -> None:
        pass


@pytest.fixture
def stub() -> Iterator[str]:
    """The address of a stub that is served."""
    Stub.asked.clear()
    with http.server.ThreadingHTTPServer(("127.0.0.1", 0), Stub) as server:
        threading.Thread(target=server.serve_forever, daemon=True).start()
        yield f"http://127.0.0.1:{server.server_port}"
        server.shutdown()


def test_labels_have_any_text_and_three_views_are_asked_for(stub: str, folder: str) -> None:
    """Nothing is asked that grows with the farm's age."""
    text = metrics(stub, "--history", f"{folder}/none")[1]
    assert sorted(Stub.asked) == ["/boards", "/queue", "/status"]
    assert 'fizgruk_boards{health="Good",state="Idle",type="q\\"\\\\\\n"} 1.0' in text.splitlines()
    assert value(text, "fizgruk_collecting_group") == 7.0
    assert value(text, 'fizgruk_rows{table="jobs"}') == 99999.0
    assert value(text, "fizgruk_last_command_age_seconds") > time.time() - 3600, "a clock of long ago"
