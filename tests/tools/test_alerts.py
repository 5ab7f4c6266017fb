"""The alerts of examples/alerts.yml as Debian's Prometheus takes them, and their way to the admins by its Alertmanager."""
from __future__ import annotations

import json
import os
import pathlib
import subprocess
from typing import Any, Callable, Dict, List, Tuple

import pytest
from ports import free_port
from served import STARTED, TOP, Farm, ends_with_us, wait_until
from wants import wants
from watched import Hook

EXAMPLES = os.path.join(TOP, "examples")
BACKUP = "fizgruk_backup_last_success_timestamp_seconds"
# What is measured over twenty minutes from 0 on, a value a minute, and the alerts that are there at their end; where
# nothing else is said the last copy was at 0.
CASES: Dict[str, Any] = {
    "all is well": (
        {"fizgruk_up": 1, "fizgruk_last_pass_age_seconds": 6, 'fizgruk_rows{table="jobs"}': 49_000,
         'fizgruk_rows{table="boards"}': 256, 'fizgruk_boards{type="bbb",health="Bad",state="Idle"}': 0,
         'node_filesystem_avail_bytes{mountpoint="/var/lib/farm"}': 6e9, "fizgruk_oldest_claim_age_seconds": 600,
         'node_filesystem_avail_bytes{mountpoint="/boot"}': 1e6},
        [],
    ),
    "the desk is down": ({"fizgruk_up": 0}, ["DeskDown"]),
    "nothing is measured": ({"up": 1}, ["NoMetrics"]),
    "no dispatcher": ({"fizgruk_up": 1, "fizgruk_last_pass_age_seconds": 61}, ["NoPass"]),
    "a worker is away": ({"fizgruk_up": 1, 'fizgruk_worker_up{worker="rack2"}': 0}, ["WorkerDown"]),
    "a board is shut": ({"fizgruk_up": 1, 'fizgruk_board_shut{board="b1"}': 1}, ["BoardShut"]),
    "a Bad board": ({"fizgruk_up": 1, 'fizgruk_board_bad{board="b1"}': 1}, ["BoardBad"]),
    "half full": (
        {"fizgruk_up": 1, 'fizgruk_rows{table="jobs"}': 30_000, 'fizgruk_rows{table="reservations"}': 20_001},
        ["FarmHalfFull"],
    ),
    "nearly full": ({"fizgruk_up": 1, 'fizgruk_rows{table="jobs"}': 80_001}, ["FarmHalfFull", "FarmNearlyFull"]),
    "a full disk": ({"fizgruk_up": 1, 'node_filesystem_avail_bytes{mountpoint="/var/lib/farm"}': 4e9}, ["RoomShort"]),
    "an old copy": ({"fizgruk_up": 1, BACKUP: -26 * 3600}, ["CopyOld"]),
    "an old claim": ({"fizgruk_up": 1, "fizgruk_oldest_claim_age_seconds": 86_401}, ["ClaimWaits"]),
}
NAMES = (
    "DeskDown", "NoMetrics", "NoPass", "ClaimWaits", "BoardBad", "FarmHalfFull", "FarmNearlyFull", "RoomShort",
    "CopyOld", "WorkerDown", "BoardShut",
)


def test_they_are_there_when_they_should_be_and_not_else(tmp_path: pathlib.Path) -> None:
    wants("promtool")
    tests: List[Any] = []
    for name, (measured, alerts) in CASES.items():
        fires = {f"count(ALERTS{{alertname='{it}',alertstate='firing'}})": it in alerts for it in NAMES}
        tests.append({
            "interval": "1m", "name": name,
            "input_series": [{"series": series, "values": f"{value}+0x20"} for series, value in {BACKUP: 0, **measured}.items()],
            "promql_expr_test": [
                {"expr": expr, "eval_time": "20m", "exp_samples": [{"value": 1, "labels": "{}"}] if is_there else []}
                for expr, is_there in fires.items()
            ],
        })
    file = tmp_path / "tests.json"  # (which is YAML too)
    file.write_text(json.dumps({"rule_files": [f"{EXAMPLES}/alerts.yml"], "tests": tests}))
    ran = subprocess.run(["promtool", "test", "rules", str(file)], capture_output=True, text=True, check=False)
    assert ran.returncode == 0, ran.stdout + ran.stderr


def test_the_example_of_whom_to_tell_is_read() -> None:
    wants("amtool")
    ran = subprocess.run(["amtool", "check-config", f"{EXAMPLES}/alertmanager.yml"], capture_output=True, text=True, check=False)
    assert ran.returncode == 0 and "SUCCESS" in ran.stdout, ran.stdout + ran.stderr


def runs(folder: pathlib.Path, *words: str) -> None:
    with open(folder / f"{os.path.basename(words[0])}.log", "ab") as log:
        STARTED.append(subprocess.Popen(words, stdout=log, stderr=log, cwd=folder, preexec_fn=ends_with_us()))


@pytest.mark.slow(20)
def test_a_desk_that_is_down_reaches_the_admins(
    make_farm: Callable[..., Farm], start_tool: Callable[..., Any], tmp_path: pathlib.Path
) -> None:
    """farm-metrics, Debian's Prometheus and its Alertmanager, with the example's rules but for their times."""
    wants("prometheus", "prometheus-alertmanager")
    farm = make_farm([("b1", "bbb", [])])
    metrics, prometheus, alertmanager = free_port(), free_port(), free_port()
    hook = Hook()
    with open(f"{EXAMPLES}/alerts.yml", encoding="utf-8") as rules:
        (tmp_path / "alerts.yml").write_text(rules.read().replace("for: 1m", "for: 1s"))
    (tmp_path / "prometheus.yml").write_text(json.dumps({
        "global": {"scrape_interval": "1s", "evaluation_interval": "1s"}, "rule_files": ["alerts.yml"],
        "alerting": {"alertmanagers": [{"static_configs": [{"targets": [f"127.0.0.1:{alertmanager}"]}]}]},
        "scrape_configs": [{"job_name": "farm", "static_configs": [{"targets": [f"127.0.0.1:{metrics}"]}]}],
    }))
    (tmp_path / "alertmanager.yml").write_text(json.dumps({
        "route": {"receiver": "admins", "group_wait": "1s", "group_interval": "1s", "group_by": ["alertname"]},
        "receivers": [{"name": "admins", "webhook_configs": [{"url": hook.url}]}],
    }))
    start_tool("farm-metrics", "--listen", str(metrics), "--server", farm.server)
    runs(tmp_path, "prometheus-alertmanager", "--config.file=alertmanager.yml", f"--web.listen-address=127.0.0.1:{alertmanager}",
         "--cluster.listen-address=", "--storage.path=alertmanager")
    runs(tmp_path, "prometheus", "--config.file=prometheus.yml", f"--web.listen-address=127.0.0.1:{prometheus}",
         "--storage.tsdb.path=prometheus")
    farm.kill()

    def told() -> List[Tuple[str, str]]:
        alerts = [it for _, _, body in list(hook.posted) for it in json.loads(body)["alerts"]]
        return [(it["labels"]["alertname"], it["status"]) for it in alerts]

    wait_until("the alert reaches the admins", lambda: ("DeskDown", "firing") in told())
    farm.start()
    wait_until("its end does, too", lambda: ("DeskDown", "resolved") in told())
    hook.server.shutdown()
