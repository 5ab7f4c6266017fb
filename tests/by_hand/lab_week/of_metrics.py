"""Demands: farm-metrics counts what the history has."""
from __future__ import annotations

import collections
import re
import subprocess
import sys
from typing import Counter, List

from lab_week.lab import Lab
from served import PATIENCE, TOOLS, environment, read

METRIC = re.compile(r"(fizgruk_\w+)(\{\w+=\"[^\"]*\"(?:,\w+=\"[^\"]*\")*\})? (-?[0-9.]+)")


def outcomes_of(lab: Lab) -> Counter[str]:
    return collections.Counter(it["outcome"] for it in lab.job_lines())


def faults(lab: Lab, quiet: bool = False, history: str = "") -> List[str]:
    """Runs farm-metrics: its text parses, and its counts are those of the history meanwhile. `history` is another
    history's file that it is given."""
    file, before = f"{history or f'{lab.room}/farm'}.prom", outcomes_of(lab)
    ran = subprocess.run(
        [sys.executable, f"{TOOLS}/farm-metrics", "--textfile", file, "--history",
         history or f"{lab.dispatch_folder}/history.jsonl"],
        capture_output=True, text=True, timeout=PATIENCE, check=False,
        env=environment(DESK_SERVER=lab.farm.server),
    )
    return faults_of_metrics(ran.returncode, read(file), before, outcomes_of(lab), quiet)


def faults_of_metrics(status: int, text: str, before: Counter[str], after: Counter[str], quiet: bool) -> List[str]:
    """What is wrong with a text of farm-metrics beside the outcomes that the history had before it
    and after it. While nothing is killed (quiet) the desk has to be up."""
    lines = [it for it in text.splitlines() if not it.startswith("# ")]
    found = [it for it in map(METRIC.fullmatch, lines) if it]
    if len(found) < len(lines):
        return [f"farm-metrics wrote a line that isn't a metric:\n{text}"]
    values, faults_found = {it[1] + (it[2] or ""): float(it[3]) for it in found}, []
    up = values.get("fizgruk_up")
    if (status, up) not in ((0, 1), (4, 0)) or quiet and status:
        faults_found.append(f"farm-metrics ended with {status}, up {up}")
    for outcome in ("Complete", "Incomplete", "Infra", "Canceled"):
        count = values.get(f'fizgruk_jobs_ended_total{{outcome="{outcome}"}}', 0)
        if not before[outcome] <= count <= after[outcome]:
            faults_found.append(f"farm-metrics counts {count} {outcome}, the history {after[outcome]}")
    return faults_found
