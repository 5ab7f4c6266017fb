"""The dispatcher's protocol as a model (dispatch.pml), searched to its end.

Each row is a set of switches. What the protocol withstands breaks no promise in any order of steps;
a wrong variant, and what the protocol doesn't withstand, breaks the promises that stand beside it
and no other. The rows of LARGE are searched where FARM_MODEL=whole says so.
"""
from __future__ import annotations

import os
import pathlib
import re
import shutil
import subprocess
from typing import FrozenSet, Sequence

import pytest
from wants import wants

MODEL = pathlib.Path(__file__).resolve().parent / "dispatch.pml"
DEPTH = 200_000  # steps of one way; a search that would go deeper fails
MEMORY = 4_000  # MB
TABLE = ("-w22",)  # what finds states has room for so many, by powers of two; more are found, too, but later
CALM = "-DLATE=0 -DCANCELS=0"
TWO = f"-DDISPATCHERS=2 {CALM}"
ENDS = f"-DENDS -DKILLS=0 {CALM}"
GHOST = f"-DENDS -DGHOSTS=1 -DHANG=1 -DSHAPE=SECOND_BOARD {CALM}"

# Where nothing is said, a group of two boards and one dispatcher, which is killed at each step as often as one likes; a
# user cancels, and one call is given up and comes late, in part or never.
HOLDS = {
    "a_call_comes_late": "",
    "two_jobs_for_a_board": "-DSHAPE=TWO_JOBS -DLATE=0",
    "a_group_that_collects_its_boards": "-DSHAPE=JOB_AND_GROUP -DCOLLECTS -DLATE=0",
    "a_worker_is_restarted": "-DRESTARTS=1",
    "a_unit_is_gone_without_an_end": "-DHANDS=1",
    "the_workers_state_is_removed": "-DWIPES=1",
    "processes_outlive_their_unit": "-DCHILDREN=1 -DHANDS=1",
    "a_record_is_lost": "-DLOST_RECORDS=1",
    "an_older_folder": "-DOLDER_FOLDERS=1 -DCANCELS=0",
    "an_older_farm": "-DRESTORES=1 -DCANCELS=0",
    "an_older_farm_and_two_jobs": f"-DRESTORES=1 -DSHAPE=TWO_JOBS {CALM}",
    "an_older_farm_and_a_lost_record": f"-DRESTORES=1 -DLOST_RECORDS=1 {CALM}",
    "an_admin_finishes_a_job": f"-DPERSONS=1 -DSHAPE=TWO_JOBS {CALM}",
    "an_admin_finishes_one_job_of_a_group": f"-DPERSONS=1 -DSHAPE=JOB_AND_GROUP {CALM}",
    "a_group_over_two_machines_and_a_lost_record": f"-DLOST_RECORDS=1 -DHANG=1 -DSHAPE=GROUP_AND_JOB {CALM}",
    "two_dispatchers": TWO,
    "all_end_a_cancel": "-DENDS -DKILLS=0 -DLATE=0",
    "all_end_a_kill": f"-DENDS {CALM}",
    "all_end_a_worker_is_restarted": f"{ENDS} -DRESTARTS=1",
    "all_end_a_unit_is_gone_and_processes_outlive_it": f"{ENDS} -DHANDS=1 -DCHILDREN=1",
    "all_end_an_older_farm": f"{ENDS} -DRESTORES=1",
    "all_end_a_board_elsewhere_and_a_unit_that_nobody_knows": f"{GHOST} -DKILLS=1",
    "all_end_an_admin_finishes_a_job": f"{ENDS} -DPERSONS=1",
    "all_end_a_kill_and_an_admin_finishes_one_job_of_a_group": f"-DENDS -DPERSONS=1 {CALM}",
}
LARGE = {
    "two_calls_come_late": "-DLATE=2",
    "two_restarts_two_calls_come_late": "-DRESTARTS=2 -DLATE=2",
    "two_jobs_for_a_board_a_call_comes_late": "-DSHAPE=TWO_JOBS",
    "an_older_farm_a_cancel": "-DRESTORES=1",
    "an_admin_finishes_a_job_a_call_comes_late": "-DPERSONS=1 -DSHAPE=TWO_JOBS -DCANCELS=0",
    "two_dispatchers_a_cancel": "-DDISPATCHERS=2 -DLATE=0",
    "two_dispatchers_one_on_a_copy": f"{TWO} -DCOPIES=1",
    "all_end_a_call_comes_late": "-DENDS -DKILLS=0 -DCANCELS=0",
    "all_end_an_older_farm_and_folder": f"{ENDS} -DRESTORES=1 -DOLDER_FOLDERS=1",
    "all_end_two_jobs": f"{ENDS} -DSHAPE=TWO_JOBS",
    "all_end_two_dispatchers": f"{ENDS} -DDISPATCHERS=2",
}
# Wrong variants of the protocol. With a TRACE that promise alone is looked at, until it breaks.
BREAKS = {
    "no_mark": ("begun_once nothing_lives", "-DNO_MARK -DLATE=2 -DCANCELS=0"),
    "no_life": ("begun_once nothing_lives", "-DNO_LIFE -DRESTARTS=1 -DCANCELS=0"),
    "no_old": ("begun_once nothing_lives", "-DNO_OLD -DLATE=2 -DCANCELS=0"),
    "old_without_its_end": ("all_end", f"-DOLD_WITHOUT_END {ENDS} -DOLDER_FOLDERS=1 -DRESTORES=1"),
    "units_looked_at_before_marks": ("nothing_lives told_true", "-DUNITS_FIRST -DCANCELS=0"),
    "older_record_taken_over": ("told_true", f"-DTAKES_OLD_RECORD -DRESTORES=1 {CALM}"),
    "an_empty_answer_is_no_units": ("nothing_lives told_true", f"-DEMPTY_IS_NONE {CALM}"),
    "finishes_before_the_cgroup_is_empty": ("nothing_lives", f"-DFINISHES_BEFORE_EMPTY -DCHILDREN=1 {CALM}"),
    "key_by_number": ("begun_once", f"-DTRACE=BEGUN_ONCE -DKEY_BY_NUMBER {TWO}"),
    "record_after_start": ("all_end", f"-DRECORD_AFTER_START -DENDS {CALM}"),
    "begin_before_start": ("nothing_lives", "-DTRACE=NOTHING_LIVES -DBEGIN_BEFORE_START -DLATE=0"),
    "unit_by_number": ("told_true", f"-DUNIT_BY_NUMBER -DRESTORES=1 {CALM}"),
    "close_makes_no_mark": ("nothing_lives told_true", "-DCLOSES_WITHOUT_MARK"),
    "an_end_counts_without_its_mark": ("nothing_lives", "-DENDED_WITHOUT_MARK -DCHILDREN=1 -DCANCELS=0"),
    "a_mark_without_begun_is_lost": ("told_true", "-DUNNOTED_IS_LOST"),
    "what_was_cut_is_begun": ("whole_groups", "-DBEGINS_WHAT_WAS_CUT -DCANCELS=0"),
    "the_first_of_a_group_alone": ("all_end", f"-DLOOKS_AT_FIRST -DENDS {CALM}"),
    "others_on_its_boards": ("nothing_lives", f"-DOTHERS_BOARDS -DPERSONS=1 -DSHAPE=TWO_JOBS {CALM}"),
    "strays_are_left": ("nothing_lives", f"-DLEAVES_STRAYS -DLOST_RECORDS=1 -DRESTORES=1 {CALM}"),
    "strays_shut_all_boards": ("all_end", f"-DSTRAYS_SHUT_ALL -DKILLS=0 {GHOST}"),
    "what_runs_is_taken": ("own_jobs", f"-DTRACE=OWN_JOBS -DTAKES_WHAT_RUNS -DUNITS=4 {TWO}"),
}
# What the protocol itself doesn't withstand; the documents say so.
LIMITS = {
    "a_record_is_lost_before_its_unit_is_begun": ("all_end", f"-DENDS -DLOST_RECORDS=1 {CALM}"),
    "an_older_farm_and_folder_while_a_unit_begins": ("told_true", f"-DRESTORES=1 -DOLDER_FOLDERS=1 {CALM}"),
    "a_group_over_two_machines_a_lost_record_and_an_older_farm": (
        "nothing_lives", f"-DLOST_RECORDS=1 -DRESTORES=1 -DHANG=1 -DSHAPE=GROUP_AND_JOB {CALM}",
    ),
    "two_dispatchers_and_an_older_farm": ("nothing_lives", f"-DTRACE=NOTHING_LIVES -DRESTORES=1 -DUNITS=3 {TWO}"),
}
WRONG = {**BREAKS, **LIMITS}
SEARCHED = {**HOLDS, **LARGE} if os.environ.get("FARM_MODEL") == "whole" else HOLDS


def ran(words: Sequence[str], folder: pathlib.Path) -> str:
    """What a program says, which has to end with status 0."""
    done = subprocess.run(
        words, cwd=folder, stdin=subprocess.DEVNULL, stdout=subprocess.PIPE, stderr=subprocess.STDOUT, text=True, check=False
    )
    assert done.returncode == 0, f"{' '.join(words)}: status {done.returncode}\n{done.stdout[-2000:]}"
    return done.stdout


def compiling(switches: str) -> Sequence[str]:
    """How a row's search is compiled: tcc's takes twice as long as gcc's, and is made forty times sooner. What packs
    states costs small rows more than the memory that it saves, but where they look for ways without end."""
    is_large = switches in LARGE.values()
    kind = "-DNFAIR=8" if "-DENDS" in switches.split() else "-DSAFETY"
    packs = ["-DCOLLAPSE"] if is_large or kind != "-DSAFETY" else []
    compiler = ["gcc", "-O1"] if is_large else ["tcc"]
    return [*compiler, "-w", f"-DMEMLIM={MEMORY}", "-DVECTORSZ=2048", kind, *packs, "-o", "pan", "pan.c"]


def broken(switches: str, folder: pathlib.Path) -> FrozenSet[str]:
    """The promises that are broken in some order of steps, when all were looked at."""
    wants("spin", "gcc", "tcc")
    shutil.copy(MODEL, folder)
    ends = "-DENDS" in switches.split()
    ran(["spin", "-a", *switches.split(), MODEL.name], folder)
    ran(compiling(switches), folder)
    said = ran(["./pan", f"-m{DEPTH}", *TABLE, *(["-a", "-f", "-N", "all_end"] if ends else [])], folder)
    errors = re.search(r"errors: (\d+)", said)
    stopped = re.search(r"too small|out of memory|max\. search depth|Search not completed", said)
    assert errors is not None, said
    if ends and errors[1] != "0":
        assert "acceptance cycle" in said, said
        return frozenset(["all_end"])
    trace = re.search(r"-DTRACE=(\w+)", switches)
    if trace and "assertion violated" in said:  # it stops there
        return frozenset([trace[1].lower()])
    assert errors[1] == "0" and not stopped, said
    return frozenset(re.findall(r"^broken: (\w+)$", said, re.MULTILINE))


@pytest.mark.parametrize("name", SEARCHED)
def test_the_protocol_withstands(name: str, tmp_path: pathlib.Path) -> None:
    assert broken(SEARCHED[name], tmp_path) == frozenset()


@pytest.mark.parametrize("name", WRONG)
def test_it_breaks_what_it_is_said_to(name: str, tmp_path: pathlib.Path) -> None:
    promises, switches = WRONG[name]
    assert broken(switches, tmp_path) == frozenset(promises.split())
