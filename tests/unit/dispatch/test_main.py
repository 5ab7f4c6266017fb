"""The words and settings of farm-dispatch, and its file of workers."""
from __future__ import annotations

import argparse
import os
import pathlib
from typing import Dict, Optional, Sequence

import pytest
from bad_words import refused
from farm_dispatch import main as dispatch, workers
from fizgruk.errors import BadSettings


@pytest.mark.parametrize("more, told", [
    ({"limit": "soon"}, "limit: 'soon' is no time, as '90 minutes' is one"),
    ({"log_limit": "much"}, "log_limit: 'much' is no size, as '100 MB' is one"),
    ({"clock": "none"}, "clock: 'none' is neither synchronized nor any"),
])
def test_settings_that_say_nothing_are_told(more: Dict[str, Optional[str]], told: str) -> None:
    with pytest.raises(BadSettings, match=f"^{told}$"):
        dispatch.use(argparse.Namespace(), {**dict.fromkeys(dispatch.MORE), **more})


@pytest.mark.parametrize("text, told", [
    ("x", "no TOML"), ("workers = 1", "workers.toml: "), ("[workers]\nrack2 = 1", "'rack2' = 1 is no worker"),
    ("[workers]\nrack2 = ''", "is no worker"), ("[workers]\nrack2 = '-oProxyCommand=id'", "is no worker"),
    ("[workers]\n'a b' = 'x'", "is no worker"), ("[workers]\ndesk = 'x'", "is no worker"),
])
def test_a_file_of_workers_that_says_nothing_is_told(tmp_path: pathlib.Path, text: str, told: str) -> None:
    file = tmp_path / "workers.toml"
    file.write_text(text)
    with pytest.raises(BadSettings, match=told):
        workers.destinations_in(str(file))


def test_a_file_of_workers_names_where_ssh_goes(tmp_path: pathlib.Path) -> None:
    file = tmp_path / "workers.toml"
    assert workers.destinations_in(str(file)) == {}
    file.write_text("[workers]\nrack2 = 'root@rack2.lab.example'\n")
    assert workers.destinations_in(str(file)) == {"rack2": "root@rack2.lab.example"}


@pytest.mark.parametrize("words", [("--every", "0", "true"), ("--grace", "1e10", "true"), ("--cage", "none")])
def test_bad_words_of_a_dispatcher_end_it(capsys: pytest.CaptureFixture[str], words: Sequence[str]) -> None:
    assert refused(capsys, dispatch.options_of, *words).startswith("farm-dispatch: error: ")


def test_a_command_is_the_same_in_a_jobs_folder() -> None:
    options = dispatch.options_of(["./run", "--fast", "x"])
    assert options.command == [os.path.abspath("run"), "--fast", "x"] and options.check_board == []
    assert dispatch.options_of(["--check-board", "sh -c 'true 1'", "run"]).check_board == ["sh", "-c", "true 1"]
    assert dispatch.options_of([]).command == [], "machines run it"
