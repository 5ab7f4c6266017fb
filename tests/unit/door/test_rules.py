"""The rules of farm-door: what a file says, and what one that says what it can't is told."""
from __future__ import annotations

import pathlib

import pytest

from farm_door.rules import DoorRules, Limits, rules_in
from fizgruk.words import BadFile


def read(folder: pathlib.Path, text: str) -> DoorRules:
    file = folder / "door.toml"
    file.write_text(text)
    return rules_in(str(file))


def test_without_a_file_the_usual_rules_hold(tmp_path: pathlib.Path) -> None:
    assert rules_in(str(tmp_path / "none")) == DoorRules(Limits(), {}, {}, frozenset()) == read(tmp_path, "")


def test_a_team_and_a_user_have_limits_of_their_own_over_those_of_all(tmp_path: pathlib.Path) -> None:
    found = read(tmp_path, "[limits]\nopen_jobs = 4\n[limits.few]\nopen_reservations = 1\n[limits.ann]\nopen_jobs = 9\n"
                 "[teams]\nfew = ['ann', 'bob']\n[admins]\nlogins = ['ann.admin']\n")
    own, team = found.groups_of("ann")
    assert (own.limits.open_jobs, team.name, team.limits.open_reservations, team.limits.open_jobs) == (9, "team few", 1, 4)
    assert [it.name for it in found.groups_of("cat")] == ["cat"]
    assert found.is_unlimited("ann.admin") and not found.is_unlimited("ann")


@pytest.mark.parametrize("text, told", [
    ("[limits", "door.toml: "),
    ("limits = 3", "limits is no table"),
    ("[limit]", "the file has no key 'limit': there are limits, teams, admins"),
    ("[limits]\nopen_job = 1", "[limits] has no key 'open_job': there are "),
    ("[limits]\nopen_jobs = true", "limits.open_jobs is no number from 0 to "),
    ("[limits.ann]\nopen_jobs = -1", "limits.ann.open_jobs is no number from 0 to "),
    ("[limits.'a b']\nopen_jobs = 1", "'a b' is no name"),
    ("[teams]\nfew = 'ann'", "teams.few is no list of names"),
    ("[teams]\nfew = ['a b']", "'a b' is no name"),
    ("[admins]\nusers = []", "[admins] has no key 'users': there are logins"),
    ("[admins]\nlogins = [3]", "admins.logins is no list of names"),
])
def test_what_no_rules_are_is_told(tmp_path: pathlib.Path, text: str, told: str) -> None:
    with pytest.raises(BadFile) as fault:
        read(tmp_path, text)
    assert told in str(fault.value)
