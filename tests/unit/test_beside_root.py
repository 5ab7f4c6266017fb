"""How the tests' other accounts see a checkout that lies below a folder of root's."""
from __future__ import annotations

import os
import pathlib
import subprocess

import beside_root
import pytest
from wants import lacks, wants

NOBODY = ("setpriv", "--reuid=65534", "--regid=65534", "--clear-groups")


@pytest.fixture
def project(tmp_path: pathlib.Path, monkeypatch: pytest.MonkeyPatch) -> pathlib.Path:
    """A checkout beside a secret, in a folder that only root may enter."""
    made = tmp_path / "project"
    (made / "tests").mkdir(parents=True)
    (made / "tests" / "pytest.ini").write_text("here\n", encoding="ascii")
    (tmp_path / "secret").write_text("root's\n", encoding="ascii")
    os.chmod(tmp_path, 0o700)
    for it in (made, made / "tests"):
        os.chmod(it, 0o755)
    os.chmod(made / "tests" / "pytest.ini", 0o644)
    monkeypatch.setattr(beside_root, "TOP", str(made))
    return made


def test_another_account_sees_the_project_and_nothing_else_of_a_closed_folder(project: pathlib.Path) -> None:
    wants("unshare", "setpriv")
    if os.geteuid() != 0 or subprocess.run(["unshare", "--mount", "true"], capture_output=True, check=False).returncode:
        lacks("no right to make mounts and to be nobody")
    sees = f"cat {project}/tests/pytest.ini; ls {project.parent}"
    ran = subprocess.run(beside_root.that_sees_the_project(*NOBODY, "sh", "-c", sees), capture_output=True, text=True, check=False)
    assert (ran.stdout, ran.stderr) == ("here\nproject\n", "")
    assert os.path.exists(project.parent / "secret"), "here all is as it was"


def test_a_project_that_nobody_else_may_read_is_told(project: pathlib.Path) -> None:
    os.chmod(project, 0o700)
    with pytest.raises(pytest.skip.Exception, match=f"^accounts beside root may not read {project}: chmod -R go\\+rX {project}$"):
        beside_root.that_sees_the_project("true")
