"""A program in Python that is read once, and run many times: each time in a child of the process that read it, since
reading it takes longer than what the tests have it do."""
from __future__ import annotations

import json
import subprocess
import sys
from typing import Any

from served import LASTING, MODULES, STARTED, environment

# Behind the text of a program that has `main(words)`. It gets a line of JSON for each run, and answers with one.
READ_ONCE = """
import json, os, sys, tempfile, traceback

def _run(words, output, errors):
    os.dup2(output.fileno(), 1)
    os.dup2(errors.fileno(), 2)
    status = 1
    try:
        status = main(words)
    except SystemExit as end:
        status = end.code or 0
    except BaseException:
        traceback.print_exc()
    finally:
        sys.stdout.flush()
        sys.stderr.flush()
        os._exit(status)

def _text(file):
    file.seek(0)
    return file.read()

for _line in sys.stdin:
    with tempfile.TemporaryFile("w+") as _output, tempfile.TemporaryFile("w+") as _errors:
        _child = os.fork()
        if not _child:
            _run(json.loads(_line), _output, _errors)
        _, _how = os.waitpid(_child, 0)
        print(json.dumps([os.waitstatus_to_exitcode(_how), _text(_output), _text(_errors)]), flush=True)
"""


class ReadOnce:
    """The process of a program's text, in which `main(words)` is what it does."""

    def __init__(self, program: str, lasts: bool = False):
        """`lasts` says that it is for all tests of a process."""
        words = [sys.executable, "-c", f"import sys\nsys.path[:0] = {MODULES!r}\n{program}{READ_ONCE}"]
        self.process = subprocess.Popen(
            words, stdin=subprocess.PIPE, stdout=subprocess.PIPE, text=True, env=environment()
        )
        (LASTING if lasts else STARTED).append(self.process)

    def run(self, *words: Any) -> "subprocess.CompletedProcess[str]":
        """A run to its end, with these words."""
        assert self.process.stdin and self.process.stdout
        try:
            self.process.stdin.write(json.dumps([str(it) for it in words]) + "\n")
            self.process.stdin.flush()
            status, output, errors = json.loads(self.process.stdout.readline())
        except BaseException:
            self.process.kill()  # (what it answers later would be taken for what another run came to)
            raise
        return subprocess.CompletedProcess(words, status, output, errors)
