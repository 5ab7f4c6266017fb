"""Runs calls of a tool, each in a copy of this process, which has read Python's modules and the tool's: a call costs
a tenth of a start. desks.py starts it with the tool's path and the name of its module.

Each line of the input is a call in JSON: its words, its environment, and the files of its input, output and errors.
It is answered by a line, the exit status that subprocess would tell.
"""
import gc
import importlib
import json
import os
import runpy
import sys
from typing import Dict, List


def become(tool: str, words: List[str], surroundings: Dict[str, str], files: List[str]) -> None:
    """Runs the tool as a process of its own would, and ends as it does."""
    os.environ.clear()
    os.environ.update(surroundings)
    for place, file in enumerate(files):
        opened = os.open(file, os.O_RDWR)
        os.dup2(opened, place)
        os.close(opened)
    sys.stdin, sys.stdout = open(0, encoding="utf-8"), open(1, "w", encoding="utf-8")
    sys.stderr = open(2, "w", encoding="utf-8", errors="backslashreplace", buffering=1)
    sys.argv = [tool, *words]
    runpy.run_path(tool, run_name="__main__")


def main(tool: str, module: str) -> None:
    here = os.path.dirname(tool)
    sys.path[:0] = [here, os.path.join(here, "../python/src")]
    importlib.import_module(module)
    gc.freeze()
    for line in sys.stdin:
        child = os.fork()
        if not child:
            become(tool, *json.loads(line))
            return
        print(os.waitstatus_to_exitcode(os.waitpid(child, 0)[1]), flush=True)


if __name__ == "__main__":
    main(*sys.argv[1:])
