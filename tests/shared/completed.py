"""What a shell offers for a line of the command, which argcomplete completes as where it is installed."""
from __future__ import annotations

import os
import subprocess
import sys
from typing import Set

from desks import DESK, write
from served import environment
from wants import wants, wants_modules

BASH = """\
eval "$(register-python-argcomplete desk)"
COMP_LINE=$1 COMP_POINT=${#1} COMP_TYPE=9
_python_argcomplete desk
printf '%s\\n' "${COMPREPLY[@]}"
"""
FISH = """\
register-python-argcomplete --shell fish desk | source
complete -C "$argv[1]"
"""
# zsh has no completion without a terminal's keys: what they call is called here.
ZSH = """\
autoload -Uz bashcompinit && bashcompinit
eval "$(register-python-argcomplete desk)"
COMP_LINE=$1 COMP_POINT=${#1} COMP_TYPE=9 COMP_WORDBREAKS=$' \\t\\n"=:'
_python_argcomplete desk
print -rl -- $COMPREPLY
"""
SHELLS = {"bash": ["-c", BASH, "bash"], "fish": ["-N", "-c", FISH], "zsh": ["-f", "-c", ZSH, "zsh"]}


def completed(folder: str, line: str, shell: str = "bash", **more: str) -> Set[str]:
    """The words that a shell offers for this line. (A call may take its time on a busy machine.)"""
    wants(shell, "register-python-argcomplete")
    wants_modules("argcomplete")
    if not os.path.lexists(os.path.join(folder, "desk")):
        write(folder, "desk", f'#!/bin/sh\nexec {sys.executable} {DESK} "$@"\n', 0o755)
    around = environment(**{"DESK_USER": "ann", "DESK_SERVER": "http://127.0.0.1:1", "DESK_TIMEOUT": "60", **more})
    around["PATH"] = f"{folder}:{around['PATH']}"
    words = [shell, *SHELLS[shell], line]
    ran = subprocess.run(words, env=around, cwd=folder, capture_output=True, text=True, check=True, timeout=120)
    return {it.partition("\t")[0].rstrip() for it in ran.stdout.splitlines()} - {""}
