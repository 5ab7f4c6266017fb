"""The toolchain's command rt as a module: it knows the crates, how to read an edit, how to check a copy of a
crate, and how to share the machine."""
from __future__ import annotations

import importlib.machinery
import importlib.util
import os
import shutil
import sys
from typing import Any

sys.dont_write_bytecode = True


def load_rt() -> Any:
    """Returns rt as a module, or ends the program where there is none."""
    found = shutil.which("rt")
    if not found:
        sys.exit("there is no rt on PATH")
    loader = importlib.machinery.SourceFileLoader("rt", os.path.realpath(found))
    about = importlib.util.spec_from_loader("rt", loader)
    assert about is not None
    made: Any = importlib.util.module_from_spec(about)
    loader.exec_module(made)
    # (its first call sets a signal's handler, which only the main thread may)
    made.rtlib.guarded()
    return made
