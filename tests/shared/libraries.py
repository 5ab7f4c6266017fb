"""Libraries that are preloaded into programs, made of a C source by the machine's compiler, or else by the
toolchain's own, which has no headers: so a source declares itself what it takes of the C library."""
from __future__ import annotations

import os
import shutil
import subprocess

import pytest


def made(source: str, folder: str) -> str:
    """The library of a source, in a folder; skips the test where there is no compiler."""
    library = os.path.join(folder, os.path.basename(source).replace(".c", ".so"))
    if shutil.which("cc"):
        subprocess.run(["cc", "-O1", "-shared", "-fPIC", "-o", library, source], check=True)
        return library
    rt = shutil.which("rt") or "/nonexistent/rt"
    tools = os.path.join(os.path.dirname(os.path.realpath(rt)), "../toolchain/bin")
    compiler, linker = (os.path.join(tools, it) for it in ("clang", "ld.lld"))
    if not (os.access(compiler, os.X_OK) and os.access(linker, os.X_OK)):
        pytest.skip("there is no cc, nor the toolchain's compiler")
    subprocess.run([compiler, "-O1", "-fPIC", "-c", "-o", f"{library}.o", source], check=True)
    subprocess.run([linker, "-shared", "-o", library, f"{library}.o"], check=True)
    return library
