"""What the tools share, and nobody who uses the library wants."""
import importlib
import signal
import sys

# Where a tool begins, if it isn't `main` of the package that has its name.
BEGINS = {
    "desk": "fizgruk.desk.main:main",
    "farm-access session": "farm_access.client:session",  # (a person waits for it: it reads no more than it needs)
    "farm-from-desk": "farm_import.from_desk:main",
    "farm-from-labgrid": "farm_import.from_labgrid:main",
    "farm-from-lava": "farm_import.from_lava:main",
}


def start(name: str) -> int:
    """Does the work of the tool of this name, whose words are the process's. Returns the exit status."""
    # Ctrl-C ends it without a word also while it still reads its modules.
    if signal.getsignal(signal.SIGINT) is signal.default_int_handler:
        signal.signal(signal.SIGINT, signal.SIG_DFL)
    usual = BEGINS.get(name, f"{name.replace('-', '_')}.main:main")
    module, _, function = BEGINS.get(" ".join([name, *sys.argv[1:]]), usual).partition(":")
    status: int = getattr(importlib.import_module(module), function)()
    return status
