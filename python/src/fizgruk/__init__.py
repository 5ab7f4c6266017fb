"""The desk of a board farm, from Python.

    import fizgruk

    with fizgruk.Client().board("hdmi") as board:
        print(board.name)
"""
import importlib
from typing import TYPE_CHECKING

__version__ = "2.0"  # that of the Debian packages, in packaging/debian/changelog

if TYPE_CHECKING:
    from fizgruk.artifacts import Artifact
    from fizgruk.client import Client, labs
    from fizgruk.errors import (
        BadJobFile, BadSettings, Code, FizgrukError, HoldLost, NoArtifact, NoLog, NotGivenBack,
        NoText, Refused, ReservationEnded, TimedOut, Unreachable,
    )
    from fizgruk.models import (
        Board, BoardView, Claim, HealthChange, Holder, JobView, Left, PassCounts, PastJob,
        ReservationView, Results, Status, TypeView, Use,
    )

__all__ = [
    "Artifact", "BadJobFile", "BadSettings", "Board", "BoardView", "Claim", "Client", "Code",
    "FizgrukError", "HealthChange", "HoldLost", "Holder", "JobView", "Left", "NoArtifact",
    "NoLog", "NoText", "NotGivenBack", "PassCounts", "PastJob", "Refused", "ReservationEnded",
    "ReservationView", "Results", "Status", "TimedOut", "TypeView", "Unreachable", "Use",
    "__version__",
    "labs",
]
_MODULES = ("errors", "models", "artifacts", "client")

if not TYPE_CHECKING:

    def __getattr__(name: str) -> object:
        """A name of these modules, which are read where one is first used: a tool that has parts of the library
        begins without the rest."""
        if name in _MODULES:
            return importlib.import_module(f"fizgruk.{name}")
        for module in _MODULES if name in __all__ else ():
            found = importlib.import_module(f"fizgruk.{module}")
            if hasattr(found, name):
                return getattr(found, name)
        raise AttributeError(f"module 'fizgruk' has no attribute {name!r}")
