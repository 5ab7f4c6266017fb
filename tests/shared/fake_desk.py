"""A desk in the place of fizgruk.calls.Desk whose views a test sets by hand."""
from __future__ import annotations

from typing import Any, Dict, List, Optional, Tuple


class FakeDesk:
    """Shows the views that the test has given by their names, each as it stands there, or as rows, or by its numbers, and
    answers each command alike. An exception in a view's place, or the next of `faults` at a command, is raised. What is
    asked and told is noted."""

    server, user, timeout, patience = "http://desk", "ann", 30.0, 0.0

    def __init__(self, *faults: Exception, **views: Any) -> None:
        self.faults = list(faults)
        self.views: Dict[str, Any] = views
        self.asked: List[str] = []
        self.told: List[Tuple[str, Optional[str]]] = []
        self.answer: Dict[str, Any] = {"number": 7}

    def of_patience(self, _: float) -> Any:
        return self

    def tell_trouble(self, trouble: str) -> None:
        del trouble

    def look(self, path: str) -> Dict[str, Any]:
        self.asked.append(path)
        name, _, number = path[1:].partition("/")
        found = self.views[name]
        if number.isdigit() and isinstance(found, dict) and int(number) in found:
            found = found[int(number)]
        if isinstance(found, Exception):
            raise found
        return {name: found} if isinstance(found, list) else dict(found)

    def tell(self, path: str, body: Any = None, key: Optional[str] = None) -> Dict[str, Any]:
        del body
        self.told.append((path, key))
        if self.faults:
            raise self.faults.pop(0)
        return dict(self.answer)

    nudge = tell
