"""Lab files, written of what they say."""
from __future__ import annotations

import json
import re
from typing import Any, Mapping

Rows = Mapping[str, Mapping[str, Any]]


def written(*, gap: str = "", **tables: Rows) -> str:
    """A lab file of these tables (`types`, `boards`), each row and key in its place; between two rows stands a gap."""
    return gap.join(
        f"[{table}.{name if re.fullmatch('[A-Za-z0-9_-]+', name) else json.dumps(name)}]\n"
        + "".join(f"{key} = {json.dumps(value)}\n" for key, value in row.items())
        for table, rows in tables.items() for name, row in rows.items()
    )
