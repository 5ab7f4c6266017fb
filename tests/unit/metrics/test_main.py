"""What farm-metrics tells and refuses by itself, without a desk."""
from __future__ import annotations

import pytest
from bad_words import refused
from farm_metrics import main as metrics


def test_a_port_is_one(capsys: pytest.CaptureFixture[str]) -> None:
    assert metrics.parser_of().parse_args(["--listen", "0"]).listen == 0
    for port in ("65536", "-1", "http"):
        assert "argument --listen" in refused(capsys, metrics.parser_of().parse_args, "--listen", port)
