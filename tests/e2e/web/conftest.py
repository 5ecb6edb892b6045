"""The words of the command line that only the web UI's cases have."""
from pathlib import Path

import pytest
from harness import ROOT


def pytest_addoption(parser: pytest.Parser) -> None:
    group = parser.getgroup("web UI")
    group.addoption("--devices", type=int, default=10_000)
    group.addoption("--deploy", type=Path, default=ROOT / "deploy")
    group.addoption("--pictures", action="store_true")
