"""The web UI in a real browser, through the real proxies, before the real program.

Debian's chromium is driven by its driver, over TLS and behind a login, with the configurations of deploy/. Each case has
a new desk; its devices, and what the page is compared with, go through the same proxy. Packages: chromium,
chromium-driver, haproxy, nginx-light, openssl. After `--` come --devices N (of the largest rollout, default: 10,000),
--deploy FOLDER (other configurations), and --pictures, which takes those of docs/img."""
import importlib
from pathlib import Path
from types import SimpleNamespace

import pytest
from harness import ROOT
from harness.proxies import Environment

from .steps import CASES

# the files of cases, each of which registers its own
for subject in (
    "serving",
    "rollouts",
    "bad_day",
    "groups",
    "stock",
    "behaviour",
    "held",
    "shown",
    "roles",
    "languages",
    "lists",
    "units",
):
    importlib.import_module(f".{subject}", __package__)


@pytest.fixture
def order(request, program: Path) -> SimpleNamespace:
    """What the command line asks for."""
    config = request.config
    deploy = config.getoption("--deploy", ROOT / "deploy")
    devices = config.getoption("--devices", 10_000)
    return SimpleNamespace(program=program, deploy=deploy, devices=devices)


@pytest.fixture
def env(request, order: SimpleNamespace, folder: Path):
    """A desk behind the proxy that its case wants; a case without one gets the command line."""
    ways = CASES[request.getfixturevalue("name")][1]
    if not ways.get("env", True):
        yield order
        return
    made = Environment(order, folder, **ways)
    yield made
    made.end()


@pytest.mark.parametrize("name", CASES)
def test_case(request, env, browser, name: str) -> None:
    if name == "pictures" and not request.config.getoption("--pictures", False):
        pytest.skip("--pictures takes them")
    try:
        CASES[name][0](browser, env)
        assert not (faults := browser.faults()), faults
    finally:
        browser.go("about:blank")
