"""The stage of a module's tests. Run them with /usr/bin/python3 -m pytest tests/e2e/hawkbit; FWDESK_PROGRAM names the
program (default: crates/fwdesk/out/fwdesk). They need haproxy, nginx and openssl, and test_units.py root, debhelper,
debootstrap and systemd-container."""

import pytest
from harness.tls import make_certificate

from . import stage


@pytest.fixture(scope="module")
def folder(tmp_path_factory):
    made = tmp_path_factory.mktemp("hb")
    (made / "images").mkdir()
    make_certificate(made)
    return made


@pytest.fixture(scope="module")
def processes(folder):
    own = stage.Processes(folder)
    yield own
    own.end_all()


@pytest.fixture(scope="module")
def desk(folder, processes):
    return stage.Desk(folder, processes)


@pytest.fixture(scope="module")
def env(request, folder, processes, desk):
    """What the tests of a module share: its class `Environment`."""
    made = request.module.Environment(folder, processes, desk)
    yield made
    made.between.close()
    made.haproxy.edge.end()


@pytest.fixture(autouse=True)
def nothing_between(request):
    """What a test does to the desk's answers ends with it."""
    yield
    if between := getattr(request.node.funcargs.get("env"), "between", None):
        between.rule = None
