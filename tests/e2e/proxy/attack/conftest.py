"""What the attacks on the edge are run before: each form of the edge, before the program with a small fleet.

    /usr/bin/python3 -m pytest tests/e2e/proxy/attack [--program PATH] [--form NAME].. [--full] [--before FILE]

--before runs one HAProxy's whole configuration in place of the edge, to see that a test finds what it lacks; with
--form NAME beside it that is taken for such a form.
--full runs the floods and the response mix-up at full size, for a machine of one's own."""

import resource
import shutil
import tempfile
import time
from pathlib import Path
from typing import Iterator

import pytest

from harness import edge as harness
from .stage import Before, Plain, Stage


def pytest_addoption(parser: pytest.Parser) -> None:
    """The forms, the size, and a configuration of before."""
    group = parser.getgroup("edge")
    group.addoption("--form", action="append", choices=sorted(harness.FORMS))
    group.addoption("--full", action="store_true")
    group.addoption("--before", type=Path)
    group.addoption("--within", type=float, help="seconds after which no test begins any more")


@pytest.hookimpl(tryfirst=True)
def pytest_configure(config: pytest.Config) -> None:
    """A thousand connections are files of this process; and HAProxy's sockets, in the folders of tests, have short paths."""
    if not config.option.basetemp and len(tempfile.gettempdir()) > 24:
        folder = tempfile.mkdtemp(prefix="fwdesk-", dir="/tmp")
        config.option.basetemp = f"{folder}/tests"
        config.add_cleanup(lambda: shutil.rmtree(folder, ignore_errors=True))
    soft, hard = resource.getrlimit(resource.RLIMIT_NOFILE)
    wanted = max(soft, 4096 if hard == resource.RLIM_INFINITY else min(hard, 4096))
    resource.setrlimit(resource.RLIMIT_NOFILE, (wanted, hard))


BEGAN = time.monotonic()


def pytest_runtest_setup(item: pytest.Item) -> None:
    """Leaves a test out where the time is over."""
    seconds = item.config.getoption("--within", None)
    if seconds and time.monotonic() - BEGAN > seconds:
        pytest.skip(f"left out, since {seconds:.0f} s are over")


def pytest_generate_tests(metafunc: pytest.Metafunc) -> None:
    """A test that takes `stage` is run before each form."""
    if "stage" in metafunc.fixturenames:
        forms = metafunc.config.getoption("--form", None) or list(harness.FORMS)
        if only := metafunc.definition.get_closest_marker("forms"):
            forms = [it for it in forms if it in only.args]
        if metafunc.config.getoption("--before", None):
            forms = ["before"] if forms else []
        metafunc.parametrize("stage", forms, indirect=True, scope="session")


@pytest.fixture(scope="session")
def stage(
    request: pytest.FixtureRequest, program: Path, tmp_path_factory: pytest.TempPathFactory
) -> Iterator[Stage]:
    """A form of the edge before the program, which has 12 devices and a rollout that runs."""
    if lacks := harness.missing():
        pytest.skip(f"there is no {lacks}")
    folder = tmp_path_factory.mktemp(request.param)
    folder.chmod(0o755)
    before = request.config.getoption("--before", None)
    made = Before(folder, program, before) if before else Stage(folder, program, request.param)
    try:
        made.fill()
        yield made
    finally:
        made.end()


@pytest.fixture(scope="session")
def stocked(stage: Stage, tmp_path_factory: pytest.TempPathFactory) -> Iterator[Stage]:
    """The same form before a stand-in whose artifacts have 4 MiB."""
    made = stage.bare(tmp_path_factory.mktemp("stocked"))
    server = Plain(made.behind)
    yield made
    server.end()
    made.end()


@pytest.fixture
def quiet(stage: Stage) -> Stage:
    """A stage whose edge knows of no wrong login and no request of before."""
    stage.forget()
    return stage


@pytest.fixture(scope="session")
def size(request: pytest.FixtureRequest) -> int:
    """How much larger than on a shared machine floods are."""
    return 10 if request.config.getoption("--full", None) else 1


@pytest.fixture(scope="session")
def seconds(request: pytest.FixtureRequest) -> float:
    """How long a flood lasts whose polls are counted."""
    return 10 if request.config.getoption("--full", None) else 3


@pytest.fixture(scope="session")
def least(request: pytest.FixtureRequest) -> float:
    """The share of their polls that devices have beside a flood at least. The flood takes processors itself: the gate's
    machine may have two, which other work shares."""
    return 1 / 4 if request.config.getoption("--full", None) else 1 / 10
