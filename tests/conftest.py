"""What each test by pytest has: the program, the fixtures of the harness, the journal of a failure; and, each as one test,
the cases of tests/wire, the checks of a script, and the parts of the gate."""
import contextlib
import os
import re
import shutil
import signal
import subprocess
import sys
import tempfile
import threading
import time
from collections.abc import Iterator
from pathlib import Path
from typing import Any

import pytest
from harness import ROOT

sys.dont_write_bytecode = True
HERE = Path(__file__).resolve().parent
# the folders of e2e whose tests are for root alone, and those that take minutes
FOR_ROOT = {"systemd", "fleets", "failover", "package"}
SLOW = {*FOR_ROOT, "devices", "device_client", "web", "hold-chaos", "mtls"}
# the folders whose tests each have what they need, as each check of SCRIPTS has; elsewhere those of a file share it, so that
# one worker runs them
APART = {"cli", "web", "unit", "wire"}
# scripts whose checks are tests: `--list` prints a name a line, and names as arguments run those checks alone
SCRIPTS = ("e2e/proxy/roles", "e2e/proxy/mtls", "e2e/proxy/hold-chaos", "e2e/devices/run")
# the same, but that its checks share a machine, which takes minutes to set up: it is run once, for all that are chosen
COURSES = ("e2e/systemd/timers", "e2e/systemd/units", "e2e/fleets/run", "e2e/failover/run")
TALLY = re.compile(r"(\d+) passed, (\d+) failed")
# the line by which such a script tells how a check ended
ENDED = re.compile(r"(passed|FAILED) ([^\s,:]+)")
# a part of the gate may take so many times as long as another test
GATE = 6
# how long a script that is ended may take for that, in seconds: it switches machines off
ENDING = 120


def pytest_addoption(parser: pytest.Parser) -> None:
    built = Path(os.environ.get("FWDESK_PROGRAM") or ROOT / "crates/fwdesk/out/fwdesk")
    parser.addoption(
        "--program", type=Path, default=built, help="the program (default: %(default)s)"
    )
    parser.addoption(
        "--limit",
        type=int,
        default=1800,
        help="seconds that a test may take (default: %(default)s)",
    )


def pytest_configure(config: pytest.Config) -> None:
    os.environ["FWDESK_PROGRAM"] = str(config.getoption("--program").resolve())


@pytest.hookimpl(tryfirst=True)
def pytest_collection_modifyitems(items: list[pytest.Item]) -> None:
    """The markers of a folder; tests for root are left out for others. Before xdist, which goes by its own marker here."""
    for it in items:
        parts = set(it.path.relative_to(HERE).parts if it.path.is_relative_to(HERE) else ())
        if "e2e" in parts:
            it.add_marker("e2e")
        if parts & FOR_ROOT:
            it.add_marker("root")
            if os.geteuid():
                it.add_marker(pytest.mark.skip(reason="for root alone"))
        if parts & SLOW:
            it.add_marker("slow")
        if not parts & APART and not (isinstance(it, Words) and isinstance(it.parent, Script)):
            it.add_marker(pytest.mark.xdist_group(str(it.path)))


# a test that hangs fails, so that the others are run


@contextlib.contextmanager
def limit(item: pytest.Item) -> Iterator[None]:
    """Fails what takes longer, again and again if it goes on. pytest's failure is no `Exception`: no test takes it for its own."""
    seconds = item.config.getoption("--limit") * getattr(item, "patience", 1)

    def fail(*_: object) -> None:
        pytest.fail(f"not within {seconds} s")

    if threading.current_thread() is not threading.main_thread():
        yield
        return
    before = signal.signal(signal.SIGALRM, fail)
    signal.setitimer(signal.ITIMER_REAL, seconds, 60)
    try:
        yield
    finally:
        signal.setitimer(signal.ITIMER_REAL, 0)
        signal.signal(signal.SIGALRM, before)


@pytest.hookimpl(hookwrapper=True)
def pytest_runtest_setup(item: pytest.Item) -> Iterator[None]:
    with limit(item):
        yield


@pytest.hookimpl(hookwrapper=True)
def pytest_runtest_call(item: pytest.Item) -> Iterator[None]:
    with limit(item):
        yield


@pytest.hookimpl(hookwrapper=True)
def pytest_runtest_teardown(item: pytest.Item) -> Iterator[None]:
    with limit(item):
        yield


# the journal of a failure


def journal_of(fixture: object) -> str:
    """What a fixture, or what it runs, has said until now."""
    for it in (fixture, getattr(fixture, "processes", None)):
        if it is not None and hasattr(it, "journal"):
            return str(it.journal())
    return ""


@pytest.hookimpl(hookwrapper=True)
def pytest_runtest_makereport(item: pytest.Item) -> Iterator[None]:
    report = (yield).get_result()  # type: ignore[attr-defined]
    if report.failed:
        for name, fixture in getattr(item, "funcargs", {}).items():
            if words := journal_of(fixture):
                report.sections.append((f"journal of {name}", words))


# fixtures


@pytest.fixture(scope="session")
def program(request: pytest.FixtureRequest) -> Path:
    """The program, which is there."""
    found: Path = request.config.getoption("--program").resolve()
    if not os.access(found, os.X_OK):
        pytest.fail(f"there is no program {found}: tools/build makes it, --program names another")
    return found


@pytest.fixture
def tmp_path() -> Iterator[Path]:
    """A folder in place of pytest's own, with a short name beside other workers too: a socket's path has 108 bytes at the
    most."""
    with tempfile.TemporaryDirectory(prefix="fwdesk-") as made:
        yield Path(made)


@pytest.fixture
def folder(tmp_path: Path) -> Path:
    """The same, which proxies may read as users of their own."""
    tmp_path.chmod(0o755)
    return tmp_path


@pytest.fixture
def processes(folder: Path) -> Iterator[Any]:
    """What a test starts, which ends with it."""
    from harness.processes import Processes

    made = Processes(folder)
    yield made
    made.end_all()


@pytest.fixture
def desk(program: Path, folder: Path, processes: Any) -> Any:
    """The program over a new file."""
    from harness.desk import Desk

    return Desk(processes, program, folder)


@pytest.fixture
def edge(desk: Any, folder: Path) -> Iterator[Any]:
    """Both HAProxys of deploy/haproxy before a desk."""
    from harness.edge import Edge, is_there

    if not is_there():
        pytest.skip("HAProxy or openssl isn't here")
    made = Edge(folder, desk.port)
    try:
        yield made.start()
    finally:
        made.end()


@pytest.fixture(scope="session")
def browser() -> Iterator[Any]:
    """Chromium, one for all tests of a worker."""
    from harness.browser import Browser

    if missing := [it for it in ("chromium", "chromedriver") if not shutil.which(it)]:
        pytest.skip(f"{missing[0]} isn't here")
    made = Browser()
    yield made
    made.end()


@pytest.fixture(scope="session")
def machine() -> Iterator[Any]:
    """A booted Debian."""
    from harness.debian_machine import Debian

    if os.geteuid() or not shutil.which("systemd-nspawn"):
        pytest.skip("it needs root and systemd-container")
    with Debian() as made:
        yield made


# tests that aren't functions


class Failure(Exception):
    """A test's own words of why it fails."""


def start(words: list[str]) -> subprocess.Popen[str]:
    """A script, whose output is read as it comes."""
    return subprocess.Popen(
        words, cwd=ROOT, stdout=subprocess.PIPE, stderr=subprocess.STDOUT, text=True
    )


def end(child: subprocess.Popen[str]) -> None:
    """Ends a script, which ends what it started."""
    child.terminate()
    try:
        child.wait(ENDING)
    except subprocess.TimeoutExpired:
        child.kill()
        child.wait()


class Words(pytest.Item):
    """A command as a test: its last line is 'N passed, 0 failed', and N is `least` at least."""

    patience = 1

    def __init__(self, *, words: list[str], least: int = 1, **more: Any):
        super().__init__(**more)
        self.words, self.least = words, least

    def runtest(self) -> None:
        child = start(self.words)
        try:
            told = child.communicate()[0]
        finally:
            if child.poll() is None:
                end(child)
        found = TALLY.findall(told)
        self.add_report_section("call", "stdout", told)
        if child.returncode or not found or int(found[-1][1]):
            raise Failure(f"{' '.join(self.words)}: status {child.returncode}\n{told[-4000:]}")
        if int(found[-1][0]) < self.least:
            raise Failure(f"{found[-1][0]} passed, and {self.least} at least were asked for")

    def repr_failure(self, excinfo: Any, style: Any = None) -> Any:
        return (
            str(excinfo.value) if excinfo.errisinstance(Failure) else super().repr_failure(excinfo)
        )

    def reportinfo(self) -> tuple[Path, int, str]:
        return self.path, 0, self.name


def names_of(script: Path) -> list[str]:
    """The names of a script's checks."""
    listed = subprocess.run([script, "--list"], stdout=subprocess.PIPE, text=True, check=True)
    return [line.partition(":")[0] for line in listed.stdout.splitlines()]


def words_of(script: pytest.File, *names: str) -> list[str]:
    """A script's words, for these of its checks."""
    return [
        str(script.path),
        "--program",
        str(script.config.getoption("--program").resolve()),
        *names,
    ]


class Script(pytest.File):
    """A script whose checks are tests, each a run."""

    def collect(self) -> Iterator[Words]:
        for name in names_of(self.path):
            yield Words.from_parent(self, name=name, words=words_of(self, name))


class Course(pytest.File):
    """A script whose checks are tests, in one run, which begins with the first of them: what it says is read as it comes."""

    child: subprocess.Popen[str] | None = None

    def collect(self) -> Iterator["Check"]:
        for name in names_of(self.path):
            yield Check.from_parent(self, name=name)

    def begin(self) -> None:
        self.said: list[str] = []
        self.reader = threading.Thread(target=self.read, daemon=True)
        chosen = [it.name for it in self.session.items if it.parent is self]
        self.child = start(words_of(self, *chosen))
        self.reader.start()

    def read(self) -> None:
        assert self.child and self.child.stdout
        self.said.extend(self.child.stdout)

    def ends(self) -> dict[str, tuple[str, int]]:
        """How each check that has ended did, by the first line that tells it, and that line's place."""
        found: dict[str, tuple[str, int]] = {}
        for place, line in enumerate(self.said):
            if told := ENDED.match(line):
                found.setdefault(told[2], (told[1], place))
        return found

    def wait_for(self, name: str) -> tuple[str, str]:
        """How a check ended, and what was said of it: from the end of the one before to that of its own."""
        if self.child is None:
            self.begin()
        while name not in self.ends() and self.reader.is_alive():
            time.sleep(0.2)
        # a failure's further lines
        time.sleep(0.5)
        how, last = self.ends().get(name, ("", len(self.said)))
        places = [it[1] for it in self.ends().values()]
        first = max((it + 1 for it in places if it < last), default=0)
        until = min((it for it in places if it > last), default=len(self.said))
        return how, "".join(self.said[first : until if how == "FAILED" else last + 1])

    def teardown(self) -> None:
        """Lets it end by itself where each check has; its status is then that of the checks."""
        if self.child is None:
            return
        chosen = {it.name for it in self.session.items if it.parent is self}
        ends = self.ends()
        if chosen <= ends.keys():
            self.reader.join(ENDING)
        if self.child.poll() is None and self.reader.is_alive():
            end(self.child)
        status, self.child = self.child.wait(), None
        if chosen <= ends.keys() and status and not any(it[0] == "FAILED" for it in ends.values()):
            raise Failure(f"{self.path}: status {status}\n{''.join(self.said)[-4000:]}")


class Check(pytest.Item):
    """A check of such a script."""

    parent: Course

    def runtest(self) -> None:
        how, told = self.parent.wait_for(self.name)
        self.add_report_section("call", "stdout", told)
        if how != "passed":
            raise Failure(told[-4000:] or "the script has said nothing")

    def repr_failure(self, excinfo: Any, style: Any = None) -> Any:
        return (
            str(excinfo.value) if excinfo.errisinstance(Failure) else super().repr_failure(excinfo)
        )

    def reportinfo(self) -> tuple[Path, int, str]:
        return self.path, 0, self.name


class Gate(pytest.File):
    """The parts of the gate: the counts are those of tests/floors.txt, the commands those of .ci/run."""

    def collect(self) -> Iterator[Words]:
        text = (ROOT / ".ci/run").read_text(encoding="utf-8").replace("\\\n", " ")
        parts = {
            it[1] or it[2]: it[3].replace(" --as-proved", "")
            for it in re.finditer(r'(?m)^(?:part|begin) (?:"([^"]+)"|(\S+)) (.*)', text)
        }
        for line in self.path.read_text(encoding="utf-8").splitlines():
            name, _, rest = (it.strip() for it in line.partition("|"))
            if name in parts:
                made = Words.from_parent(
                    self,
                    name=name,
                    words=["bash", "-c", parts[name]],
                    least=int(rest.partition("|")[0]),
                )
                made.add_marker("gate")
                made.patience = GATE
                yield made


class Case(pytest.File):
    """A file of tests/wire, in each of its ways."""

    def collect(self) -> Iterator["Way"]:
        from harness import wire_case

        case = wire_case.read(self.path)
        for way in case.ways:
            yield Way.from_parent(self, name=way, case=case)


class Way(pytest.Item):
    """A case, whole, byte by byte or in step."""

    def __init__(self, *, case: Any, **more: Any):
        super().__init__(**more)
        self.case = case

    def runtest(self) -> None:
        from as_module import as_module

        program = self.config.getoption("--program").resolve()
        with tempfile.TemporaryDirectory() as workdir:
            judged = as_module(HERE / "wire/run").judged
            if why := judged(self.case, self.name, program, workdir):
                raise Failure(f"{self.case.title}\n    {why}")

    def repr_failure(self, excinfo: Any, style: Any = None) -> Any:
        return (
            str(excinfo.value) if excinfo.errisinstance(Failure) else super().repr_failure(excinfo)
        )

    def reportinfo(self) -> tuple[Path, int, str]:
        return self.path, 0, f"{self.case.title} ({self.name})"


def pytest_collect_file(file_path: Path, parent: pytest.Collector) -> pytest.Collector | None:
    place = file_path.relative_to(HERE) if file_path.is_relative_to(HERE) else file_path
    if str(place) in SCRIPTS:
        return Script.from_parent(parent, path=file_path)
    if str(place) in COURSES:
        return Course.from_parent(parent, path=file_path)
    if str(place) == "floors.txt":
        return Gate.from_parent(parent, path=file_path)
    if file_path.suffix == ".case":
        return Case.from_parent(parent, path=file_path)
    return None
