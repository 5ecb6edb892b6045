"""fwdesk-device and fwdesk-device.sh against the real server: their way, their failures, and kills at each of their calls.

    FWDESK_PROGRAM=PATH python3 -m pytest tests/e2e/device_client     (default: crates/fwdesk/out/fwdesk)

Some minutes with the proved program; it needs curl, jq and flock. FWDESK_EACH=7 kills at each seventh call alone, for a
slow program, and FWDESK_AT_ONCE=2 has two clients beside one another, for a busy machine."""
import os
import shutil
import signal
import subprocess
from concurrent.futures import ThreadPoolExecutor
from pathlib import Path

import pytest

from harness import ROOT
from harness.desk import PROGRAM
from harness.processes import HOST, eventually

from .desk import Desk, Topology

HERE = Path(__file__).resolve().parent
CLIENTS = {"python": ROOT / "device/fwdesk-device", "shell": ROOT / "device/fwdesk-device.sh"}
# of the calls at which a client is killed, each one, or each so many
EACH = int(os.environ.get("FWDESK_EACH", "1"))
# beside one another
AT_ONCE = int(os.environ.get("FWDESK_AT_ONCE", "4"))
SECONDS = 300
INSTALL = """#!/bin/sh
# writes down that it was run, and what it was given; FILE.status has its status, FILE.do what it does besides
log=$(dirname "$0")/log
echo "$2 $(sha256sum < "$1" | cut -c 1-8) $FWDESK_PART $FWDESK_VERSION" >> "$log"
if [ -e "$(dirname "$0")/do" ]; then . "$(dirname "$0")/do"; fi
echo "the words of $2"
exit "$(cat "$(dirname "$0")/status" 2> /dev/null || echo 0)"
"""


@pytest.fixture(scope="module")
def desk(tmp_path_factory):
    made = Desk(PROGRAM, tmp_path_factory.mktemp("desk"))
    yield made
    made.close()


@pytest.fixture
def topology(desk):
    made = Topology(desk)
    yield made
    made.close()


class Device:
    """A device with its client, its state and its command that installs."""

    def __init__(self, folder: Path, name: str, client: str, port: int):
        self.folder, self.name, self.client = folder / name, name, client
        self.folder.mkdir()
        self.write("install", INSTALL)
        self.environment = {
            **os.environ,
            "FWDESK_URL": f"http://{HOST}:{port}",
            "FWDESK_ID": name,
            "FWDESK_TOKEN": f"token-{name}",
            "FWDESK_INSTALL": str(self.folder / "install"),
        }

    def write(self, name: str, text: str) -> None:
        (self.folder / name).write_text(text)
        (self.folder / name).chmod(0o755)

    def words(self, *before) -> list[str]:
        script = CLIENTS[self.client]
        # the Python that has no packages: the client is to need none
        run = ["/usr/bin/python3", "-I"] if self.client == "python" else ["sh"]
        return [*(before or run), str(script), "--once", "--state", str(self.folder / "state")]

    def run(self, *before: str, **environment: str) -> subprocess.CompletedProcess:
        """Runs the client until it has nothing left to do, has to wait, or is killed."""
        return subprocess.run(
            self.words(*before),
            env=self.environment | environment,
            stdout=subprocess.PIPE,
            stderr=subprocess.STDOUT,
            text=True,
            timeout=SECONDS,
        )

    def installed(self) -> list[str]:
        """What the command was run for."""
        log = self.folder / "log"
        return [it.split()[0] for it in log.read_text().splitlines()] if log.exists() else []


@pytest.fixture(params=CLIENTS)
def client(request):
    return request.param


@pytest.fixture
def device(desk, topology, client, tmp_path):
    """A device that is offered two files."""
    name = desk.offer(1, b"one" * 1000, b"two" * 2000)[0]
    return Device(tmp_path, name, client, topology.port)


SUCCESS = [
    ("deployment", 1, "proceeding", "none"),
    ("deployment", 2, "closed", "success"),
]
FAILURE = [SUCCESS[0], ("deployment", 2, "closed", "failure")]


def is_updated(desk, device):
    assert device.installed() == ["0.bin", "1.bin"]
    assert desk.reports(device.name) == SUCCESS
    assert desk.action(device.name)["status"] == "finished"


def test_a_device_is_updated_once(desk, device):
    ran = device.run()
    assert ran.returncode == 0, ran.stdout
    is_updated(desk, device)
    assert not (device.folder / "state/work").exists(), "downloads are left behind"
    assert (device.folder / "log").read_text().split()[2:4] == ["os", "2.1"]
    assert device.run().returncode == 0
    is_updated(desk, device)


def test_a_failed_installation_is_reported_with_its_words(desk, device):
    device.write("status", "3")
    assert device.run().returncode == 0
    assert device.installed() == ["0.bin"]
    assert desk.reports(device.name) == FAILURE
    assert desk.words(device.name) == ["0.bin: status 3", "the words of 0.bin"]


def test_a_download_that_breaks_off_goes_on_where_it_was(desk, topology, device):
    topology.faults = [("cut", "GET", "0.bin", 700), ("cut", "GET", "0.bin", 1000)]
    assert device.run().returncode == 1
    assert device.run().returncode == 1
    assert device.run().returncode == 0
    is_updated(desk, device)
    ranges = [it[2] for it in topology.sent if "0.bin" in it[1]]
    assert [it if it and it != "bytes=0-" else None for it in ranges] == [
        None,
        "bytes=700-",
        "bytes=1700-",
    ]


def test_a_server_without_ranges_sends_it_anew(desk, topology, device):
    topology.ranges, topology.faults = False, [("cut", "GET", "0.bin", 700)]
    assert device.run().returncode == 1
    assert device.run().returncode == 0
    is_updated(desk, device)


def test_other_bytes_are_fetched_anew_and_never_installed(desk, topology, device):
    topology.faults = [("other", "GET", "0.bin", True)]
    assert device.run().returncode == 0
    is_updated(desk, device)


def test_other_bytes_for_ever_are_a_failure(desk, topology, device):
    topology.faults = [("other", "GET", "0.bin", True)] * 3
    assert device.run().returncode == 0
    assert device.installed() == [] and desk.reports(device.name) == FAILURE
    assert "SHA-256" in desk.words(device.name)[0]


@pytest.mark.parametrize("finished", ["proceeding", "closed"])
def test_a_report_whose_reply_is_lost_is_sent_again_and_counted_once(
    desk, topology, device, finished
):
    topology.faults = [("lost", "POST", "feedback", True)]
    if finished == "closed":
        # the first one is answered
        topology.faults = [("status", "POST", "nobody", 1)]
        device.write("do", "sleep 0")
    tries = 0
    while device.run().returncode and tries < 5:
        tries += 1
    is_updated(desk, device)


@pytest.mark.parametrize("status", [401, 429, 500, 502, 503])
def test_a_busy_server_is_asked_later(desk, topology, device, status):
    for part in (device.name, "deploymentBase/", "0.bin", "feedback"):
        method = "POST" if part == "feedback" else "GET"
        topology.faults = [("status", method, part, status)]
        assert device.run().returncode == 1
    assert device.run().returncode == 0
    is_updated(desk, device)


def test_an_action_that_is_canceled_is_given_up(desk, topology, device):
    topology.faults = [("status", "GET", "0.bin", 503)]
    assert device.run().returncode == 1
    action = desk.action(device.name)["id"]
    desk.ask("DELETE", f"/rest/v1/targets/{device.name}/actions/{action}")
    assert device.run().returncode == 0
    assert device.installed() == []
    assert desk.action(device.name)["status"] == "canceled"


def test_what_is_canceled_or_held_during_the_download_is_not_installed(desk, topology, device):
    action = desk.action(device.name)["id"]
    answer = topology.answer

    def cancel_meanwhile(asked, body):
        answer(asked, body)
        if "1.bin" in asked.path:
            topology.answer = answer
            desk.ask("DELETE", f"/rest/v1/targets/{device.name}/actions/{action}")

    topology.answer = cancel_meanwhile
    assert device.run().returncode == 0
    assert device.installed() == [] and desk.action(device.name)["status"] == "canceled"


@pytest.mark.parametrize("text", ["{no json", "", "[]"])
def test_a_device_whose_state_is_lost_goes_on_with_free_numbers(desk, topology, device, text):
    topology.faults = [("status", "GET", "1.bin", 503)]
    assert device.run().returncode == 1
    shutil.rmtree(device.folder / "state")
    topology.faults = [("status", "GET", "1.bin", 503)]
    assert device.run().returncode == 1
    (device.folder / "state/state.json").write_text(text)
    assert device.run().returncode == 0
    assert device.installed() == ["0.bin", "1.bin"]
    assert desk.action(device.name)["status"] == "finished"


# an installation that nobody saw the end of: the client, the shell that waits, and the command are all killed
LOSS_OF_POWER = 'rm "$(dirname "$0")/do"; kill -9 "$FWDESK_TEST_CLIENT" "$PPID" $$\n'
# the clients' own numbers aren't known before they run
STARTER = 'export FWDESK_TEST_CLIENT=$$; exec "$@"'


def lose_power(device):
    device.write("do", LOSS_OF_POWER)
    run = ["/usr/bin/python3", "-I"] if device.client == "python" else ["sh"]
    ran = device.run("sh", "-c", STARTER, "sh", *run)
    assert ran.returncode == -signal.SIGKILL, ran
    assert device.installed() == ["0.bin"]


def test_a_loss_of_power_in_the_installation_is_reported_and_never_installed_again(desk, device):
    lose_power(device)
    assert device.run().returncode == 0
    assert device.installed() == ["0.bin"]
    assert desk.reports(device.name) == FAILURE
    assert "nobody saw its end" in desk.words(device.name)[1]


@pytest.mark.parametrize("status", [0, 1])
def test_a_loss_of_power_in_the_installation_is_settled_by_what_confirms_it(desk, device, status):
    lose_power(device)
    confirms = (
        f'#!/bin/sh\necho "$2" >> "{device.folder}/asked"; echo of $FWDESK_VERSION; exit {status}\n'
    )
    device.write("confirm", confirms)
    ran = device.run(FWDESK_CONFIRM=str(device.folder / "confirm"))
    assert ran.returncode == 0, ran.stdout
    assert (device.folder / "asked").read_text() == "0.bin\n"
    if status:
        assert device.installed() == ["0.bin"] and desk.reports(device.name) == FAILURE
        assert "of 2.1" in desk.words(device.name)
    else:
        is_updated(desk, device)


def test_status_10_waits_for_the_boot(desk, device):
    device.write("status", "10")
    device.write("confirm", "#!/bin/sh\nexit 0\n")
    confirm = str(device.folder / "confirm")
    for _ in range(2):
        assert device.run(FWDESK_CONFIRM=confirm).returncode == 1
        assert device.installed() == ["0.bin"]
    assert len(desk.reports(device.name)) == 1
    # the boot is another one
    state = device.folder / "state/state.json"
    device.write("status", "0")
    boot = Path("/proc/sys/kernel/random/boot_id").read_text().strip()
    assert boot in state.read_text()
    state.write_text(state.read_text().replace(boot, boot[::-1]))
    assert device.run(FWDESK_CONFIRM=confirm).returncode == 0
    is_updated(desk, device)


def test_a_second_client_waits(desk, device):
    device.write("do", "sleep 2\n")
    first = subprocess.Popen(device.words(), env=device.environment, stderr=subprocess.DEVNULL)
    eventually("the first client installs", device.installed, SECONDS)
    ran = device.run()
    assert "is waited for" in ran.stdout
    assert first.wait(SECONDS) == 0
    is_updated(desk, device)


def test_what_the_command_leaves_behind_keeps_nobody_waiting(desk, device):
    device.write("do", 'sleep 3000 & echo $! > "$(dirname "$0")/left"\n')
    try:
        # a client that waited for it would be ended by this test's own patience
        assert device.run().returncode == 0
        assert device.run().returncode == 0
    finally:
        os.kill(int((device.folder / "left").read_text()), signal.SIGKILL)


@pytest.mark.parametrize("lacks", ["FWDESK_URL", "FWDESK_TOKEN", "FWDESK_INSTALL"])
def test_an_environment_that_lacks_something_is_refused(device, lacks):
    ran = device.run(**{lacks: ""})
    assert ran.returncode == 2 and lacks in ran.stdout


def test_the_token_is_given_to_nobody(desk, device):
    device.write(
        "do", 'env > "$(dirname "$0")/environment"; ps -ef > "$(dirname "$0")/processes"\n'
    )
    assert device.run().returncode == 0
    for it in ("environment", "processes"):
        assert device.environment["FWDESK_TOKEN"] not in (device.folder / it).read_text()


# says whether a file is installed, by what the command has written down
CONFIRM = """#!/bin/sh
log=$(dirname "$0")/log
test -e "$log" && grep -q "^$2 " "$log"
"""


def traced(at: int, who: str, calls: Path, client: str) -> list[str]:
    """What runs a client that is killed at a call; see kill_at_call.py."""
    run = ["/usr/bin/python3", "-I"] if client == "python" else ["sh"]
    return ["/usr/bin/python3", str(HERE / "kill_at_call.py"), str(at), who, str(calls), *run]


def kill_and_go_on(desk, device, at, who) -> tuple[bool, bool]:
    """A client is killed at a call, and started again; tells whether it was killed, and whether the device was updated. It
    is installed once at most, and its end is reported once; it fails only where an installation was cut short.
    """
    calls = device.folder / "calls"
    device.write("confirm", CONFIRM)
    confirm = {"FWDESK_CONFIRM": str(device.folder / "confirm")}
    ran = device.run(*traced(at, who, calls, device.client), **confirm)
    was_killed = ran.returncode == -signal.SIGKILL
    assert was_killed or ran.returncode == 0, ran.stdout
    last = calls.read_text().splitlines()[-1]
    again = device.run(**confirm)
    assert again.returncode == 0, f"call {at}, {last}: {again.stdout}"
    reports, installed = desk.reports(device.name), device.installed()
    is_updated = reports == SUCCESS and installed == ["0.bin", "1.bin"]
    cut_short = who == "all" and reports == FAILURE and installed in ([], ["0.bin"])
    assert is_updated or cut_short, f"call {at}, {last}: {reports} {installed}"
    if cut_short:
        filename = ["0.bin", "1.bin"][len(installed)]
        assert desk.words(device.name)[:2] == [
            f"{filename}: status 1",
            "nobody saw its end, and it isn't confirmed",
        ], f"call {at}, {last}: {desk.words(device.name)}"
    return was_killed, is_updated


@pytest.mark.skipif(os.uname().machine != "x86_64", reason="kill_at_call.py knows x86-64's calls")
@pytest.mark.parametrize("who", ["all", "client"])
def test_a_kill_at_each_call_that_leaves_something_behind(
    desk, topology, device, client, who, tmp_path
):
    listed = device.folder / "calls"
    assert device.run(*traced(0, who, listed, client)).returncode == 0
    is_updated(desk, device)
    calls = listed.read_text().splitlines()
    steps = range(1, len(calls) + 1, EACH)
    names = desk.offer(len(steps), b"one" * 1000, b"two" * 2000)
    devices = [Device(tmp_path, it, client, topology.port) for it in names]
    with ThreadPoolExecutor(AT_ONCE) as pool:
        made = [pool.submit(kill_and_go_on, desk, one, at, who) for at, one in zip(steps, devices)]
        ended = [it.result() for it in made]
    killed, updated = (sum(it) for it in zip(*ended))
    print(f"{killed} kills at {len(steps)} of {len(calls)} calls, {updated} updated")
    # a client that waited for a reply longer than the others may have a call more or less
    assert killed >= len(steps) - 1 and updated > len(steps) // 2
