"""Both services as the package installs them, in a booted Debian 12: set up by the lines of the pages, a deployment from the
upload to the report, and what neither of them reaches. As root; left out where systemd-nspawn or debootstrap isn't there.

Its files are made once, in some minutes, by debootstrap, and then stay: /var/tmp/fwdesk-hawkbit-debian."""

import os
import re
import shutil
import subprocess
from pathlib import Path

import pytest

from . import stage
from harness.debian_machine import Debian, make_root

ROOT = Path("/var/tmp/fwdesk-hawkbit-debian")
NAME = "desk.example"
SERVICES = ("fwdesk-hawkbit", "fwdesk-hawkbit-manage")
# the status that a service's user is told at a socket of the proxy, or 000 where it can't connect
REACH = """
pid=$(systemctl show -p MainPID --value {unit}); uid=$(awk '/^Uid:/ {{ print $2 }}' /proc/$pid/status)
groups=$(awk '/^Groups:/ {{ $1 = ""; print }}' /proc/$pid/status | xargs | tr ' ' ,)
setpriv --reuid=$uid --regid=$uid --groups=$groups \\
  curl -s -o /dev/null -w '%{{http_code}}' --unix-socket /run/fwdesk/{socket} http://localhost{path} || true
"""


def lines_of(page, after, has):
    """The commands of a page: the indented block behind these words that has this one."""
    text = (stage.ROOT / "docs" / page).read_text(encoding="utf-8").partition(after)[2]
    blocks = re.findall(r"(?m)(?:^    .*\n)+", text)
    return next(it for it in blocks if has in it).replace("\n    ", "\n")[4:]


class Machine(Debian):
    """The booted Debian with the package, set up, and its operator's password."""

    def set_up(self):
        self.gives(f"echo '127.0.0.1 {NAME} localhost' >> /etc/hosts; dpkg -i /media/fwdesk_*.deb")
        for door in ("--hawkbit", "--hawkbit-manage"):
            status, told = self.does(f"fwdesk-setup {NAME} {door}")
            assert status == 2 and "fwdesk-hawkbit" in told, told
        self.gives("dpkg -i /media/fwdesk-hawkbit_*.deb")
        told = self.gives(f"fwdesk-setup {NAME} --hawkbit")
        self.login = f"anna:{re.search(r'password ([^ ]+)', told)[1]}"
        lines = lines_of("HAWKBIT.md", "## A pipeline", "fwdesk-setup")
        install = "apt install ./fwdesk-hawkbit_1.0.0-1_all.deb"
        assert lines == f"{install}\nfwdesk-setup {NAME} --hawkbit-manage\n"
        told = self.gives(lines.partition("\n")[2])
        assert f"hawkBit   https://{NAME}:8445 " in told and "done" in told.splitlines()

    def asks(self, method, path, *more):
        """What a pipeline is answered."""
        words = f"curl -sk --fail-with-body -u {self.login} -X {method} {' '.join(more)}"
        return self.gives(f"{words} https://{NAME}:8445/rest/v1/{path}")

    def device(self, rest="", *more):
        """What the device is answered."""
        token = f"-H 'Authorization: TargetToken {self.token}'"
        place = f"https://{NAME}:8444/DEFAULT/controller/v1/dev-01{rest}"
        return self.gives(f"curl -sk {token} {' '.join(more)} {place}")

    def reaches(self, unit, socket, path="/rest/v1/rollouts"):
        return self.gives(REACH.format(unit=unit, socket=socket, path=path))


@pytest.fixture(scope="module")
def machine(tmp_path_factory):
    lacks = [it for it in ("systemd-nspawn", "debootstrap", "dh") if not shutil.which(it)]
    if lacks or os.geteuid() != 0:
        pytest.skip(f"needs root, and {', '.join(lacks) or 'nothing else'}")
    folder = tmp_path_factory.mktemp("debs")
    words = [stage.ROOT / "tools/package", "--out", folder, "--program", stage.PROGRAM, "--quick"]
    subprocess.run([str(it) for it in words], check=True, stdout=subprocess.DEVNULL)
    make_root(ROOT)
    with Machine(ROOT, folder) as made:
        made.set_up()
        yield made


JSON = "-H 'Content-Type: application/json'"


def test_a_deployment_through_both_services(machine):
    machine.gives("head -c 5000000 /dev/urandom > /root/big.swu")
    machine.asks(
        "POST", "softwaremodules", JSON, """-d '[{"name":"m","type":"os","version":"1"}]'"""
    )
    machine.asks("POST", "softwaremodules/1/artifacts", "-F file=@/root/big.swu")
    row = """-d '[{"name":"s","version":"1","modules":[{"id":1}]}]'"""
    machine.asks("POST", "distributionsets", JSON, row)
    told = machine.asks("POST", "targets", JSON, """-d '[{"controllerId":"dev-01"}]'""")
    machine.token = re.search(r'"securityToken": "([0-9a-f]{32})"', told)[1]
    assigned = machine.asks(
        "POST", "distributionsets/1/assignedTargets", JSON, """-d '[{"id":"dev-01"}]'"""
    )
    assert '"assigned": 1' in assigned
    assert "deploymentBase/1" in machine.device()
    assert '"size": 5000000' in machine.device("/deploymentBase/1")
    machine.device("/softwaremodules/1/artifacts/big.swu", "-o /root/got")
    machine.gives("cmp /root/got /root/big.swu")
    ended = """-d '{"status":{"execution":"closed","result":{"finished":"success"}}}'"""
    machine.device("/deploymentBase/1/feedback", JSON, ended)
    assert '"id": 1' in machine.asks("GET", "targets/dev-01/installedDS")
    assert '"id": "1"' in machine.device("/installedBase/1")


@pytest.mark.parametrize("unit", SERVICES)
def test_neither_service_reaches_more_than_its_ways(machine, unit):
    machine.gives(f"systemctl start {unit}")
    assert machine.reaches(unit, "edge.sock") == "000", "the machine's own way in"
    assert machine.reaches(unit, "hawkbit.sock") == "403"
    assert machine.reaches(unit, "hawkbit.sock", "/rest/v1/targets/nobody") == "404"
    assert machine.reaches(unit, "devices.sock") == "404"
    assert machine.reaches(unit, "hawkbit-manage.sock") == "401"


@pytest.mark.parametrize("unit", SERVICES)
def test_each_unit_is_as_systemd_wants_it(machine, unit):
    told = machine.does(f"systemd-analyze verify {unit}.service {unit}.socket")[1]
    # this Debian has no manual pages
    said = [it for it in told.splitlines() if unit in it and "man fwdesk(8)" not in it]
    assert said == []
    status = machine.gives(
        f"grep -E '^(CapEff|NoNewPrivs|Seccomp):' /proc/$(systemctl show -p MainPID --value {unit})/status"
    )
    assert status.split() == ["CapEff:", "0" * 16, "NoNewPrivs:", "1", "Seccomp:", "2"]


def test_what_is_done_by_the_services_is_in_the_audit_by_name(machine):
    audit = machine.gives("journalctl -u haproxy -g audit --no-pager -o cat").splitlines()
    assert 'audit 200 unix "anna" POST /rest/v1/rollouts/1/start' in audit
    assert 'audit 403 unix "fwdesk-hawkbit" GET /rest/v1/rollouts' in audit


def test_registration_is_switched_on_by_the_lines_of_the_page(machine):
    machine.gives("umask 077; openssl rand -hex 32 > /etc/fwdesk/hawkbit.token")
    folder = "/etc/systemd/system/fwdesk-hawkbit.service.d"
    drop_in = lines_of("DEVICES.md", "## Switches", "LoadCredential")
    drop_in = drop_in.replace("%d/token", "%d/token --register")
    machine.gives(f"mkdir -p {folder}; cat > {folder}/own.conf", drop_in.encode())
    machine.gives("systemctl daemon-reload && systemctl restart fwdesk-hawkbit")
    ask = "curl -sk -o /dev/null -w '%{http_code}' -H \"Authorization: GatewayToken $(cat /etc/fwdesk/hawkbit.token)\""
    place = f"https://{NAME}:8444/DEFAULT/controller/v1/new-01"
    assert machine.gives(f"{ask} {place}") == "503", "the proxy lets no registration by"
    machine.gives(
        "printf 'global\\n    setenv FWDESK_HAWKBIT_REGISTERS 1\\n' >> /etc/fwdesk/haproxy.d/10-own.cfg"
    )
    machine.gives("fwdesk-setup --check && systemctl reload haproxy")
    assert machine.until(lambda: machine.gives(f"{ask} {place}") == "200", 20)
    assert '"new-01"' in machine.asks("GET", "targets/new-01")


WRITTEN = (
    "find /etc/fwdesk /etc/systemd/system /var/lib/fwdesk-proxy -newer /tmp/mark 2> /dev/null; true"
)


def port(machine, number):
    """The status at a port of the proxies without a login, or 000 where nobody listens."""
    ask = (
        f"curl -sk -o /dev/null -w '%{{http_code}}' https://{NAME}:{number}/rest/v1/targets || true"
    )
    return machine.gives(ask)


def test_a_second_set_up_of_both_doors_changes_nothing(machine):
    machine.gives("sleep 1; touch /tmp/mark; sleep 0.1")
    told = machine.gives(f"fwdesk-setup {NAME} --hawkbit --hawkbit-manage")
    assert "nothing had to be changed" in told and "password" not in told, told
    assert machine.gives(WRITTEN) == ""
    assert machine.gives("fwdesk-setup --check") == "valid, and well as seen from outside"
    assert machine.gives("stat -c '%a %U' /etc/fwdesk/hawkbit.key") == "600 root"


def test_the_door_of_pipelines_alone_is_shut_by_the_lines_of_the_page(machine):
    machine.gives(lines_of("HAWKBIT.md", "To shut this door alone", "15-hawkbit-manage.cfg"))
    assert (port(machine, 8445), port(machine, 8443)) == ("000", "401")
    assert machine.does("systemctl is-active fwdesk-hawkbit-manage.socket")[1] == "inactive"


def test_a_port_that_is_taken_leaves_all_as_it_was(machine):
    key = machine.gives("cat /etc/fwdesk/hawkbit.key")
    taken = "import socket, time; it = socket.create_server(('', 8445)); time.sleep(999)"
    machine.gives(f'systemd-run -q --unit=taken python3 -c "{taken}"')
    assert machine.until(lambda: machine.does("ss -ltn | grep -q ':8445 '")[0] == 0, 20)
    status, told = machine.does(f"fwdesk-setup {NAME} --hawkbit-manage")
    assert status == 1 and "is as before again" in told, told
    assert machine.does("test -e /etc/fwdesk/haproxy.d/15-hawkbit-manage.cfg")[0] == 1
    assert machine.does("systemctl is-enabled fwdesk-hawkbit-manage.socket")[1] == "disabled"
    assert port(machine, 8443) == "401"
    machine.gives("systemctl stop taken")
    assert "done" in machine.gives(f"fwdesk-setup {NAME} --hawkbit-manage").splitlines()
    assert machine.gives("cat /etc/fwdesk/hawkbit.key") == key
    assert '"dev-01"' in machine.asks("GET", "targets/dev-01")


def test_undo_shuts_both_doors(machine):
    assert [port(machine, it) for it in (8443, 8444, 8445)] == ["401", "404", "401"]
    machine.gives("fwdesk-setup --undo")
    assert [port(machine, it) for it in (8443, 8444, 8445)] == ["000"] * 3
    units = " ".join(f"{it}.{kind}" for it in SERVICES for kind in ("socket", "service"))
    assert set(machine.does(f"systemctl is-active {units}")[1].split()) == {"inactive"}
    assert machine.does("test -e /etc/fwdesk/haproxy.d/15-hawkbit-manage.cfg")[0] == 1
    machine.gives("fwdesk-setup --undo")
    # the next set-up has the same key, so devices have the tokens that they had
    machine.gives(f"fwdesk-setup {NAME} --hawkbit --hawkbit-manage")
    assert [port(machine, it) for it in (8443, 8444, 8445)] == ["401", "404", "401"]
    shown = machine.asks("GET", "targets/dev-01")
    assert f'"securityToken": "{machine.token}"' in shown, shown
    assert "config" in machine.device()


def test_an_upgrade_goes_on_with_the_new_service_and_a_removal_ends_it(machine):
    machine.gives(f"systemctl start {' '.join(SERVICES)}")
    pids = lambda: machine.gives(f"systemctl show -p MainPID --value {' '.join(SERVICES)}").split()
    before = pids()
    machine.gives("dpkg -i /media/fwdesk-hawkbit_*.deb")
    assert len(set(before + pids())) == 4 and "0" not in pids(), "it runs, and is another process"
    assert '"dev-01"' in machine.asks("GET", "targets/dev-01")
    machine.gives("dpkg -r fwdesk-hawkbit")
    units = " ".join(f"{it}.{kind}" for it in SERVICES for kind in ("socket", "service"))
    assert "active" not in machine.does(f"systemctl is-active {units}")[1].split()
    assert port(machine, 8443) == "401", "the server and its proxy go on"
    assert port(machine, 8445) == "401"
