"""fwdesk-setup and the package's upgrades, each in a fresh Debian 12 under systemd.

    FWDESK_PROGRAM=PATH python3 -m pytest tests/e2e/package      as root; some minutes

It needs debootstrap and systemd-container, once the network, and debhelper."""
import os
import re
import subprocess
import time

import pytest
from harness.debian_machine import exposure

from .machines import NAME, PROGRAM, ROOT, Packages, Server, make_root_with_more

pytestmark = [
    pytest.mark.skipif(os.geteuid() != 0, reason="systemd-nspawn is for root alone"),
    pytest.mark.skipif(not PROGRAM.is_file(), reason=f"{PROGRAM} isn't there"),
]
OWN = "/etc/fwdesk/haproxy.d"
# all that a set-up writes, but for what HAProxy and systemd keep of their own
WRITTEN = "find /etc /var/lib/fwdesk-proxy /var/lib/fwdesk-brake -type f -newer /tmp/mark 2> /dev/null; true"
FLEET = b"controllerid,name,token,tags\npump-1,Pump 1,tok-pump-1,lab\n"


@pytest.fixture(scope="session")
def packages(tmp_path_factory):
    return Packages(tmp_path_factory.mktemp("packages"))


@pytest.fixture
def server(packages):
    with Server(share=packages.folder) as machine:
        machine.gives(f"echo '127.0.0.1 {NAME}' >> /etc/hosts")
        yield machine


@pytest.fixture
def ready(server, packages):
    """A server that is set up; its login."""
    server.install(packages.now)
    server.login = f"anna:{server.sets_up()}"
    return server


def test_from_the_package_to_an_updated_device(server, packages, capsys):
    """By apt, and then by the package's own test, debian/tests/serves, as autopkgtest runs it."""
    server.gives("echo '127.0.0.1 localhost' >> /etc/hosts")
    install = "DEBIAN_FRONTEND=noninteractive apt-get install -y --no-install-recommends"
    seconds = []
    for it in (packages.now, packages.device):
        began = time.monotonic()
        server.gives(f"{install} /media/{it.name}")
        seconds.append(f"{(time.monotonic() - began) * 1000:.0f} ms: apt-get install {it.name}")
    script = (ROOT / "debian/tests/serves").read_bytes()
    told = server.gives("cat > /tmp/serves; sh /tmp/serves", script)
    with capsys.disabled():
        print("", *seconds, *re.findall(r"^\d+ ms: .*", told, re.M), sep="\n")


def test_autopkgtest_passes(packages):
    """As Debian runs debian/tests, on a machine that is thrown away: so what asks for one is granted."""
    with Server(root=make_root_with_more(), share=packages.folder) as machine:
        machine.gives("echo '127.0.0.1 localhost' >> /etc/hosts")
        packed = ["tar", "-C", str(ROOT), "-cz", "debian"]
        source = subprocess.run(packed, stdout=subprocess.PIPE, check=True).stdout
        machine.gives("mkdir /srv/source && tar -C /srv/source -xz", source)
        debs = f"/media/{packages.now.name} /media/{packages.device.name}"
        granted = "--ignore-restrictions=isolation-machine,breaks-testbed"
        told = machine.gives(f"autopkgtest -B {granted} {debs} /srv/source/ -- null 2>&1")
        assert re.search(r"(?m)^serves +PASS$", told), told[-2000:]


def test_the_edge_is_confined(ready):
    """As the HAProxy before the desk is. That it serves so is what the tests here look at."""
    assert exposure(ready, "haproxy.service") < 4


def test_again_it_changes_nothing(ready):
    before = ready.processes()
    ready.gives("sleep 1; touch /tmp/mark; sleep 0.1")
    told = ready.gives(f"fwdesk-setup {NAME}")
    assert "nothing had to be changed" in told and "password" not in told
    assert ready.gives(WRITTEN) == "" and ready.processes() == before
    ready.serves(ready.login)
    assert ready.gives("fwdesk-setup --check") == "valid, and well as seen from outside"


def test_another_port_and_another_name(ready):
    authority = ready.gives("cat /etc/fwdesk/ca.crt")
    ready.gives("echo 127.0.0.1 other.example >> /etc/hosts")
    link = lambda: ready.gives("systemctl show -p Environment --value fwdesk-console")
    assert f"FWDESK_LINK=https://{NAME}:8443/page/ " in f"{link()} ", link()
    assert "done" in ready.gives("fwdesk-setup other.example --port 443")
    assert "FWDESK_LINK=https://other.example/page/ " in f"{link()} ", "messages lead elsewhere"
    ask = "curl -sS --cacert /etc/fwdesk/ca.crt -o /dev/null -w '%{http_code}' https://other.example/page/"
    assert ready.gives(f"{ask} -u {ready.login}") == "200"
    # devices that trust the authority stay as they are
    assert ready.gives("cat /etc/fwdesk/ca.crt") == authority


def test_secrets_are_their_owners_alone(ready):
    modes = "stat -c '%a %U %G %n' /etc/fwdesk/ca.key /etc/fwdesk/server.key /etc/fwdesk/server.pem"
    assert {it.rsplit(" ", 1)[0] for it in ready.gives(modes).splitlines()} == {"600 root root"}
    modes = f"stat -c '%a %U %G' {OWN}/20-operators.cfg {OWN}/operators.map"
    assert ready.gives(modes).splitlines() == ["640 root haproxy"] * 2
    password = ready.login.partition(":")[2]
    assert ready.does(f"grep -rl {password} /etc /var/lib /run /var/log")[1] == ""


def test_a_certificate_that_is_there(server, packages):
    server.install(packages.now)
    server.gives(
        "openssl req -x509 -newkey ec -pkeyopt ec_paramgen_curve:prime256v1 -nodes -days 30 -subj /CN=x "
        f"-addext subjectAltName=DNS:{NAME} -keyout /srv/key -out /srv/crt; cp /srv/crt /usr/local/share/ca-certificates/; "
        "cp /srv/crt /etc/ssl/certs/ca-certificates.crt; openssl rehash /etc/ssl/certs 2> /dev/null; true"
    )
    assert server.does("fwdesk-setup other.example --certificate /srv/crt --key /srv/key")[0] == 2
    assert server.does(f"fwdesk-setup {NAME} --certificate /srv/crt")[0] == 2
    told = server.gives(f"fwdesk-setup {NAME} --certificate /srv/crt --key /srv/key")
    assert "trust" not in told
    before = server.processes()
    assert "nothing had to be changed" in server.gives(f"fwdesk-setup {NAME}")
    # a renewal is taken over, by a reload
    server.gives(
        "openssl req -x509 -key /srv/key -days 60 -subj /CN=x "
        f"-addext subjectAltName=DNS:{NAME} -out /srv/crt; fwdesk-setup --renewed"
    )
    served = f"openssl s_client -connect 127.0.0.1:8443 -servername {NAME} < /dev/null 2> /dev/null"
    serial = "openssl x509 -noout -serial"
    wanted = server.gives(f"{serial} -in /srv/crt")
    assert server.until(lambda: server.does(f"{served} | {serial}")[1] == wanted, 30)
    assert server.processes() == before


# pebble, an ACME server for tests: it looks at port 80 of the name that a certificate is asked for
PEBBLE = b"""
cd /srv
openssl req -x509 -newkey ec -pkeyopt ec_paramgen_curve:prime256v1 -nodes -days 30 -subj /CN=localhost \\
  -addext subjectAltName=DNS:localhost -keyout acme.key -out acme.crt
cat > pebble.json << END
{"pebble": {"listenAddress": "127.0.0.1:14000", "managementListenAddress": "127.0.0.1:15000", "httpPort": 80,
  "tlsPort": 443, "certificate": "/srv/acme.crt", "privateKey": "/srv/acme.key"}}
END
systemd-run --unit=pebble -E PEBBLE_VA_NOSLEEP=1 -E PEBBLE_WFE_NONCEREJECT=0 pebble -config /srv/pebble.json
for _ in $(seq 100); do
  curl -sf --cacert acme.crt https://localhost:15000/roots/0 > /usr/local/share/ca-certificates/pebble.crt && break
  sleep 0.1
done
update-ca-certificates
printf 'server = https://localhost:14000/dir\nno-verify-ssl = true\n' >> /etc/letsencrypt/cli.ini
"""


def test_a_certificate_of_acme_and_its_renewal(packages):
    with Server(root=make_root_with_more(), share=packages.folder) as machine:
        machine.gives(f"echo '127.0.0.1 localhost {NAME}' >> /etc/hosts")
        machine.install(packages.now)
        # certbot serves port 80 itself
        machine.gives("systemctl disable --now nginx")
        machine.gives("bash -s", PEBBLE)
        told = machine.gives(f"fwdesk-setup {NAME} --acme you@example.org")
        assert "trust" not in told, told
        password = re.search(r"password (\S+)", told)[1]
        machine.ASK = machine.ASK.replace("--cacert /etc/fwdesk/ca.crt", "")
        machine.serves(f"anna:{password}")
        before = machine.processes()
        assert "nothing had to be changed" in machine.gives(f"fwdesk-setup {NAME}")
        served = (
            f"openssl s_client -connect 127.0.0.1:8443 -servername {NAME} < /dev/null 2> /dev/null"
        )
        serial = lambda: machine.does(f"{served} | openssl x509 -noout -serial -issuer")[1]
        first = serial()
        assert "Pebble" in first, first
        # as certbot.timer does, but at once
        machine.gives("certbot renew --force-renewal --no-random-sleep-on-renew 2>&1")
        newest = f"openssl x509 -noout -serial -issuer -in /etc/letsencrypt/live/{NAME}/cert.pem"
        assert machine.until(lambda: serial() == machine.gives(newest) != first, 30), serial()
        assert machine.processes() == before, "it is taken over by a reload"
        machine.serves(f"anna:{password}")
        # somebody who takes port 80 later is told of before the certificate ends
        assert machine.gives("fwdesk-setup --check") == "valid, and well as seen from outside"
        machine.gives("systemctl start nginx")
        status, told = machine.does("fwdesk-setup --check")
        assert status == 1 and "needs port 80" in told and "nginx (process" in told, told


def test_acme_beside_a_web_server_on_port_80(packages):
    """What is in the way is told before anything is changed, with two commands that do."""
    with Server(root=make_root_with_more(), share=packages.folder) as machine:
        machine.gives(f"echo '127.0.0.1 localhost {NAME}' >> /etc/hosts")
        machine.install(packages.now)
        assert machine.gives("systemctl is-active nginx") == "active"
        machine.gives("sleep 1; touch /tmp/mark")
        before = machine.gives("systemctl show -p MainPID haproxy nginx")
        status, told = machine.does(f"fwdesk-setup {NAME} --acme you@example.org")
        assert status == 2 and "nginx (process" in told and "Nothing was changed" in told, told
        assert machine.gives(WRITTEN) == ""
        assert machine.gives("systemctl show -p MainPID haproxy nginx") == before
        assert machine.does("test -e /etc/letsencrypt/live")[0] == 1, "certbot was asked"
        ask, use = re.findall(r"^    (.*)", told, re.M)
        machine.gives("bash -s", PEBBLE)
        answers = "--non-interactive --agree-tos -m you@example.org"
        machine.gives(f"{ask} {answers} 2>&1")
        password = re.search(r"password (\S+)", machine.gives(use))[1]
        machine.ASK = machine.ASK.replace("--cacert /etc/fwdesk/ca.crt", "")
        machine.serves(f"anna:{password}")
        first = machine.gives("cat /etc/fwdesk/server.crt")
        machine.gives("certbot renew --force-renewal --no-random-sleep-on-renew 2>&1")
        newest = machine.gives(f"cat /etc/letsencrypt/live/{NAME}/fullchain.pem")
        assert machine.gives("cat /etc/fwdesk/server.crt") == newest != first
        assert machine.gives("fwdesk-setup --check") == "valid, and well as seen from outside"
        assert machine.gives("systemctl is-active nginx") == "active"


@pytest.mark.parametrize(
    "made, words",
    [
        ("echo '# mine' >> /etc/haproxy/haproxy.cfg", "/etc/haproxy/haproxy.cfg isn't the one"),
        ("echo EXTRAOPTS=-de >> /etc/default/haproxy", "/etc/default/haproxy tells HAProxy"),
        (
            "install -d /etc/systemd/system/haproxy.service.d; printf '[Service]\\nEnvironment=CONFIG=/srv/x\\n' "
            "> /etc/systemd/system/haproxy.service.d/mine.conf",
            "mine.conf: HAProxy serves",
        ),
    ],
)
def test_somebody_elses_proxy_is_refused(server, packages, made, words):
    server.install(packages.now)
    server.gives(made)
    server.gives("sleep 1; touch /tmp/mark")
    before = server.gives("systemctl show -p MainPID haproxy")
    status, told = server.does(f"fwdesk-setup {NAME}")
    assert status == 2 and words in told, told
    assert (
        server.gives(WRITTEN) == "" and server.gives("systemctl show -p MainPID haproxy") == before
    )


@pytest.mark.parametrize("name", ["a b", "-x.example", "desk_example", "x" * 64 + ".example"])
def test_a_name_that_is_none_is_refused(server, packages, name):
    server.install(packages.now)
    assert server.does(f"fwdesk-setup -- '{name}'")[0] == 2
    assert server.gives("ls /etc/fwdesk") == "console.toml"


def test_an_upgrade_brings_page_and_proxy(ready, packages):
    assert ready.status("/page/later.js", ready.login) == "404"
    ready.install(packages.other_page)
    ready.serves(ready.login)
    assert ready.status("/page/later.js", ready.login) == "200"
    assert ready.status("/page/tags.js", ready.login) == "404"
    ready.gives("systemctl restart haproxy haproxy-desks")
    ready.serves(ready.login)
    # and back
    ready.install(packages.now)
    ready.serves(ready.login)
    assert ready.status("/page/tags.js", ready.login) == "200"


def test_an_upgrade_that_is_not_valid_leaves_the_proxy_as_it_was(ready, packages):
    before = ready.processes()
    told = ready.install(packages.broken)
    assert "HAProxy goes on with the parts of before" in told and "unheard" in told, told
    assert ready.processes() == before
    ready.gives("systemctl restart haproxy haproxy-desks")
    ready.serves(ready.login)
    assert ready.status("/page/tags.js", ready.login) == "200"
    assert ready.does("fwdesk-setup --upgrade")[0] == 1
    # operators are checked with the parts that HAProxy reads, which are those of before
    password = ready.gives("fwdesk-ctl operator add ben --may look")
    ben = lambda: ready.status("/rest/v1/targets", f"ben:{password}")
    assert ready.until(lambda: ben() == "200", 30), ben()
    ready.install(packages.other_page)
    assert ready.status("/page/later.js", ready.login) == "200"


def test_an_upgrade_over_a_broken_part_of_the_operators(ready, packages):
    ready.gives(f"echo 'unheard of' > {OWN}/30-mine.cfg")
    before = ready.processes()
    told = ready.install(packages.other_page)
    assert f"nor are those of before with {OWN}" in told and "30-mine.cfg" in told, told
    assert ready.processes() == before
    ready.serves(ready.login)
    assert ready.does("fwdesk-setup --check")[0] == 1
    ready.gives(f"rm {OWN}/30-mine.cfg; fwdesk-setup --upgrade")
    ready.serves(ready.login)
    assert ready.status("/page/later.js", ready.login) == "200"


def test_back_to_the_package_of_before(ready, packages):
    ready.install(packages.earlier)
    ready.serves(ready.login)
    ready.gives("systemctl daemon-reload; systemctl restart haproxy-desks haproxy")
    ready.serves(ready.login)
    ready.install(packages.now)
    ready.serves(ready.login)


BY_HAND = """
install -d -m 755 /etc/fwdesk
openssl req -x509 -newkey ec -pkeyopt ec_paramgen_curve:prime256v1 -nodes -days 3650 -subj /CN=desk.example \
  -addext subjectAltName=DNS:desk.example -keyout /etc/fwdesk/server.key -out /etc/fwdesk/server.crt
(umask 077; cat /etc/fwdesk/server.crt /etc/fwdesk/server.key > /etc/fwdesk/server.pem)
install -d /var/lib/fwdesk-brake && touch /var/lib/fwdesk-brake/held.map
install -m 640 /usr/share/doc/fwdesk/examples/haproxy.cfg /etc/haproxy/haproxy.cfg
sed -i "s|@PASSWORD@|$(openssl passwd -6 secret)|" /etc/haproxy/haproxy.cfg
sed -i "s|^    user anna.*|&\\n    user ben password $(openssl passwd -6 word-of-ben)|" /etc/haproxy/haproxy.cfg
sed -i "s|^.*set-var-fmt(txn.may).*anna.*|&\\n    http-request set-var-fmt(txn.may) look if { http_auth_user ben }|" /etc/haproxy/haproxy.cfg
systemctl restart haproxy
systemctl enable --now fwdesk-brake.socket
"""


@pytest.fixture
def by_hand(server, packages):
    """A server of 1.0.0, whose proxy was set up by the page of then, with two operators."""
    server.install(packages.earlier)
    server.gives(BY_HAND)
    server.ASK = server.ASK.replace("ca.crt", "server.crt")
    server.login = "anna:secret"
    server.serves(server.login)
    return server


def test_an_upgrade_from_a_proxy_that_was_set_up_by_hand(by_hand, packages):
    told = by_hand.install(packages.other_page)
    assert f"    fwdesk-setup {NAME}" in told, told
    for _ in range(2):
        # the page of before, and all that the copied configuration names
        by_hand.serves(by_hand.login)
        assert by_hand.status("/page/tags.js", by_hand.login) == "200"
        by_hand.gives("systemctl reload haproxy && sleep 2 && systemctl restart haproxy")
    by_hand.gives("fwdesk-brake hold --reason 'it burns'")
    assert "it burns" in by_hand.text("/fwdesk/brake", by_hand.login)
    certificate = by_hand.gives("cat /etc/fwdesk/server.crt")
    # by the command that was told
    told = by_hand.gives(f"fwdesk-setup {NAME}")
    assert "password" not in told
    by_hand.serves(by_hand.login)
    assert by_hand.status("/page/later.js", by_hand.login) == "200"
    assert by_hand.gives("cat /etc/fwdesk/server.crt") == certificate, "devices have it"
    assert "it burns" in by_hand.text("/fwdesk/brake", by_hand.login)
    assert '"may":"look"' in by_hand.text("/fwdesk/me", "ben:word-of-ben")
    assert by_hand.status("/rest/v1/rollouts/1/start", "ben:word-of-ben", "-X POST") == "403"
    assert (
        by_hand.gives(
            "curl -s -o /dev/null -w '%{http_code}' http://127.0.0.1:8081/rest/v1/targets"
        )
        == "200"
    )
    assert "nothing had to be changed" in by_hand.gives(f"fwdesk-setup {NAME}")
    # and back: as it was by hand
    by_hand.gives("fwdesk-setup --undo")
    by_hand.serves(by_hand.login)
    assert by_hand.status("/page/tags.js", by_hand.login) == "200"


def test_what_was_changed_in_a_copied_configuration_is_not_lost_unsaid(by_hand, packages):
    by_hand.gives(
        "sed -i 's/timeout queue 30s/timeout queue 40s/' /etc/haproxy/haproxy.cfg; systemctl restart haproxy"
    )
    by_hand.install(packages.now)
    status, told = by_hand.does(f"fwdesk-setup {NAME}")
    assert status == 2 and "timeout queue 40s" in told, told
    by_hand.serves(by_hand.login)
    by_hand.gives(f"fwdesk-setup {NAME} --drop-changes")
    by_hand.serves(by_hand.login)


def test_a_port_that_is_taken(server, packages):
    server.install(packages.now)
    server.gives("systemd-run --unit=taken socat TCP-LISTEN:8443,fork,reuseaddr /dev/null")
    assert server.until(
        lambda: not server.does("ss -ltn 2> /dev/null | grep -q 8443 || true")[0], 10
    )
    status, told = server.does(f"fwdesk-setup {NAME}")
    assert status == 1 and "haproxy.service doesn't start" in told, told
    assert server.does("systemctl is-active haproxy")[1] == "active", "as its own package has it"
    assert server.does(f"test -e {OWN}/20-operators.cfg")[0], "a password that nobody was shown"
    server.gives("systemctl stop taken")
    server.login = f"anna:{server.sets_up()}"
    server.serves(server.login)


def test_the_door_for_hawkbits_devices(ready, packages):
    status, told = ready.does(f"fwdesk-setup {NAME} --hawkbit")
    assert status == 2 and "of the package fwdesk-hawkbit" in told, told
    # polls go past the service, whose libraries aren't here
    ready.gives(f"dpkg -i --force-depends /media/{packages.hawkbit.name} 2>&1")
    assert "done" in ready.gives(f"fwdesk-setup {NAME} --hawkbit")
    ask = ready.ASK.replace("8443", "8444") + " -o /dev/null -w '%{http_code}'"
    token = "-H 'Authorization: TargetToken nobody-0'"
    line = f"{ask} {token} https://{NAME}:8444/DEFAULT/controller/v1/nobody"
    assert ready.until(lambda: ready.does(line)[1] == "401", 30), ready.does(line)
    assert "nothing had to be changed" in ready.gives(f"fwdesk-setup {NAME} --hawkbit")
    ready.serves(ready.login)


# a device's polls, one after the other: each one's status and seconds
POLLS = f"""
(while test ! -e /tmp/enough; do
  {Server.ASK} -H 'Authorization: TargetToken tok-pump-1' -o /dev/null -w '%{{http_code}} %{{time_total}}\\n' \\
    https://{NAME}:8443/DEFAULT/controller/v1/pump-1
done; touch /tmp/polled) > /tmp/polls 2>&1 &
"""


def back_up_under_polls(machine) -> str:
    """Backs a machine up while a device polls all the time; tells for how long that stood still."""
    machine.gives(POLLS)
    assert machine.until(lambda: machine.does("grep -c 200 /tmp/polls")[1] not in ("", "0"), 30)
    told = machine.gives("fwdesk-ctl backup /srv/backup 2>&1; touch /tmp/enough")
    assert machine.until(lambda: machine.does("test -e /tmp/polled")[0] == 0, 60)
    polls = [it.split() for it in machine.gives("cat /tmp/polls").splitlines()]
    assert {it[0] for it in polls} == {"200"}, polls
    slowest = max(float(it[1]) for it in polls)
    return f"{told.splitlines()[-1]}; the slowest of {len(polls)} polls took {slowest:.3f} s"


def test_a_backup_is_restored_on_another_machine(packages, capsys):
    """Nobody is refused at the backup. At the second machine, where fwdesk-setup never ran, devices that trust the first
    one's authority come back, and operators, holds and rollouts are there."""
    hosts = f"echo '127.0.0.1 {NAME}' >> /etc/hosts"
    with Server(share=packages.folder) as first:
        first.gives(hosts)
        first.install(packages.now)
        login = f"anna:{first.sets_up()}"
        first.gives("cat > /tmp/fleet.csv", FLEET)
        ships = "fwdesk-ctl ship /etc/debian_version --name pump --version 2.1 --to tag==lab"
        first.gives(f"{ships} --devices /tmp/fleet.csv --canary '' --no-wait")
        told = back_up_under_polls(first)
        first.gives("fwdesk-ctl hold --reason 'it moves'; rm -r /srv/backup")
        first.gives("fwdesk-ctl backup /srv/backup")
        authority = first.gives("cat /etc/fwdesk/ca.crt").encode()
        backup = first.gives("tar -C /srv -czf - backup | base64 -w0").encode()
    with Server(share=packages.folder) as second:
        second.gives(hosts)
        second.install(packages.now)
        second.gives("base64 -d | tar -C /srv -xzf -", backup)
        second.gives("cat > /srv/pinned.crt", authority)
        second.ASK = second.ASK.replace("/etc/fwdesk/ca.crt", "/srv/pinned.crt")
        assert "restored: of " in second.gives("fwdesk-ctl restore /srv/backup")
        second.serves(login)
        device = "-H 'Authorization: TargetToken tok-pump-1'"
        poll = f"{second.ASK} {device} https://{NAME}:8443/DEFAULT/controller/v1/pump-1"
        assert "it moves" in second.text("/fwdesk/brake", login)
        assert "deploymentBase" not in second.gives(poll)
        second.gives("fwdesk-ctl release")
        assert "deploymentBase" in second.gives(poll)
        assert second.gives("fwdesk-setup --check") == "valid, and well as seen from outside"
        assert "nothing had to be changed" in second.gives(f"fwdesk-setup {NAME}")
        second.gives("systemctl restart haproxy haproxy-desks")
        second.serves(login)
    with capsys.disabled():
        print("", told, sep="\n")


def test_the_password_is_one_that_nobody_guesses(ready):
    password = ready.login.partition(":")[2]
    assert re.fullmatch(r"([a-z2-9]{5}-){3}[a-z2-9]{5}", password), password
