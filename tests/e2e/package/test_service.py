"""The package's service in a Debian 12 under systemd: installed, killed, restored, upgraded, removed. The tests go on in
the machine of the ones before them, in this order.

    FWDESK_PROGRAM=PATH python3 -m pytest tests/e2e/package/test_service.py      as root; five minutes"""
import hashlib
import json
import os
import re
import shutil
import subprocess

import pytest

from .machines import PROGRAM, ROOT, Server, package, repacked, said

pytestmark = [
    pytest.mark.skipif(os.geteuid() != 0, reason="systemd-nspawn is for root alone"),
    pytest.mark.skipif(not PROGRAM.is_file(), reason=f"{PROGRAM} isn't there"),
]
# Where the proxy runs the way of this machine through it: before the server the proxy's one connection is kept, by the looks of the
# console too, and who asks beside it waits
ASK_SCRIPT = b"""#!/bin/sh
path=$1
shift
near=/run/fwdesk/edge.sock
if systemctl -q is-active haproxy-desks && [ -S "$near" ]; then set -- --unix-socket "$near" "$@"; fi
exec curl -sS --max-time 60 "http://127.0.0.1:8080$path" "$@"
"""
ASK = "sh /tmp/ask "
MODULES = "/rest/v1/softwaremodules"
STATE = "/var/lib/private/fwdesk"
BOTH = f"{STATE}/desk.db {STATE}/desk.db-wal"


@pytest.fixture(scope="module")
def built(tmp_path_factory):
    """The package, in the folder that the machine has."""
    return package.make(PROGRAM, tmp_path_factory.mktemp("package"), "1.0.0-1", quick=True)[0]


@pytest.fixture(scope="module")
def debian(built):
    with Server(share=built.parent) as machine:
        machine.gives("cat > /tmp/ask", ASK_SCRIPT)
        yield machine


def serves(debian):
    """Waits until the service answers."""
    ask = f"{ASK}{MODULES} -f -o /dev/null"
    log = "journalctl -u fwdesk -n 20"
    assert debian.until(lambda: debian.does(ask)[0] == 0, 60), debian.does(log)[1]


def add(debian, version):
    """Adds a module, which is acknowledged."""
    body = f'[{{"name":"app","type":"os","version":"{version}"}}]'
    told = debian.gives(f"{ASK}{MODULES} -d '{body}'")
    assert f'"version":"{version}"' in told, told


def versions(debian):
    """The versions of the modules that are there."""
    return [it["version"] for it in json.loads(debian.gives(f"{ASK}{MODULES}"))["content"]]


def exposure(debian, unit):
    """What systemd says of how much a unit leaves to its program, from 0 to 10."""
    told = debian.gives(f"systemd-analyze security {unit} | tail -1")
    return float(told.rpartition(".service: ")[2].split()[0])


def restarts(debian):
    """How often systemd has started it again by itself."""
    return int(debian.gives("systemctl show fwdesk -p NRestarts --value"))


def test_it_is_installed_and_serves(debian, built):
    debian.install(built)
    assert debian.gives("systemctl is-enabled fwdesk") == "enabled"
    serves(debian)
    status, told = debian.does("fwdesk")
    assert status == 2 and "Usage: fwdesk" in told, told
    assert debian.gives("dpkg --verify fwdesk") == "", "its files aren't as they were packed"
    desk = "/var/lib/private/fwdesk/desk.db"
    assert debian.gives(f"sqlite3 file:{desk}?immutable=1 'PRAGMA page_size'") == "2048"
    assert debian.gives(f"stat -c %a {desk}") == "600"


def test_every_unit_is_installed_and_a_choice_is_disabled(debian):
    files = {it.name for it in (ROOT / "deploy/systemd").iterdir()}
    # (those of hawkBit's clients are another package's, of tests/e2e/hawkbit/test_units.py)
    files -= {it for it in files if it.startswith("fwdesk-hawkbit")}
    there = set(debian.gives("ls /lib/systemd/system").split())
    assert files <= there, files - there
    listed = debian.gives("systemctl list-unit-files --no-legend 'fwdesk*' 'haproxy-desks*'")
    enabled = {it.split()[0] for it in listed.splitlines() if it.split()[1] == "enabled"}
    assert enabled == {"fwdesk.service"}
    # the places of an installation by hand (programs of fleets' own lie in /usr/local/lib)
    by_hand = (
        "grep -rlE '/usr/local/s?bin/fwdesk' /lib/systemd/system/fwdesk* /usr/share/fwdesk; true"
    )
    assert debian.gives(by_hand) == ""


def test_it_keeps_to_its_unit(debian):
    """As a user of its own, without privileges, with its records for itself, and reaching nobody beside."""
    add(debian, "1")
    process = debian.gives("systemctl show fwdesk -p MainPID --value")
    told = debian.gives(f"cat /proc/{process}/status")
    assert "CapEff:\t0000000000000000" in told, told
    assert "NoNewPrivs:\t1" in told and "Seccomp:\t2" in told, told
    assert debian.gives(f"stat -c %u /proc/{process}") not in ("0", ""), "it runs as root"
    assert debian.gives(f"stat -c %a {STATE} {BOTH}").split() == ["700", "600", "600"]
    assert exposure(debian, "fwdesk.service") <= 1.1
    assert debian.gives("systemd-analyze verify --man=no fwdesk.service") == ""


def test_it_is_killed_and_comes_back(debian):
    add(debian, "2")
    debian.gives("systemctl kill --kill-who=main --signal=KILL fwdesk")
    assert debian.until(lambda: restarts(debian) == 1, 30), "systemd doesn't start it again"
    serves(debian)
    assert versions(debian) == ["1", "2"]


def test_files_are_put_back(debian):
    """Without their owner they aren't opened."""
    debian.gives(f"systemctl stop fwdesk && mkdir /srv/backup && cp {BOTH} /srv/backup/")
    debian.gives("systemctl start fwdesk")
    serves(debian)
    add(debian, "after the backup")
    debian.gives(f"systemctl stop fwdesk && mkdir /srv/before && mv {BOTH} /srv/before/")
    debian.gives(f"cp /srv/backup/desk.db /srv/backup/desk.db-wal {STATE}/")
    debian.gives("systemctl start fwdesk")
    assert debian.until(lambda: restarts(debian) > 0, 60), "it starts with files of somebody else"
    assert "open 4 store" in debian.gives("journalctl -u fwdesk -n 20")
    debian.gives(f"chown --reference={STATE} {BOTH}")
    serves(debian)
    assert versions(debian) == ["1", "2"]


def upload(debian, name):
    """Uploads 200,000 bytes, and gives the status."""
    debian.gives("test -s /tmp/part || head -c 200000 /dev/urandom > /tmp/part")
    path = f"{MODULES}/1/artifacts?filename={name}"
    words = f"{ASK}{path} --data-binary @/tmp/part -o /dev/null -w '%{{http_code}}'"
    return debian.does(words)[1][-3:]


def test_it_outlasts_a_full_disk(debian):
    """It is started again and again, and its journal says why; with room it serves by itself, with all that it acknowledged."""
    debian.gives(f"systemctl stop fwdesk && mkdir /srv/aside && mv {STATE}/* /srv/aside/")
    debian.gives(f"mount -t tmpfs -o size=1m,mode=700 tmpfs {STATE} && systemctl start fwdesk")
    serves(debian)
    add(debian, "1")
    kept, told = 0, ""
    while (told := upload(debian, f"{kept}.bin")) == "201":
        kept += 1
    assert told == "500" and kept, f"{told} after {kept} uploads"
    # five starts in a minute were the end of it once
    stands = lambda: upload(debian, "more.bin") != "201" and restarts(debian) > 6
    assert debian.until(stands, 170), f"{restarts(debian)} starts"
    serves(debian)
    journal = debian.gives("journalctl -u fwdesk -o cat -n 40")
    assert "fault 3 store" in journal, journal
    assert re.search(r"AVAIL USE% .*\n +0 100% rw,", journal), journal
    debian.gives(f"mount -o remount,size=10m {STATE}")
    assert debian.until(lambda: upload(debian, "room.bin") == "201", 60), "nothing is taken"
    listed = json.loads(debian.gives(f"{ASK}{MODULES}/1/artifacts"))["content"]
    names = sorted([*(f"{it}.bin" for it in range(kept)), "room.bin"])
    assert sorted(it["providedFilename"] for it in listed) == names
    debian.gives(f"systemctl stop fwdesk && mkdir /tmp/copy && cp {STATE}/* /tmp/copy/")
    assert (
        debian.gives(
            "test -s /tmp/copy/desk.db && fwdesk verify --db /tmp/copy/desk.db 2> /dev/null"
        )
        == "ok"
    )
    debian.gives(f"umount {STATE} && mv /srv/aside/* {STATE}/ && rm -r /srv/aside /tmp/copy")
    debian.gives("systemctl start fwdesk")
    serves(debian)


def test_it_outlasts_a_mount_that_is_late_or_read_only(debian):
    """Before a mount that comes late it makes no desk and waits; on one that is read-only it waits too."""
    debian.gives(
        "systemctl stop fwdesk && mkdir /srv/disk && mount -t tmpfs -o mode=700 tmpfs /srv/disk"
    )
    debian.gives(f"mv {STATE}/* /srv/disk/")
    folder = "/etc/systemd/system/fwdesk.service.d"
    debian.gives(
        f"mkdir {folder} && sed -n 's/^#\\(ExecStartPre=\\)/[Service]\\n\\1/p' /lib/systemd/system/fwdesk.service "
        f"> {folder}/late.conf && systemctl daemon-reload"
    )
    debian.gives("systemctl start --no-block fwdesk")
    assert debian.until(lambda: restarts(debian) > 1, 60), "it doesn't wait for its mount"
    assert debian.gives(f"ls {STATE}") == "", "a desk is made where the mount is to be"
    debian.gives(f"mount --bind /srv/disk {STATE}")
    serves(debian)
    assert versions(debian) == ["1", "2"]
    debian.gives("systemctl stop fwdesk && mount -o remount,ro /srv/disk")
    debian.gives("systemctl start --no-block fwdesk")
    assert debian.until(lambda: restarts(debian) > 1, 60), "it doesn't wait for a read-only disk"
    journal = debian.gives("journalctl -u fwdesk -o cat -n 20")
    assert "open 4 store" in journal and re.search(r"AVAIL USE% .*\n.* ro,", journal), journal
    debian.gives("mount -o remount,rw /srv/disk")
    serves(debian)
    assert versions(debian) == ["1", "2"]
    debian.gives(f"systemctl stop fwdesk && umount {STATE} && mv /srv/disk/* {STATE}/")
    debian.gives(f"umount /srv/disk && rmdir /srv/disk && rm -r {folder}")
    debian.gives("systemctl daemon-reload && systemctl start fwdesk")
    serves(debian)


def test_it_starts_a_rollout(debian):
    """Of a name with quotes, which the tests behind it look at."""
    put_one = '[{"controllerId":"dev-01","name":"Pump 1","securityToken":"tok-dev-01","tags":[]}]'
    half = {"condition": "THRESHOLD", "expression": "50"}
    rollout = {"name": 'a "quoted" \\ name', "distributionSetId": 1, "targetFilterQuery": "name==*"}
    rollout |= {"amountGroups": 1, "successCondition": half, "errorCondition": half}
    of_set = '[{"name":"s","version":"1","modules":[{"id":1}]}]'
    for path, body in (
        ("targets", put_one),
        ("distributionsets", of_set),
        ("rollouts", json.dumps(rollout)),
    ):
        debian.gives(f"{ASK}/rest/v1/{path} -f -d @-", body.encode())
    debian.gives(f"{ASK}/rest/v1/rollouts/1/start -f -X POST")


def test_its_command_line_steers_it(debian):
    direct = "fwdesk-ctl --url http://127.0.0.1:8080"
    told = debian.gives(f"{direct} module app 1 --type os --reuse --json")
    assert '"version": "1"' in told, told
    assert "fwdesk-ctl failed ROLLOUT" in debian.gives("fwdesk-ctl failed --help")
    status, told = debian.does("fwdesk-ctl --url http://127.0.0.1:9 rollouts")
    assert status == 6 and "cannot reach" in told, told


def test_its_proxy_tells_who_changed_what(debian):
    """And who was there, past a reload."""
    debian.login = f"anna:{debian.sets_up()}"
    device = "/DEFAULT/controller/v1/dev-01"
    assert debian.status("/rest/v1/rollouts/9/start", debian.login, "-X POST") == "404"
    assert debian.status("/rest/v1/targets", "anna:wrong") == "401"
    assert debian.status(device, more="-H 'Authorization: TargetToken tok-dev-01'") == "200"
    told = debian.gives("journalctl -u haproxy -o cat -g ^audit").splitlines()
    wanted = 'audit 404 127.0.0.1 "anna" POST /rest/v1/rollouts/9/start'
    assert wanted in told and 'audit 401 127.0.0.1 "anna" GET /rest/v1/targets' in told, told
    seen = "echo 'show table seen' | socat - /run/haproxy/admin.sock | "
    seen += "sed -n 's/.* key=dev-01 .*exp=\\([0-9]*\\) .*/\\1/p'"
    before = int(debian.gives(seen))
    assert 24 * 86400_000 - 60_000 < before <= 24 * 86400_000, before
    # within its first five seconds a process waits for the tables of the one before, and hands none on
    debian.gives("sleep 8; systemctl reload haproxy; sleep 3")
    after = int(debian.gives(seen))
    assert before - 60_000 < after < before - 1000, (before, after)


def test_it_tells_metrics(debian):
    """A text for Prometheus, by the console that fwdesk-setup has enabled."""
    told = "curl -fsS http://127.0.0.1:8407/metrics"
    is_counted = lambda: "fwdesk_targets 1" in debian.does(told)[1].splitlines()
    assert debian.until(is_counted, 90), debian.does(f"{told}; journalctl -u fwdesk-console -n 20")
    text = debian.gives(told)
    for line in (
        "fwdesk_orders_waiting 0",
        'fwdesk_rollout{rollout="1",name="a \\"quoted\\" \\\\ name",status="running"} 1',
        'fwdesk_group_targets{rollout="1",group="1",outcome="size"} 1',
    ):
        assert line in text.splitlines(), text
    if shutil.which("promtool"):
        checked = ["promtool", "check", "metrics"]
        subprocess.run(checked, input=f"{text}\n", text=True, check=True, stderr=subprocess.STDOUT)


def test_holds_outlast_restarts_and_kills(debian):
    """By a login through systemd's socket: who and why are told past a reload, restarts and kills, and in the journal."""
    reason = "/fwdesk/brake?reason=it%20burns"
    assert debian.status(reason, debian.login, "-X POST") == "200"
    asked = lambda: json.loads(
        debian.text("/fwdesk/brake", f"{debian.login} --retry 30 --retry-all-errors")
    )
    held = asked()["brake"]
    assert (held["who"], held["reason"]) == ("anna", "it burns"), held
    for what in (
        "reload haproxy",
        "restart haproxy",
        "restart haproxy-desks",
        "kill -s KILL haproxy-desks",
    ):
        debian.gives(f"systemctl {what}; sleep 3")
        assert asked()["brake"] == held, what
    log = debian.gives("journalctl -t fwdesk-brake -o cat")
    assert 'audit hold brake "anna" "it burns"' in log, log
    assert json.loads(debian.gives("fwdesk-brake release --who root"))["brake"] is None
    assert asked()["brake"] is None


def timers():
    """The timers that are a choice, and their services, but for those that tests of their own have."""
    names = sorted(it.stem for it in (ROOT / "deploy/systemd").glob("*.timer"))
    return [it for it in names if it == "fwdesk-follow"]


def was_started(debian, unit):
    """Whether its timer has started a service, and that has ended well."""
    at = debian.gives(f"systemctl show {unit}.timer -p LastTriggerUSecMonotonic --value")
    wanted = "ActiveState,Result,ExecMainExitTimestampMonotonic"
    told = debian.gives(f"systemctl show {unit} -p {wanted}")
    found = dict(it.split("=", 1) for it in told.splitlines())
    ended = int(found["ExecMainExitTimestampMonotonic"]) > 0
    return (
        at not in ("", "0")
        and found["ActiveState"] == "inactive"
        and found["Result"] == "success"
        and ended
    )


def test_each_timer_starts_its_service(debian):
    """A rollout for newcomers."""
    debian.gives(
        "printf 'controllerid,name,token,tags\\ndev-02,Yard,tok-dev-02,yard\\n' > /tmp/yard.csv"
    )
    debian.gives("fwdesk-ctl import /tmp/yard.csv")
    rule = "yard --filter tag==yard --set 1 --success 50 --error 50 --groups 1"
    debian.gives(f"echo '{rule}' > /etc/fwdesk/follow.rules")
    debian.gives("install -d /var/lib/systemd/timers")
    debian.gives("touch -d '2 days ago' /var/lib/systemd/timers/stamp-fwdesk-follow.timer")
    enabled = " ".join(f"{it}.timer" for it in timers())
    debian.gives(f"systemctl daemon-reload && systemctl enable --now {enabled}")
    for it in timers():
        seen = f"systemctl status {it}.timer; journalctl -u {it} -n 20"
        assert debian.until(lambda unit=it: was_started(debian, unit), 130), debian.does(seen)[1]
    assert "yard-1-1" in debian.gives("fwdesk-ctl rollouts --status running")
    debian.gives(f"systemctl disable --now {enabled}")
    debian.gives("rm /etc/fwdesk/follow.rules; systemctl daemon-reload")


def test_the_console_remembers_a_pause_and_tells_it_to_prometheus(debian):
    """As fwdesk-setup enables it, in its confinement, by what HAProxy's audit and the desk tell it."""
    assert debian.gives("systemctl is-enabled fwdesk-console.socket").strip() == "enabled"
    debian.gives("fwdesk-ctl pause 1")
    told = "curl -fsS http://127.0.0.1:8407/metrics"
    paused = lambda: 'rollout="1"' in debian.gives(f"{told} | grep paused || true")
    assert debian.until(paused, 60), debian.does("journalctl -u fwdesk-console -n 30")
    log = debian.gives("journalctl -u fwdesk-console -o cat")
    assert "was paused by somebody on the machine" in log, log
    unit = "systemctl show fwdesk-console -p MainPID --value"
    before = debian.gives(unit)
    debian.gives("systemctl kill --kill-whom=main -s KILL fwdesk-console")
    assert debian.until(lambda: debian.gives(unit) not in (before, "0"), 30)
    assert debian.until(paused, 60)
    assert exposure(debian, "fwdesk-console.service") <= 1.1
    # (a console that begins anew looks at devices and at the certificate some seconds later)
    texts = lambda: debian.gives(told).splitlines()
    for line in ('fwdesk_silent_targets{hours="24"} ', "fwdesk_up 1", "fwdesk_certificate_ends{"):
        is_there = lambda line=line: any(it.startswith(line) for it in texts())
        assert debian.until(is_there, 60), (line, texts())
    debian.gives("fwdesk-ctl resume 1")


def test_it_serves_each_connection_by_a_process(debian):
    """The units that start the program for each connection serve the same records."""
    debian.gives(
        "systemctl stop haproxy haproxy-desks fwdesk && systemctl start fwdesk-once.socket"
    )
    assert versions(debian) == ["1", "2"]
    assert exposure(debian, "fwdesk-once@1.service") <= 0.5
    debian.gives("systemctl stop fwdesk-once.socket")
    listed = "systemctl list-units --no-legend 'fwdesk-once@*'"
    debian.until(lambda: not debian.gives(listed), 60)
    debian.gives("systemctl start fwdesk haproxy-desks haproxy")
    serves(debian)


def another(built, version):
    """The package again, as another version."""
    return repacked(built, built.parent, version, lambda tree: None)


def test_an_upgrade_copies_the_desk_aside(debian, built):
    """Before it starts. A unit that was disabled stays so, and runs if it ran."""
    main = "systemctl show fwdesk -p MainPID --value"
    before = debian.gives(main)
    made = another(built, "1.0.1-1")
    apt = "DEBIAN_FRONTEND=noninteractive apt-get install -y --no-install-recommends"
    told = debian.gives(f"{apt} /media/{made.name}")
    assert "1 upgraded" in told, told
    serves(debian)
    assert debian.gives(main) != before, "it wasn't started anew"
    copies = debian.gives("ls /var/backups/fwdesk").split()
    modes = debian.gives(f"stat -c %a /var/backups/fwdesk /var/backups/fwdesk/{copies[0]}")
    assert len(copies) == 1 and modes.split() == ["700", "700"], copies
    assert copies[0].endswith("-of-1.0.0-1"), copies
    debian.gives(f"cp -r /var/backups/fwdesk/{copies[0]} /tmp/look")
    verified = "test -s /tmp/look/desk.db && fwdesk verify --db /tmp/look/desk.db 2> /dev/null"
    assert debian.gives(verified) == "ok"
    asked = b"GET /rest/v1/softwaremodules HTTP/1.1\r\nHost: localhost\r\n\r\n"
    line = "fwdesk run --db /tmp/look/desk.db --interface mgmt 2> /dev/null; rm -r /tmp/look"
    told = debian.gives(line, asked).splitlines()[-1]
    assert [it["version"] for it in json.loads(told)["content"]] == versions(debian) == ["1", "2"]
    debian.gives(f"systemctl disable fwdesk && dpkg -i /media/{another(built, '1.0.2-1').name}")
    assert debian.does("systemctl is-enabled fwdesk")[1] == "disabled"
    serves(debian)
    debian.gives("systemctl enable fwdesk")


def test_an_upgrade_without_room_for_the_copy_is_refused(debian, built):
    """What is there serves on; three copies are kept."""
    main, made = "systemctl show fwdesk -p MainPID --value", another(built, "1.0.3-1")
    before = debian.gives(main)
    debian.gives("mkdir /srv/small && mount -t tmpfs -o size=10m tmpfs /srv/small")
    debian.gives("mv /var/backups/fwdesk /srv/kept && ln -s /srv/small /var/backups/fwdesk")
    status, told = debian.does(f"dpkg -i /media/{made.name}")
    assert status and "fwdesk: no room in /var/backups/fwdesk for a copy" in told, told
    installed = debian.gives("dpkg-query -W -f '${Status} ${Version}' fwdesk")
    assert installed == "install ok installed 1.0.2-1"
    assert (
        debian.gives(main) == before and debian.gives("ls /srv/small") == ""
    ), "something was done"
    debian.gives("rm /var/backups/fwdesk && mv /srv/kept /var/backups/fwdesk && umount /srv/small")
    line = f"exec 3< {STATE}/desk.db; dpkg -i /media/{made.name} 2>&1 | grep 'another process has'"
    debian.gives(f"systemctl stop fwdesk && {line}; exec 3<&-")
    for version in ("1.0.4-1", "1.0.5-1", "1.0.6-1"):
        debian.gives(f"dpkg -i /media/{another(built, version).name} && sleep 1")
    kept = [it.partition("-of-")[2] for it in debian.gives("ls /var/backups/fwdesk").split()]
    assert kept == ["1.0.2-1", "1.0.4-1", "1.0.5-1"], kept
    debian.gives(f"dpkg -i /media/{built.name}")
    serves(debian)
    assert versions(debian) == ["1", "2"]


def test_it_is_removed_and_purged_and_its_records_stay(debian, built):
    """The next one serves them."""
    debian.gives("fwdesk-setup --undo && rm -r /etc/fwdesk && rmdir /etc/systemd/system/haproxy*.d")
    debian.gives("systemctl enable -q --now fwdesk-backup.timer")
    debian.gives("dpkg --remove fwdesk")
    running = "systemctl list-units --plain --no-legend --state=active 'fwdesk*'"
    assert debian.gives(running) == ""
    assert debian.does("test -e /usr/bin/fwdesk -o -e /lib/systemd/system/fwdesk.service")[0]
    debian.gives("dpkg --purge fwdesk")
    elsewhere = ("/proc", "/tmp", "/var/lib", "/var/log", "/var/backups", "/run", "/media")
    stays = " ".join(f"-not -path '{it}/*'" for it in elsewhere)
    left = f"find / -xdev -name '*fwdesk*' {stays}"
    assert debian.gives(left) == "", debian.gives(left)
    assert debian.does("systemctl is-enabled fwdesk")[0]
    debian.gives(f"dpkg -i /media/{built.name}")
    serves(debian)
    assert versions(debian) == ["1", "2"]


def test_lintian_has_nothing_to_say(built):
    ran = subprocess.run(
        [
            "lintian",
            "--allow-root",
            "--fail-on",
            "error,warning",
            *built.parent.glob("*_1.0.0-1_*.deb"),
        ],
        stdout=subprocess.PIPE,
        stderr=subprocess.STDOUT,
        text=True,
    )
    assert (ran.returncode, ran.stdout) == (0, ""), ran.stdout


def test_the_same_program_makes_the_same_package(built, tmp_path):
    again = package.make(PROGRAM, tmp_path, "1.0.0-1", quick=True)[0]
    # (pytest would take hours to compare the bytes)
    digests = {hashlib.sha256(it.read_bytes()).hexdigest() for it in (again, built)}
    assert len(digests) == 1, "another package of the same program and files"


@pytest.fixture(scope="module")
def unpacked(built, tmp_path_factory):
    folder = tmp_path_factory.mktemp("unpacked")
    said("dpkg-deb", "-x", built, folder)
    return folder


def man(page):
    """A page as man shows it, which has nothing to say against it."""
    wide = {**os.environ, "MANWIDTH": "200", "LC_ALL": "C.UTF-8"}
    ran = subprocess.run(
        ["man", "--warnings", "-l", page], capture_output=True, text=True, env=wide, check=True
    )
    assert ran.stderr == "", ran.stderr
    return ran.stdout


def test_the_manual_pages_are_well(unpacked):
    pages = sorted((unpacked / "usr/share/man").rglob("*.gz"))
    assert len(pages) > 4
    for page in pages:
        assert "@" not in man(page).splitlines()[0], page
    assert "--url" in said(unpacked / "usr/bin/fwdesk-ctl", "module", "--help")


def helped(program, *order):
    """The help of the program, or of an order. It comes with status 2, as a line that is refused does."""
    ran = subprocess.run(
        [program, *order, "--help"], stdout=subprocess.PIPE, stderr=subprocess.STDOUT
    )
    return ran.stdout.decode()


def test_each_order_and_option_stands_in_page_and_completion(unpacked):
    program, page = unpacked / "usr/bin/fwdesk", man(unpacked / "usr/share/man/man8/fwdesk.8.gz")
    completion = (unpacked / "usr/share/bash-completion/completions/fwdesk").read_text()
    listed = helped(program).partition("Commands:\n")[2].partition("\n\n")[0]
    orders = [it.split()[0] for it in listed.splitlines() if it.split()[0] != "help"]
    assert orders, "the program's help lists no order"
    for order in orders:
        words = {it for it in helped(program, order).split() if it.startswith("--")}
        assert words and not [it for it in words if it not in page or it not in completion], order
        assert f"fwdesk {order} " in page and f"{order}) words=" in completion, order


@pytest.mark.parametrize(
    "line, wanted",
    [
        ("fwdesk re", "report"),
        ("fwdesk serve --po", "--port"),
        ("fwdesk run --interface m", "mgmt"),
        ("fwdesk help im", "import"),
        ("fwdesk verify --d", "--db"),
    ],
)
def test_bash_completes(unpacked, line, wanted):
    words = line.split()
    completion = unpacked / "usr/share/bash-completion/completions/fwdesk"
    script = (
        f"source {completion}; COMP_WORDS=({line}); COMP_CWORD={len(words) - 1}; _fwdesk; "
        "echo ${COMPREPLY[*]}"
    )
    assert said("bash", "-c", script) == wanted
