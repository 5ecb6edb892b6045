"""Tests of fwdesk-setup's parts that need no machine: what is read of a copied configuration, names, files, passwords, and
what the door for hawkBit's pipelines is made of."""
import argparse
import contextlib
import os
import re
import socket
import ssl
import subprocess
import sys
import tempfile
import threading
from pathlib import Path

from harness import ROOT
from harness.asserting import same
from harness.processes import HOST, free_port
from harness.tls import make_certificate

from fwdesk_ctl import operators, passwords
from fwdesk_setup import certificate, earlier, files, hawkbit, outside
from fwdesk_setup import parts, places, ports, proxy, steps
from fwdesk_setup.errors import NotDone, Refused

DELIVERED = earlier.OF_1_0_0.read_text(encoding="utf-8")
ANNA = "    user anna password @PASSWORD@\n"
MAY = "    http-request set-var-fmt(txn.may) look,steer,approve,hold if { http_auth_user anna }\n"


def test_the_delivered_configuration_has_no_changes():
    assert earlier.is_copy(DELIVERED)
    found = earlier.read_copy(DELIVERED)
    same(found.changes, [])
    same((found.port, found.certificate), (8443, Path("/etc/fwdesk/server.pem")))
    same(found.roles, {"anna": "look,steer,approve,hold"})


def test_operators_port_and_certificate_are_ones_own():
    text = DELIVERED.replace(
        ANNA, ANNA.replace("@PASSWORD@", "$6$a$b") + "\n    user ben password $6$c$d\n"
    )
    text = text.replace(
        MAY, MAY + "    http-request set-var-fmt(txn.may) look if { http_auth_user ben }\n"
    )
    text = text.replace(
        "bind :8443 ssl crt /etc/fwdesk/server.pem", "bind :443 ssl crt /srv/all.pem"
    )
    found = earlier.read_copy(text)
    same(found.changes, [])
    same(found.users, {"anna": "$6$a$b", "ben": "$6$c$d"})
    same(found.roles, {"anna": "look,steer,approve,hold", "ben": "look"})
    same((found.port, found.certificate), (443, Path("/srv/all.pem")))


def test_whatever_else_was_changed_is_told():
    found = earlier.read_copy(DELIVERED.replace("timeout queue 30s", "timeout queue 40s"))
    same(found.changes, ["-    timeout queue 30s", "+    timeout queue 40s"])
    found = earlier.read_copy(DELIVERED + "frontend mine\n    bind :80\n")
    same(found.changes, ["+frontend mine", "+    bind :80"])
    bound = "bind :8443 ssl crt /etc/fwdesk/server.pem"
    found = earlier.read_copy(DELIVERED.replace(bound, f"{bound} ca-file /srv/ca"))
    assert f"+    {bound} ca-file /srv/ca" in found.changes, found.changes


def test_another_configuration_is_no_copy():
    assert not earlier.is_copy("global\n    daemon\nfrontend web\n    bind :80\n")


def test_a_certificate_names_hosts_and_addresses():
    same(certificate.alternative("desk.example"), "DNS:desk.example")
    same(certificate.alternative("192.0.2.7"), "IP:192.0.2.7")
    same(certificate.alternative("2001:db8::7"), "IP:2001:db8::7")


def test_who_listens_on_a_port_is_named():
    for family, address in ((socket.AF_INET, "127.0.0.1"), (socket.AF_INET6, "::1")):
        try:
            held = socket.create_server((address, 0), family=family)
        except OSError:
            continue  # a machine without IPv6
        with held:
            port = held.getsockname()[1]
            found = ports.listener_on(port)
            assert found and found.endswith(f"(process {os.getpid()})"), found
        # (the one that was held may be somebody else's by now)
        same(ports.listener_on(free_port()), None)


def test_only_printable_characters_are_shown():
    words = [sys.executable, ROOT / "cli/fwdesk-setup", "desk\x1b]0;owned\x07\u202e.example"]
    ran = subprocess.run(words, capture_output=True, text=True)
    assert ran.returncode == 2 and "is no name of a host" in ran.stderr, ran
    assert ran.stderr.replace("\n", "").isprintable(), ran.stderr


def serve_endlessly(listener, context):
    """Answers a request by TLS with a reply that has no end."""
    with contextlib.suppress(OSError), listener.accept()[0] as plain:
        with context.wrap_socket(plain, server_side=True) as link:
            link.recv(65536)
            link.sendall(b"HTTP/1.1 200 OK\r\nContent-Length: 9999999999\r\n\r\n")
            while True:
                link.sendall(b"x" * 65536)


def test_no_more_of_a_foreign_reply_is_read_than_a_reply_has():
    context = ssl.SSLContext(ssl.PROTOCOL_TLS_SERVER)
    with tempfile.TemporaryDirectory() as folder, socket.create_server((HOST, 0)) as listener:
        context.load_cert_chain(make_certificate(Path(folder)))
        threading.Thread(target=serve_endlessly, args=(listener, context), daemon=True).start()
        port, authority = listener.getsockname()[1], f"{folder}/server.crt"
        found = outside.Outside(HOST, port, authority).fault("/fwdesk/me", 401)
        assert found and found.startswith("/fwdesk/me: 200 and not 401"), found


def test_passwords_differ_and_are_long():
    made = {passwords.make() for _ in range(100)}
    same(len(made), 100)
    same({len(it) for it in made}, {23})


def test_operators_are_checked_with_the_parts_that_haproxy_reads():
    kept = operators.IN_USE
    with tempfile.TemporaryDirectory() as folder:
        operators.IN_USE = Path(folder) / "current"
        try:
            same(operators.parts_in_use(), operators.PACKAGED)
            Path(folder, "0123").mkdir()
            operators.IN_USE.symlink_to("0123")
            same(operators.parts_in_use(), operators.IN_USE)
        finally:
            operators.IN_USE = kept


def test_older_copies_go_and_the_page_of_1_0_0_stays():
    kept = places.COPIES
    with tempfile.TemporaryDirectory() as folder:
        places.COPIES = Path(folder)
        try:
            for it in ("0123456789abcdef", "0000000000000000", "page-of-1.0.0-1"):
                Path(folder, it).mkdir()
            Path(folder, "current").symlink_to("0123456789abcdef")
            parts.forget_older("0123456789abcdef", None)
            found = sorted(it.name for it in Path(folder).iterdir())
        finally:
            places.COPIES = kept
    same(found, ["0123456789abcdef", "current", "page-of-1.0.0-1"])


def test_a_file_is_written_once_and_with_its_mode():
    with tempfile.TemporaryDirectory() as folder:
        path = Path(folder, "etc/key")
        before = os.umask(0)
        try:
            same(files.write_whole(path, "secret\n", 0o600), True)
        finally:
            os.umask(before)
        same(path.stat().st_mode & 0o777, 0o600)
        made = path.stat().st_ino
        same(files.write_whole(path, "secret\n", 0o600), False)
        same(path.stat().st_ino, made)
        same(files.write_whole(path, "other\n", 0o600), True)
        same([it.name for it in path.parent.iterdir()], ["key"])


class Machine:
    """Folders of a machine, and a systemctl that notes what it is ordered; `active` are the units that are."""

    def __init__(self, folder):
        self.etc, self.ordered, self.active = Path(folder) / "etc/fwdesk", [], set()
        (self.etc / "haproxy.d").mkdir(parents=True)

    def systemctl(self, *words):
        verb, units = words[0], [it for it in words[1:] if it[0] != "-"]
        if verb in ("is-active", "is-enabled"):
            return self.active.issuperset(units)
        self.ordered.append(" ".join((verb, *units)))
        if verb == "enable":
            self.active.update(units)
        elif verb in ("disable", "stop"):
            self.active.difference_update(units)
        return True

    def output_of(self, *words):
        assert words[0] == "systemctl", words
        self.systemctl(*words[1:])
        return ""

    def files(self):
        """Each file, with what it has, its mode and its number."""
        found = [it for it in sorted(self.etc.rglob("*")) if it.is_file()]
        return {
            it.name: (it.read_text(), it.stat().st_mode & 0o777, it.stat().st_ino) for it in found
        }


@contextlib.contextmanager
def machine():
    """A machine in whose place nothing of this one is touched."""
    with tempfile.TemporaryDirectory() as folder:
        made = Machine(folder)
        kept = []
        for module, name, value in (
            (places, "ETC", made.etc),
            (places, "OWN", made.etc / "haproxy.d"),
            (places, "UNITS", Path(folder) / "units"),
            (hawkbit, "LINK", Path(folder) / "link"),
            (hawkbit, "systemctl", made.systemctl),
            (hawkbit, "output_of", made.output_of),
            (hawkbit, "make_firmware", lambda: False),
            (steps, "systemctl", made.systemctl),
            (proxy, "systemctl", made.systemctl),
        ):
            kept.append((module, name, getattr(module, name)))
            setattr(module, name, value)
        try:
            yield made
        finally:
            for module, name, value in kept:
                setattr(module, name, value)


def test_the_door_of_pipelines_is_opened_once():
    with machine() as it:
        same(hawkbit.management_port(), None)
        same(hawkbit.open_management(), True)
        made = it.files()
        same(sorted(made), ["15-hawkbit-manage.cfg", "hawkbit.key"])
        same(made["hawkbit.key"][1], 0o600)
        assert re.fullmatch(r"[0-9a-f]{64}\n", made["hawkbit.key"][0]), made["hawkbit.key"]
        lines = [one.strip() for one in made["15-hawkbit-manage.cfg"][0].splitlines()]
        same(
            lines[1:],
            ["global", "setenv FWDESK_HAWKBIT_MANAGE 1", "setenv FWDESK_HAWKBIT_BIND :8445"],
        )
        same(hawkbit.management_port(), 8445)
        same(it.ordered, ["enable fwdesk-hawkbit-manage.socket"])
        same(hawkbit.open_management(), False)
        same((it.files(), len(it.ordered)), (made, 1))


def test_two_machines_have_two_keys():
    keys = set()
    for _ in range(2):
        with machine() as it:
            hawkbit.open_management()
            keys.add(it.files()["hawkbit.key"][0])
    same(len(keys), 2)


def test_many_fleets_are_refused_by_name():
    with machine() as it:
        own = it.etc / "haproxy.d/10-own.cfg"
        own.write_text("global\n    setenv FWDESK_HOSTS localhost\n    # setenv FWDESK_MANY 1\n")
        hawkbit.refuse_many_fleets()
        for line in (
            "setenv FWDESK_MANY 1",
            "presetenv FWDESK_ADDRESSES /etc/fwdesk/addresses.map",
        ):
            own.write_text(f"global\n    {line}\n")
            try:
                hawkbit.refuse_many_fleets()
            except Refused as why:
                assert "docs/HAWKBIT.md" in str(why), why
            else:
                raise AssertionError(line)


def test_a_key_and_a_port_that_are_there_stay():
    with machine() as it:
        (it.etc / "hawkbit.key").write_text("k" * 40)
        own = hawkbit.SWITCH.replace(":8445", "192.0.2.7:9445")
        hawkbit.switch().write_text(own)
        before = it.files()
        same(hawkbit.open_management(), True)
        same(it.files(), before)
        same(hawkbit.management_port(), 9445)


def test_a_door_whose_socket_was_stopped_is_opened_again():
    with machine() as it:
        hawkbit.open_management()
        before = it.files()
        it.active.clear()
        same((hawkbit.open_management(), it.files() == before), (True, True))
        same(it.active, {"fwdesk-hawkbit-manage.socket"})


def test_undo_shuts_both_doors_and_keeps_the_key():
    with machine() as it:
        it.active.update(("fwdesk-hawkbit.socket", "fwdesk-hawkbit-manage.service"))
        hawkbit.open_management()
        hawkbit.LINK.symlink_to("/usr/share/fwdesk/nginx/hawkbit-polls.conf")
        made, it.ordered = it.files(), []
        same(steps.undo(), 0)
        same(it.files(), {"hawkbit.key": made["hawkbit.key"]})
        same(
            (it.active, hawkbit.LINK.is_symlink(), hawkbit.management_port()), (set(), False, None)
        )
        # a reload would keep the variable, and with it the port
        assert "try-restart haproxy.service" in it.ordered, it.ordered
        it.ordered = []
        same(steps.undo(), 0)
        assert not any("restart" in one for one in it.ordered), it.ordered


def test_undo_leaves_a_configuration_of_nginx_that_is_ones_own():
    with machine() as it:
        hawkbit.LINK.write_text("# mine\n")
        same(steps.undo(), 0)
        assert hawkbit.LINK.exists() and not any("nginx" in one for one in it.ordered), it.ordered


def fails(*_):
    raise NotDone("it isn't well, and is as before again")


def try_in_vain(order):
    """A set-up that HAProxy doesn't come up with."""
    stubs = {
        steps: ("refuse_machine", "refuse_changes", "put_certificate", "put_own_file", "put_holds"),
        parts: ("copy", "faults"),
    }
    kept = [
        (module, name, getattr(module, name)) for module, names in stubs.items() for name in names
    ]
    kept += [(steps, "switch", steps.switch), (places, "CHOICES", places.CHOICES)]
    for module, name, _ in kept:
        setattr(module, name, lambda *_: None)
    steps.switch, places.CHOICES = fails, places.ETC / "setup.json"
    put, steps.put_operators = steps.put_operators, lambda *_: None
    kept.append((steps, "put_operators", put))
    copied, earlier.copied = earlier.copied, lambda: None
    kept.append((earlier, "copied", copied))
    try:
        steps.set_up(order)
    except NotDone:
        return
    finally:
        for module, name, value in kept:
            setattr(module, name, value)
    raise AssertionError("it is done")


def test_a_door_of_pipelines_that_is_not_well_is_shut_again():
    order = argparse.Namespace(
        name="desk.example", operator="anna", hawkbit=False, hawkbit_manage=True
    )
    order.port = order.acme = order.certificate = order.key = order.drop_changes = None
    with machine() as it:
        try_in_vain(order)
        same((it.files(), it.active), ({}, set()))
        assert "try-restart haproxy.service" in it.ordered, it.ordered
    with machine() as it:
        hawkbit.open_management()
        before = it.files()
        try_in_vain(order)
        same((it.files(), it.active), (before, {"fwdesk-hawkbit-manage.socket"}))
