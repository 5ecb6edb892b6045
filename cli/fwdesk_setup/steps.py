"""What fwdesk-setup is ordered to do: setting up, taking a version or a certificate over, looking, undoing."""
import argparse
import ipaddress
import json
import os
import re
import shutil
import sys
from pathlib import Path

from fwdesk_ctl.errors import Wrong
from fwdesk_ctl.operators import check_name
from fwdesk_setup import certificate, earlier, hawkbit, operators, outside, parts, places, proxy
from fwdesk_setup.errors import NotDone, Refused
from fwdesk_setup.files import write_whole
from fwdesk_setup.run import run, systemctl
from fwdesk_setup.snapshot import Snapshot

HOST = re.compile(
    r"(?=.{1,253}$)([A-Za-z0-9]([A-Za-z0-9-]{0,61}[A-Za-z0-9])?\.)*[A-Za-z0-9-]{1,63}"
)
OWN_FILE = "10-own.cfg"


def tell(words: str) -> None:
    print(f"fwdesk-setup: {words}", file=sys.stderr)


def read_choices() -> dict:
    """What was chosen at the last set-up; nothing at the first."""
    try:
        return json.loads(places.CHOICES.read_text(encoding="utf-8"))
    except FileNotFoundError:
        return {}


def make_choices(order: argparse.Namespace, before: dict, copy: earlier.Copied | None) -> dict:
    """What holds from now on: what the command line says, else what held before."""
    chosen = {"name": order.name, "port": 8443, "local_port": None, "acme": None}
    chosen |= {"certificate": None, "key": None, "authority": str(places.ETC / "ca.crt")}
    if copy and not before:
        # a certificate that was made by hand is its own authority
        mine = copy.certificate.with_suffix(".crt")
        chosen |= {"port": copy.port, "local_port": 8081, "copied": str(copy.certificate)}
        chosen |= {"authority": str(mine) if mine.exists() else None}
    chosen |= before | {"name": order.name}
    if order.port:
        chosen["port"] = order.port
    if order.acme or order.certificate:
        chosen |= {"certificate": order.certificate, "key": order.key, "acme": order.acme}
        chosen |= {"authority": None, "copied": None}
    return chosen


def refuse_machine(order: argparse.Namespace) -> None:
    """Refuses a machine on which it can't be done."""
    if os.geteuid():
        raise Refused("it is for root alone")
    if missing := [it for it in ("haproxy", "openssl", "systemctl") if not shutil.which(it)]:
        raise Refused(f"{', '.join(missing)}: not there. apt install haproxy openssl")
    if bool(order.certificate) != bool(order.key) or (order.certificate and order.acme):
        raise Refused("it is --certificate with --key, or --acme, or neither")
    if not proxy.is_set_up():
        earlier.refuse_others()
    if order.hawkbit:
        hawkbit.refuse_missing_nginx()
        hawkbit.refuse_missing(hawkbit.SOCKET)
    if order.hawkbit_manage:
        hawkbit.refuse_many_fleets()
        hawkbit.refuse_missing(hawkbit.MANAGE_SOCKET)


def refuse_name(name: str) -> None:
    try:
        ipaddress.ip_address(name)
    except ValueError:
        if not HOST.fullmatch(name):
            raise Refused(f"{name} is no name of a host, and no address") from None


def refuse_login(name: str) -> None:
    try:
        check_name(name)
    except Wrong as why:
        raise Refused(str(why)) from None


def refuse_changes(copy: earlier.Copied | None, drop: bool) -> None:
    """Refuses a copied configuration in which more was changed than operators, port and certificate."""
    if copy and copy.changes and not drop:
        changes = "\n".join(f"    {it}" for it in copy.changes[:20])
        raise Refused(
            f"{places.HAPROXY_CFG} was changed in more than its operators, port and certificate:\n{changes}\n"
            "Put the changes that you want into a file of your own in /etc/fwdesk/haproxy.d. "
            "--drop-changes goes on without it"
        )


def asks_acme(chosen: dict) -> bool:
    """Whether the certificate is one that certbot gets and renews."""
    return bool(chosen["acme"]) and not chosen.get("copied")


def put_certificate(chosen: dict) -> bool:
    """The certificate by the choices, which ACME is asked for; tells whether it is another one now."""
    if asks_acme(chosen):
        certificate.ask_acme(chosen["name"], chosen["acme"])
    return take_certificate(chosen)


def take_certificate(chosen: dict) -> bool:
    """The certificate from where it is by the choices; tells whether it is another one now."""
    if chosen.get("copied"):
        return False
    name = chosen["name"]
    if chosen["acme"]:
        return certificate.join(*certificate.files_of_acme(name), name)
    if chosen["certificate"]:
        return certificate.join(Path(chosen["certificate"]), Path(chosen["key"]), name)
    return certificate.make_own(name)


def own_text(chosen: dict) -> str:
    return proxy.own_text(
        chosen["name"],
        chosen["port"],
        chosen.get("copied") or str(certificate.pem()),
        chosen.get("local_port"),
    )


def put_own_file(chosen: dict, before: dict) -> bool:
    """The operator's own settings, unless he has changed them by hand and they still fit."""
    path = places.OWN / OWN_FILE
    if path.exists() and path.read_text(encoding="utf-8") != (before and own_text(before)):
        if before and own_text(before) != own_text(chosen):
            raise Refused(
                f"{path} was changed by hand: write the other name or port there yourself"
            )
        return False
    return write_whole(path, own_text(chosen))


def put_operators(login: str, copy: earlier.Copied | None) -> str | None:
    """The operators of a copied configuration, or a first one, whose password it gives."""
    if copy and copy.users and not (places.OWN / operators.USERS).exists():
        operators.write_operators(copy.users, copy.roles)
        return None
    return operators.add_first(login)


def put_holds() -> None:
    """The file of holds, without which the proxy doesn't start."""
    places.HELD.parent.mkdir(parents=True, exist_ok=True)
    if not places.HELD.exists():
        write_whole(places.HELD, "")


def checked_copy() -> str:
    """A copy of this version's parts that is valid with the operator's own."""
    name = parts.copy()
    if found := parts.faults(name):
        raise NotDone(f"HAProxy doesn't take the configuration:\n{found}")
    return name


def is_running() -> bool:
    return all(systemctl("is-active", "-q", it) for it in (proxy.EDGE, proxy.DESKS))


def switch(
    name: str,
    changed: bool,
    login: tuple[str, str] | None,
    own: Snapshot,
    with_desk: bool = True,
) -> bool:
    """Has the proxy run by a copy, and goes back where that isn't well; tells whether anything changed."""
    before, was_set_up = parts.current(), proxy.is_set_up()
    changed = changed or name != before
    parts.use(name)
    started = proxy.write_units() or not is_running()
    if not changed and not started:
        return False
    try:
        if started:
            proxy.start()
        else:
            proxy.reload(not proxy.same_desks(before, name))
        found = outside.look(login, with_desk)
        found += [] if is_running() else [f"{proxy.EDGE} and {proxy.DESKS} don't both run"]
    except NotDone as why:
        found = [str(why)]
    if found:
        go_back(before, was_set_up, own)
        raise NotDone("it isn't well, and is as before again:\n" + "\n".join(found))
    parts.forget_older(name, before)
    return True


def go_back(before: str | None, was_set_up: bool, own: Snapshot) -> None:
    """Makes the proxy what it was: by the copy of before, or none of fwdesk's."""
    own.restore()
    if was_set_up and before:
        parts.use(before)
        proxy.reload(True)
    else:
        proxy.remove_units()
        systemctl("disable", "-q", "--now", proxy.DESKS, *proxy.SOCKETS)
        proxy.forgive()
        systemctl("restart", proxy.EDGE)


def address_of(chosen: dict, other_port: int | None = None) -> str:
    """The address that devices, operators and the web UI have, or one of another port."""
    port = other_port or chosen["port"]
    host = f"[{chosen['name']}]" if ":" in chosen["name"] else chosen["name"]
    return f"https://{host}" if port == 443 else f"https://{host}:{port}"


def print_end(chosen: dict, login: str, password: str | None, changed: bool) -> None:
    """What an operator has to know now."""
    print(f"page      {address_of(chosen)}/")
    if password:
        print(f"login     {login}   password {password}   (shown once)")
    print(f"devices   {address_of(chosen)}   with their tokens")
    if pipelines := hawkbit.management_port():
        print(f"hawkBit   {address_of(chosen, pipelines)}   for pipelines, with the same logins")
    if chosen["authority"]:
        print(
            f"trust     {chosen['authority']}, to be given to devices and to fwdesk-ctl elsewhere"
        )
    if outside.Outside(chosen["name"], chosen["port"], None).resolve() is None:
        print(f"          {chosen['name']} has no address on this machine: devices need one for it")
    print("done" if changed else "nothing had to be changed")


def set_up(order: argparse.Namespace) -> int:
    """From whatever is here to a proxy that serves, or back."""
    refuse_name(order.name)
    refuse_login(order.operator)
    refuse_machine(order)
    copy = None if proxy.is_set_up() else earlier.copied()
    refuse_changes(copy, order.drop_changes)
    before, own = read_choices(), Snapshot()
    chosen, was_open = make_choices(order, before, copy), hawkbit.management_port() is not None
    if asks_acme(chosen):
        certificate.refuse_acme(chosen["name"])
    try:
        changed, password = put_all(order, copy, before, chosen, own)
    except BaseException:
        own.restore()
        if order.hawkbit_manage and not was_open:
            hawkbit.close_management()
            systemctl("try-restart", proxy.EDGE)
        raise
    if order.hawkbit:
        changed = hawkbit.enable() or changed
    print_end(chosen, order.operator, password, changed)
    return 0


def put_all(
    order: argparse.Namespace,
    copy: earlier.Copied | None,
    before: dict,
    chosen: dict,
    own: Snapshot,
) -> tuple[bool, str | None]:
    """Writes what isn't as it is to be, and has the proxy run by it; tells whether that changed anything, and a password."""
    changed = put_certificate(chosen)
    changed = put_own_file(chosen, before) or changed
    write_whole(places.CHOICES, json.dumps(chosen, indent=1, sort_keys=True) + "\n")
    put_holds()
    password = put_operators(order.operator, copy)
    if order.hawkbit_manage:
        changed = hawkbit.open_management() or changed
    login = (order.operator, password) if password else None
    changed = switch(checked_copy(), changed or password is not None, login, own)
    return proxy.write_link(address_of(chosen)) or changed, password


def upgrade() -> int:
    """What the package does once its files are there: the proxy goes on with them, or with those that it has."""
    if not proxy.is_set_up():
        if earlier.copied():
            tell_of_copy()
        return 0
    name, before = parts.copy(), parts.current()
    if found := parts.faults(name):
        tell(f"HAProxy goes on with the parts of before, since these aren't valid:\n{found}")
        if before and parts.faults(before):
            tell(
                f"nor are those of before with {places.OWN}: mend it before HAProxy is started anew"
            )
        tell("once it is mended: fwdesk-setup --upgrade")
        return 1
    # the desk starts anew beside, and may take its time to open a large file
    switch(name, False, None, Snapshot(), with_desk=False)
    return 0


def tell_of_copy() -> None:
    """What somebody has to do whose HAProxy runs from a copy of 1.0.0's configuration."""
    name = run(
        "openssl",
        "x509",
        "-noout",
        "-subject",
        "-nameopt",
        "multiline",
        "-in",
        places.ETC / "server.crt",
    )[1]
    found = re.search(r"commonName\s*=\s*(\S+)", name)
    tell(
        f"HAProxy runs from {places.HAPROXY_CFG}, a copy of fwdesk 1.0.0's, and goes on with the page of before.\n"
        "This version's proxy and page are taken over, with your operators, port and certificate, by\n"
        f"    fwdesk-setup {found[1] if found else 'NAME'}"
    )
    # a reload would still have the page of this version, which the copy doesn't fit
    if systemctl("is-active", "-q", proxy.EDGE):
        systemctl("daemon-reload")
        systemctl("restart", proxy.EDGE)


def lay_parts() -> int:
    """Lays the proxy's parts where HAProxy reads them, on a machine that got all else by `fwdesk-ctl restore`."""
    if proxy.is_set_up() and parts.current() is None:
        parts.use(checked_copy())
    return 0


def renewed() -> int:
    """Takes over a certificate that was renewed where it was taken from."""
    chosen = read_choices()
    if not chosen:
        return 0
    # (certbot calls this while it renews, and refuses to be asked meanwhile)
    if take_certificate(chosen):
        proxy.reload(False)
    return 0


def check() -> int:
    """Tells what is wrong, and changes nothing."""
    if not proxy.is_set_up():
        raise Refused("nothing is set up here: fwdesk-setup NAME")
    chosen = read_choices()
    faults = [parts.faults(str(parts.current()))]
    faults = [it for it in faults if it] or outside.look()
    if asks_acme(chosen) and (words := certificate.acme_port_fault(chosen["name"])):
        faults.append(words)
    print(*faults or ["valid, and well as seen from outside"], sep="\n")
    return 1 if faults else 0


def undo() -> int:
    """Takes the proxy away, and the doors for hawkBit's clients; the operator's own files stay for the next set-up."""
    hawkbit.close()
    was_open, was_set_up = hawkbit.close_management(), proxy.remove_units()
    if was_set_up:
        systemctl("disable", "-q", "--now", proxy.DESKS, *proxy.SOCKETS)
    if was_set_up or was_open:
        systemctl("try-restart", proxy.EDGE)
    return 0
