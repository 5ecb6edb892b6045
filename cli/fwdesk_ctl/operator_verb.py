"""Operators: who may log in at the proxy, and what each may do. For root, on HAProxy's machine.

    fwdesk-ctl operator list [--json]
    fwdesk-ctl operator add NAME [--may look,steer,approve,hold] [--stdin]
    fwdesk-ctl operator password NAME [--stdin]
    fwdesk-ctl operator roles NAME look,steer
    fwdesk-ctl operator remove NAME

look      sees everything
steer     plans, starts, pauses, cancels, and changes what is there
approve   approves or denies rollouts
hold      holds the fleet and releases it

Who has any role may look. Without --may a new operator may look alone. A password is made and printed once; with --stdin
it is read from standard input. It is never on a command line, and the files have its SHA-512 alone. HAProxy checks the
whole configuration first; then each file is replaced atomically, and HAProxy is reloaded: what waits goes on. A removed
operator gets 401 from the next request on. Of many fleets, roles are given by fwdesk-fleet allow."""
import argparse
import json
import sys
import syslog
from pathlib import Path

from fwdesk_ctl import operators, passwords
from fwdesk_ctl.client import Desk
from fwdesk_ctl.errors import NotDone, Wrong
from fwdesk_ctl.operators import MAY, ROLES, USERS, Operators

WORDS = {"list": 0, "add": 1, "password": 1, "roles": 2, "remove": 1}


def options(parser: argparse.ArgumentParser) -> None:
    parser.add_argument("what", choices=WORDS, metavar="|".join(WORDS))
    parser.add_argument("words", nargs="*", metavar="NAME")
    parser.add_argument("--may", metavar="ROLES", help=f"of add: {','.join(MAY)}")
    parser.add_argument(
        "--stdin", action="store_true", help="read the password from standard input"
    )
    parser.add_argument("--json", action="store_true", help="of list")
    parser.add_argument("--conf", type=Path, default=operators.CONF, help=argparse.SUPPRESS)
    parts = operators.parts_in_use()
    parser.add_argument("--parts", type=Path, default=parts, help=argparse.SUPPRESS)


def show(found: Operators, as_json: bool) -> None:
    """Each operator, what he may, and whether he can log in."""
    may = found.may()
    names = [*found.names(), *(it for it in may if it not in found.names() and "@" not in it)]
    if as_json:
        listed = [
            {"operator": it, "may": may.get(it, ""), "login": it in found.names()} for it in names
        ]
        print(json.dumps(listed))
        return
    for it in names:
        more = "" if it in found.names() else "  (no login)"
        print(f"{it:20}  {may.get(it, '') or 'nothing'}{more}")


def read_password(order: argparse.Namespace) -> str:
    """The password that is given, or a new one."""
    if not order.stdin:
        return passwords.make()
    return passwords.check(sys.stdin.readline().rstrip("\r\n"))


def look_for(found: Operators, name: str) -> str:
    if operators.check_name(name) not in found.names():
        raise NotDone(f"there is no operator {name}: fwdesk-ctl operator list")
    return name


def roles_for(found: Operators, text: str | None) -> str:
    """What an operator of one desk may; of many fleets that is for fwdesk-fleet."""
    if found.is_of_many_fleets:
        if text:
            raise Wrong("of many fleets: fwdesk-fleet allow FLEET NAME:ROLES")
        return ""
    return operators.read_roles("look" if text is None else text)


def add(found: Operators, order: argparse.Namespace) -> str:
    name, may = operators.check_name(order.words[0]), roles_for(found, order.may)
    if name in found.names():
        raise NotDone(f"{name} is there already: operator password, or operator roles")
    password = read_password(order)
    wanted = found.with_password(name, passwords.digest_of(password))
    told = operators.change(found, wanted.with_roles(name, may) if may else wanted, ROLES)
    return tell_password(order, password, told)


def set_password(found: Operators, order: argparse.Namespace) -> str:
    name, password = look_for(found, order.words[0]), read_password(order)
    wanted = found.with_password(name, passwords.digest_of(password))
    return tell_password(order, password, operators.change(found, wanted, USERS))


def tell_password(order: argparse.Namespace, password: str, told: str) -> str:
    """Prints a password that was made, this once."""
    if not order.stdin:
        print(password, flush=True)
    return told


def set_roles(found: Operators, order: argparse.Namespace) -> str:
    name, may = look_for(found, order.words[0]), roles_for(found, order.words[1])
    return operators.change(found, found.with_roles(name, may), ROLES)


def remove(found: Operators, order: argparse.Namespace) -> str:
    """Takes the login first, then the roles. One who has roles alone is removed too."""
    name = operators.check_name(order.words[0])
    if name not in found.names() and name not in found.may():
        raise NotDone(f"there is no operator {name}: fwdesk-ctl operator list")
    wanted = found.without_user(name)
    if not found.is_of_many_fleets:
        wanted = wanted.with_roles(name, "")
    return operators.change(found, wanted, USERS)


DOES = {"add": add, "password": set_password, "roles": set_roles, "remove": remove}


def run(_: Desk, order: argparse.Namespace) -> None:
    if len(order.words) != WORDS[order.what]:
        raise Wrong(f"operator {order.what} takes {WORDS[order.what]} words: see --help")
    with operators.locked(order.conf):
        found = Operators.read(order.conf, order.parts)
        if order.what == "list":
            return show(found, order.json)
        warning = DOES[order.what](found, order)
    words = [order.what, *order.words, *([order.may] if order.may else [])]
    syslog.syslog(f"audit operator {json.dumps(' '.join(words))}")
    if warning:
        print(warning, file=sys.stderr)
