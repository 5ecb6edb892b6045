"""Commands for later: their moment, their words, their timers, and a way to the server that will be there then."""
import argparse
import datetime
import getpass
import importlib
import os
from dataclasses import asdict, dataclass
from types import ModuleType
from typing import Any

from fwdesk_ctl import connection, systemd
from fwdesk_ctl.client import Desk
from fwdesk_ctl.commands import VERBS
from fwdesk_ctl.errors import NotDone, Refused, Wrong
from fwdesk_ctl.time_parsing import CLOCK, moment_of, now, zone_of

LATER = [it for it in ("start", "pause", "resume", "trigger", "hold", "release") if it in VERBS]
OUTCOMES = ("done", "refused", "missed", "unreached", "unsure")
KEPT = 50  # ended orders in the book


@dataclass
class Order:
    """What is to be done, when, by whose order, and by which way to the desk. A login stays in its file."""

    number: int
    at: str
    words: list[str]
    zone: str
    missed: str
    who: str
    url: str
    ca: str | None = None
    netrc: str | None = None

    @property
    def due(self) -> datetime.datetime:
        return datetime.datetime.fromisoformat(self.at)

    @property
    def name(self) -> str:
        return f"fwdesk-at-{self.number}.timer"

    @property
    def said(self) -> str:
        return " ".join(self.words)

    def place(self) -> None:
        """Makes its timer, whole or not at all."""
        about = f"order {self.number} of fwdesk: {self.said}"
        when = self.due.strftime("%Y-%m-%d %H:%M:%S UTC")
        service = f"fwdesk-at@{self.number}.service"
        try:
            systemd.place(self.name, about, [when], service, asdict(self))
        except NotDone:
            systemd.take_away(self.name)
            raise


def waiting() -> list[Order]:
    """The next one first."""
    orders = [Order(**it) for it in systemd.timers("fwdesk-at-*.timer")]
    return sorted(orders, key=lambda order: (order.due, order.number))


def read_words(words: list[str]) -> tuple[ModuleType, argparse.Namespace]:
    """The module of a verb that may be ordered for later, and what its words say to it."""
    if words[0] not in LATER:
        raise Wrong(f"{words[0]!r} can't be ordered for later: these can: {', '.join(LATER)}")
    module = importlib.import_module(f"fwdesk_ctl.{VERBS[words[0]][0]}")
    name = f"fwdesk-ctl at TIME {words[0]}"
    parser = argparse.ArgumentParser(name, allow_abbrev=False, add_help=False)
    module.options(parser)
    known = argparse.Namespace(verb=words[0], is_scheduled=True)
    return module, parser.parse_args(words[1:], known)


def mark_sent(number: int) -> None:
    """Writes down that an order is sent from now on, so that it can't be canceled any more."""
    with systemd.book() as book:
        if str(number) not in book["begun"]:
            raise NotDone("it was canceled")
        book["begun"][str(number)]["sent"] = True


def end(order: Order, outcome: str, told: str) -> None:
    """Writes down what came of an order."""
    ended = {**asdict(order), "outcome": outcome, "told": told, "ended": now().isoformat()}
    with systemd.book() as book:
        book["begun"].pop(str(order.number), None)
        book["counts"][outcome] = book["counts"].get(outcome, 0) + 1
        book["ended"] = [*book["ended"], ended][-KEPT:]


def settings(parser: argparse.ArgumentParser, **more: Any) -> None:
    parser.add_argument("--zone", metavar="ZONE", **more)
    parser.add_argument("--if-missed", choices=("do", "tell"), **more)
    parser.add_argument("--dry-run", action="store_true", help="only tell when that is", **more)


def words_of(asked: argparse.Namespace) -> list[str]:
    """The time and the words of an order, whose settings may stand behind them too."""
    parser = argparse.ArgumentParser("fwdesk-ctl at", add_help=False, allow_abbrev=False)
    settings(parser, default=argparse.SUPPRESS)
    words = parser.parse_known_args(asked.words, asked)[1]
    if len(words) > 1 and CLOCK.fullmatch(words[1]):
        words[:2] = [" ".join(words[:2])]
    if len(words) < 2:
        raise Wrong("a time and what is to be done then: fwdesk-ctl at 03:00 start 7")
    return words


def login_file() -> str | None:
    """The file that the login will be read from, since the environment of now is gone by then."""
    file = connection.login_file()
    return str(file.absolute()) if file and file.exists() else None


def check(url: str, ca: str | None, read: argparse.Namespace) -> None:
    """Asks the desk for a rollout as the order will: it is there, and so is a login that isn't of the environment."""
    user = os.environ.pop("FWDESK_USER", None)
    desk = Desk(url, ca)
    try:
        if hasattr(read, "rollout"):
            desk.get(f"/rest/v1/rollouts/{read.rollout}")
    except Refused as refusal:
        if refusal.status == 401 and user:
            raise Wrong(
                "a login of the environment is gone by then: add it to root's ~/.netrc"
            ) from None
        raise


def order_of(asked: argparse.Namespace) -> Order:
    """The order, not yet placed and without a number; the desk has been asked."""
    time, *words = words_of(asked)
    zone = zone_of(asked.zone)
    at = moment_of(time, zone, now())
    if at <= now():
        raise Wrong(f"{time} is over")
    _, read = read_words(words)
    if not asked.dry_run:
        check(asked.url, asked.ca, read)
    return Order(
        number=0,
        at=at.isoformat(),
        words=words,
        zone=zone.key,
        missed=asked.if_missed or "tell",
        who=os.environ.get("SUDO_USER") or getpass.getuser(),
        url=asked.url,
        ca=asked.ca and os.path.abspath(asked.ca),
        netrc=login_file(),
    )


def place(order: Order) -> None:
    """Gives an order its number and its timer."""
    with systemd.book() as book:
        numbers = [book["last"], *(it.number for it in waiting())]
        book["last"] = order.number = 1 + max(numbers)
        order.place()
