"""Carries out an order that is due, once: its timer starts this. What goes wrong is an error in the journal."""
import datetime
import os
import time
from urllib.parse import quote

from fwdesk_ctl import schedule, systemd
from fwdesk_ctl.client import Desk
from fwdesk_ctl.schedule import Order
from fwdesk_ctl.time_parsing import now
from fwdesk_ctl.errors import (
    DONE,
    REFUSED,
    UNREACHED,
    Locked,
    NotDone,
    Refused,
    Unreached,
    Wrong,
)
from fwdesk_ctl.terminal import make_printable

LATE = datetime.timedelta(minutes=1)  # an order that is later than that is missed
PATIENCE = datetime.timedelta(minutes=15)  # for which a desk that isn't reached is tried again
# a time that is that near is waited for: systemd starts nothing beside this
SOON = datetime.timedelta(seconds=30)
ERROR, WARNING, NOTICE = "<3>", "<4>", "<5>"  # what the journal takes for the level of a line
CUT_SHORT = (
    "it was cut short as it was sent, so it may be done or not, and isn't sent again: "
    "look before you order it again"
)


def log(level: str, text: str) -> None:
    """Writes a line of the journal, which stays one line whatever is in it."""
    print(f"{level}{make_printable(text)}", flush=True)


def finish(order: Order, outcome: str, told: str = "") -> int:
    """Writes into the book and the journal what came of an order, and then takes its timer away."""
    schedule.end(order, outcome, told)
    words = f"order {order.number}, {order.said} (of {order.who}, for {order.at}): {outcome}"
    log(NOTICE if outcome == "done" else ERROR, f"{words}: {told}" if told else words)
    systemd.take_away(order.name)
    return DONE if outcome == "done" else REFUSED


def is_away(error: Refused | Unreached) -> bool:
    """Whether the desk, or the proxy before it, may answer otherwise later."""
    return isinstance(error, Unreached) or error.status >= 500


def attempt(order: Order) -> tuple[str, str]:
    """What becomes of an order now, and why. Steering is sent once, and written down right before that; holds may be
    ordered again. Raises Refused or Unreached where nothing was sent, or may be sent again."""
    module, read = schedule.read_words(order.words)
    desk = Desk(order.url, order.ca)
    # of holds: this machine's way in takes the name
    desk.fields["X-Who"] = quote(f"{order.who}, by order {order.number}")
    was_sent = False

    def mark_sent() -> None:
        nonlocal was_sent
        schedule.mark_sent(order.number)
        was_sent = True

    if hasattr(read, "rollout"):
        desk.get(f"/rest/v1/rollouts/{read.rollout}")
        desk.before_command = mark_sent
    try:
        module.run(desk, read)
    except (Refused, Unreached) as error:
        if was_sent and is_away(error):
            return "unsure", f"{error}; look before you order it again: {module.look_with(read)}"
        raise
    return "done", ""


def carry_out(order: Order, since: datetime.datetime) -> int:
    """Carries an order out, where the desk is reached; answers the status to end with."""
    try:
        return finish(order, *attempt(order))
    except (Refused, Unreached) as error:
        if not is_away(error):
            return finish(order, "refused", str(error))
        if now() - since >= PATIENCE:
            return finish(order, "unreached", str(error))
        log(WARNING, f"order {order.number}, {order.said}: {error}: it is tried again")
        return UNREACHED
    except Locked:
        raise
    except (NotDone, Wrong, OSError, SystemExit) as error:
        return finish(order, "refused", str(error))


def find_order(number: int) -> Order | None:
    """The order of this number, if it waits."""
    return next((order for order in schedule.waiting() if order.number == number), None)


def wait_for(order: Order | None) -> None:
    """Waits until an order is due whose time is near."""
    if order and now() < order.due <= now() + SOON:
        time.sleep((order.due - now()).total_seconds())


def begin(number: int) -> tuple[Order, dict] | None:
    """The order, and since when it was begun; None where it isn't due, or over."""
    with systemd.book() as book:
        order = find_order(number)
        is_ended = any(it["number"] == number for it in book["ended"])
        if order and is_ended:
            systemd.take_away(order.name)
        if not order or is_ended or now() < order.due:
            return None
        begun = book["begun"].setdefault(str(number), {"at": now().isoformat(), "sent": False})
        return order, dict(begun)


def run_due(number: int) -> int:
    wait_for(find_order(number))
    found = begin(number)
    if not found:
        return DONE
    order, begun = found
    if order.netrc:
        os.environ["FWDESK_NETRC"] = order.netrc
    since = datetime.datetime.fromisoformat(begun["at"])
    if begun["sent"]:
        return finish(order, "unsure", CUT_SHORT)
    if order.missed == "tell" and since - order.due > LATE:
        why = f"the machine, or its timer, was off until {begun['at']}; it isn't done"
        return finish(order, "missed", why)
    return carry_out(order, since)


def run(number: int) -> int:
    """Looks whether an order is due: for its timer, at a start of the machine, or once more. Where somebody else has
    the book for too long it is tried again."""
    try:
        return run_due(number)
    except Locked as error:
        log(WARNING, f"order {number}: {error}: it is tried again")
        return UNREACHED
