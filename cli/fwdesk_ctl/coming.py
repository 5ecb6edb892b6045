"""What is to come on this machine, and what became of what was: for `fwdesk-ctl at --list`, and for the console, which tells it
to the web UI and to Prometheus."""
import re
from typing import Any

from fwdesk_ctl import quiet_hours, schedule, systemd
from fwdesk_ctl.time_parsing import now

HEAD = """# HELP fwdesk_orders_waiting Scheduled commands that wait for their time.
# TYPE fwdesk_orders_waiting gauge
fwdesk_orders_waiting {}
# HELP fwdesk_orders_total Scheduled commands that ended, by what became of them.
# TYPE fwdesk_orders_total counter"""
SHOWN = 10  # ended orders, of those that the page is told


def fleet_of(url: str) -> str:
    """The fleet that an address names, of many."""
    found = re.search(r"/fleets/(\w+)/?$", url)
    return found[1] if found else ""


def told(order: dict[str, Any]) -> dict[str, Any]:
    """An order as others are told of it, without its way to the desk."""
    more = {it: order[it] for it in ("outcome", "told", "ended") if it in order}
    return {
        "order": order["number"],
        "words": " ".join(order["words"]),
        "at": order["at"],
        "zone": order["zone"],
        "ifMissed": order["missed"],
        "who": order["who"],
        "fleet": fleet_of(order["url"]),
        **more,
    }


def everything() -> dict[str, Any]:
    """What waits, what ended lately, and the quiet hours, each of whatever fleet."""
    ended = [told(it) for it in systemd.known()["ended"]]
    quiet = {fleet: quiet_hours.told(rule, now()) for fleet, rule in quiet_hours.rules().items()}
    return {"orders": [told(vars(it)) for it in schedule.waiting()], "ended": ended, "quiet": quiet}


def of_fleet(fleet: str) -> dict[str, Any]:
    """The same of one fleet."""
    there = everything()
    own = {key: [it for it in there[key] if it["fleet"] == fleet] for key in ("orders", "ended")}
    return {
        "orders": own["orders"],
        "ended": own["ended"][-SHOWN:],
        "quiet": there["quiet"].get(fleet),
    }


def counts() -> tuple[int, dict[str, int]]:
    """How many wait, and how many ended, by what became of them."""
    ended = systemd.known()["counts"]
    return len(schedule.waiting()), {it: ended.get(it, 0) for it in schedule.OUTCOMES}


def metrics() -> str:
    """The same as a text for Prometheus."""
    waits, ended = counts()
    lines = [f'fwdesk_orders_total{{outcome="{it}"}} {n}' for it, n in ended.items()]
    return "\n".join([HEAD.format(waits), *lines])
