"""Lists the devices that haven't polled for so many hours, by what HAProxy saw of them.

    fwdesk-ctl silent --hours N [--filter TEXT] [--ids | --json | --metrics] [--socket FILE] [--table NAME]

HAProxy keeps when each device was last there, in its table `seen`, for 24 days; it is asked at its socket, on its own
machine. A device of the server that isn't in the table was never seen since HAProxy was started or reloaded, which is
said too: where that is less than N hours ago it may have been there before. So --metrics, which prints a text for
Prometheus, counts such a device only after N hours."""
import json
import re
import sys

from fwdesk_ctl.haproxy import ask
from fwdesk_ctl.errors import Wrong

KEPT = 24 * 24  # hours that the table keeps a device for
SEEN = re.compile(r"key=(\S+) .*?\bexp=(\d+)")
HEAD = """# HELP fwdesk_silent_targets Devices that haven't polled for so many hours.
# TYPE fwdesk_silent_targets gauge"""


def options(parser):
    parser.add_argument("--hours", metavar="N", type=float, required=True)
    parser.add_argument("--filter", metavar="TEXT", help="of these targets alone")
    how = parser.add_mutually_exclusive_group()
    for it in ("--ids", "--json", "--metrics"):
        how.add_argument(it, action="store_true")
    parser.add_argument("--socket", metavar="FILE", default="/run/haproxy/admin.sock")
    parser.add_argument("--table", metavar="NAME", default="seen")


def silences(order):
    """The hours for which each device that was seen has been silent, and those for which HAProxy has run."""
    table = ask(order.socket, f"show table {order.table}")
    if "# table:" not in table:
        raise Wrong(f"HAProxy at {order.socket} has no table {order.table}: see docs/PROXIES.md")
    uptime = re.search(r"^Uptime_sec: (\d+)", ask(order.socket, "show info"), re.M)
    return {key: KEPT - int(left) / 3_600_000 for key, left in SEEN.findall(table)}, int(
        uptime[1]
    ) / 3600


def of_fleet(seen, path):
    """Those of the desk's own fleet: of many fleets each key has its fleet's name before the device's,
    and the desk's address has it too."""
    fleet = re.fullmatch(r"/fleets/(\w+)/?", path)
    begins = f"{fleet[1]}/" if fleet else ""
    return {
        key.removeprefix(begins): hours for key, hours in seen.items() if key.startswith(begins)
    }


def run(desk, order):
    seen, uptime = silences(order)
    seen = of_fleet(seen, desk.at.path)
    query = {"q": order.filter} if order.filter else {}
    names = [it["controllerId"] for it in desk.every("/rest/v1/targets", **query)]
    silent = sorted(
        (it for it in names if it in seen and seen[it] >= order.hours), key=lambda it: -seen[it]
    )
    never = [it for it in names if it not in seen]
    if order.metrics:
        count = len(silent) + len(never) * (uptime >= order.hours)
        print(f'{HEAD}\nfwdesk_silent_targets{{hours="{order.hours:g}"}} {count}')
    elif order.json:
        hours = {it: round(seen[it], 4) for it in silent}
        print(json.dumps([{"controllerId": it, "hours": hours.get(it)} for it in never + silent]))
    else:
        for it in never + silent:
            hours = f"{seen[it]:.1f} h" if it in seen else "never"
            print(it if order.ids else f"{hours:>9}  {it}")
    if never and not order.metrics:
        print(
            f"never: not since HAProxy was started or reloaded, {uptime:.1f} h ago", file=sys.stderr
        )
