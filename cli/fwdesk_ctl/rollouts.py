"""Lists rollouts: number, state, members and name.

    fwdesk-ctl rollouts [--status STATE].. [--new FILE] [--tell COMMAND] [--why [--link URL]] [--json]

States: waiting_for_approval, approval_denied, ready, running, paused, finished. With --new those alone are listed
that weren't at the last time: FILE keeps what was. With --tell a command of the shell gets the list, where there is
anything on it, and what it fails to tell is listed again. With --why each paused one is told with its cause, the last
words of failed devices, counted, and with --link its address in the web UI. So a timer tells each pause once:

    fwdesk-ctl rollouts --status paused --why --link https://desk.example:8443 --new /var/lib/me/paused \\
      --tell 'mail -s "A rollout is paused" root'"""
import json
import os
import subprocess
from pathlib import Path

from fwdesk_ctl.errors import NotDone
from fwdesk_ctl.terminal import make_printable
from fwdesk_ctl.why import explain

STATES = ("waiting_for_approval", "approval_denied", "ready", "running", "paused", "finished")


def options(parser):
    parser.add_argument("--status", choices=STATES, action="append", metavar="STATE")
    parser.add_argument("--new", metavar="FILE", type=Path)
    parser.add_argument("--tell", metavar="COMMAND")
    parser.add_argument("--why", action="store_true", help="tell why each is paused")
    parser.add_argument("--link", metavar="URL", default="", help="of --why: the web UI's address")
    parser.add_argument("--json", action="store_true")


def remember(file, numbers):
    """Keeps what was told: the file is as it was, or whole."""
    beside = file.with_name(f"{file.name}.new")
    beside.write_text("".join(f"{it}\n" for it in numbers))
    os.replace(beside, file)


def tell(command, text):
    if status := subprocess.run(command, shell=True, input=text.encode()).returncode:
        raise NotDone(f"{command} ends with status {status}")


def line(desk, order, rollout):
    """A rollout in a line, or with why it is paused."""
    if order.why and rollout["status"] == "paused":
        return explain(desk, rollout, order.link)
    text = (
        f"{rollout['id']:5}  {rollout['status']:20}  {rollout['totalTargets']:6}  {rollout['name']}"
    )
    return make_printable(text) + "\n"


def run(desk, order):
    found = [
        it
        for it in desk.every("/rest/v1/rollouts")
        if not order.status or it["status"] in order.status
    ]
    told = order.new.read_text().split() if order.new and order.new.exists() else []
    news = [it for it in found if str(it["id"]) not in told]
    lines = [line(desk, order, it) for it in news]
    text = json.dumps(news) + "\n" if order.json else "".join(lines)
    if not order.tell:
        print(text, end="", flush=True)
    elif news:
        tell(order.tell, text)
    if order.new:
        remember(order.new, [it["id"] for it in found])
