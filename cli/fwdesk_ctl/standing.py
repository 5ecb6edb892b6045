"""Lists rollouts that stand still: running, and with no new result for so many hours.

    fwdesk-ctl standing --seen FILE [--hours N] [--link URL] [--tell COMMAND] [--json]

The server keeps no times, so FILE keeps since when each rollout's counts are as they are; let a timer look. With --tell a
command of the shell gets the list, where there is anything on it; each stretch is told once, and what the command fails
to tell is told again. --link is the address of the web UI, as https://desk.example:8443."""
import argparse
import json
import time
from collections.abc import Sequence
from pathlib import Path

from fwdesk_ctl.client import Desk
from fwdesk_ctl.errors import Wrong
from fwdesk_ctl.plan import PATH
from fwdesk_ctl.rollouts import tell
from fwdesk_ctl.stand import counts_of, sentence
from fwdesk_ctl.why import link_to


def options(parser: argparse.ArgumentParser) -> None:
    parser.add_argument("--seen", metavar="FILE", type=Path, required=True)
    parser.add_argument("--hours", metavar="N", type=float, default=24)
    parser.add_argument("--link", metavar="URL", default="")
    parser.add_argument("--tell", metavar="COMMAND")
    parser.add_argument("--json", action="store_true")


def read(file: Path) -> dict:
    """What was seen at the last look: of each rollout its counts, since when, and whether it was told."""
    try:
        return json.loads(file.read_text()) if file.exists() else {}
    except ValueError:
        raise Wrong(f"{file} isn't what this verb keeps: take it away") from None


def write(file: Path, seen: dict) -> None:
    beside = file.with_name(f"{file.name}.new")
    beside.write_text(json.dumps(seen))
    beside.replace(file)


def look(
    desk: Desk, before: dict, now: float
) -> tuple[dict, Sequence[tuple[dict, Sequence[dict]]]]:
    """What is seen now, and each running rollout with its groups."""
    seen, going = {}, [it for it in desk.every(PATH) if it["status"] == "running"]
    found = [(it, desk.every(f"{PATH}/{it['id']}/deploygroups")) for it in going]
    for rollout, groups in found:
        counts, old = counts_of(rollout, groups), before.get(str(rollout["id"]), {})
        same = old.get("counts") == counts
        new = {"counts": counts, "since": now, "told": False}
        seen[str(rollout["id"])] = old if same else new
    return seen, found


def run(desk: Desk, order: argparse.Namespace) -> None:
    now = time.time()
    seen, found = look(desk, read(order.seen), now)
    write(order.seen, seen)
    still = [it for it in found if now - seen[str(it[0]["id"])]["since"] >= order.hours * 3600]
    news = [it for it in still if not order.tell or not seen[str(it[0]["id"])]["told"]]
    lines = [
        sentence(rollout, groups, now - seen[str(rollout["id"])]["since"])
        + link_to(order.link, rollout["id"])
        for rollout, groups in news
    ]
    listed = json.dumps([rollout for rollout, _ in news])
    text = listed + "\n" if order.json else "".join(f"{it}\n" for it in lines)
    if not order.tell:
        print(text, end="", flush=True)
        return
    if news:
        tell(order.tell, text)
    for rollout, _ in news:
        seen[str(rollout["id"])]["told"] = True
    write(order.seen, seen)
