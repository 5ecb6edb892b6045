"""Why a rollout is paused: the group that failed, the last words of its devices, counted, and a link."""
from collections import Counter
from collections.abc import Sequence

from fwdesk_ctl.client import Desk
from fwdesk_ctl.failed import last_words
from fwdesk_ctl.plan import PATH
from fwdesk_ctl.rollout import actions
from fwdesk_ctl.terminal import make_printable

SHOWN, ASKED = 5, 200  # kinds of words that are told; failed devices that are asked for theirs


def link_to(address: str, number: int) -> str:
    """A line with the rollout's place in the web UI, where its address is known."""
    return f"\n{address.rstrip('/')}/page/#/rollouts/{number}" if address else ""


def pauses_at(group: dict) -> int:
    """How many failed members pause the rollout: the desk compares 100*bad with error*size."""
    return -(-group["error"] * group["size"] // 100)


def cause_of(groups: Sequence[dict]) -> str:
    """Which groups are over their error threshold; none where an operator paused it."""
    over = [it for it in groups if it["status"] != "scheduled" and it["bad"] >= pauses_at(it)]
    told = [
        f"group {it['id']}: {it['bad']} of {it['size']} failed, and it pauses at {pauses_at(it)} ({it['error']} %)"
        for it in over
    ]
    return "; ".join(told) or "by an operator: no group is over its error threshold"


def counted_words(desk: Desk, number: int) -> list[str]:
    """The last words of failed devices, the most frequent first."""
    bad = [it for it in actions(desk, number) if it["state"] == "error"]
    counts = Counter(last_words(desk, it) for it in bad[:ASKED]).most_common()
    lines = [f"{count:7} {words}" for words, count in counts[:SHOWN]]
    if len(counts) > SHOWN:
        lines.append(f"        and {len(counts) - SHOWN} other words")
    if len(bad) > ASKED:
        lines.append(f"        (of the first {ASKED} of {len(bad)} failed devices)")
    return lines


def explain(desk: Desk, rollout: dict, address: str) -> str:
    """A paragraph on a paused rollout."""
    number = rollout["id"]
    groups = desk.every(f"{PATH}/{number}/deploygroups")
    lines = [f"rollout {number}, {rollout['name']}, is paused: {cause_of(groups)}"]
    lines += counted_words(desk, number)
    lines.append(
        f"the devices: fwdesk-ctl failed {number}; take it back: fwdesk-ctl cancel-open {number}"
    )
    return "\n".join(map(make_printable, lines)) + link_to(address, number) + "\n"
