"""Ships an image: module, upload, set, plan, start and wait, in one command.

    fwdesk-ctl ship IMAGE --name NAME --version V --to FILTER [--devices FILE] [--canary 1,10] [--success P]
                    [--error P] [--type TYPE] [--rollout NAME] [--anyway] [--dry-run] [--no-wait]
                    [--timeout SECONDS] [--json]

--to        the devices: a filter of the server's, as tag==lab or name==*
--devices   first imports the devices of FILE, a file as `import` takes it, that the server doesn't have. Those that
            it has stay as they are. A file with a fault is refused, each fault is told, and nothing is made
--canary    percentages of the first groups, each of the devices that the groups before it leave; the rest comes last
--success   the next group starts where so many percent of the last one succeeded (default: 90)
--error     the rollout pauses where so many percent of a group failed (default: 5)
--rollout   the rollout's name (default: NAME V)
--anyway    starts it also where devices have an older rollout open, which they are offered first
--dry-run   tells the groups, and makes nothing
--no-wait   ends once the rollout is started

It is idempotent: after an interruption the same command goes on where it was cut off. A rollout of this image to this
filter that is there already is gone on with, never planned twice; who wants it again names it by --rollout. An image of
more than 4,194,304 bytes is for firmware-add. The steps are told on standard error, the rollout's number on standard
output (with --json what `wait` tells). The status is that of `wait`."""
import argparse
import sys
import time
from pathlib import Path

from fwdesk_ctl import add_devices, canary, module, steer, upload, wait
from fwdesk_ctl import set as sets
from fwdesk_ctl.client import Desk
from fwdesk_ctl.errors import DENIED, DONE, LATE, NotDone, Refused, Unreached, Wrong
from fwdesk_ctl.plan import PATH


def options(parser: argparse.ArgumentParser) -> None:
    parser.add_argument("image", metavar="IMAGE", type=Path)
    parser.add_argument("--name", required=True)
    parser.add_argument("--version", metavar="V", required=True)
    parser.add_argument("--to", metavar="FILTER", required=True)
    parser.add_argument(
        "--devices", metavar="FILE", type=Path, help="import those of FILE that are new, first"
    )
    canary.options(parser, "1,10", 90, 5)
    parser.add_argument("--type", default="os", help="what a device takes it for (default: os)")
    parser.add_argument("--rollout", metavar="NAME")
    for it in ("--anyway", "--dry-run", "--no-wait", "--json"):
        parser.add_argument(it, action="store_true")
    parser.add_argument("--timeout", metavar="SECONDS", type=float)
    parser.add_argument("--every", metavar="SECONDS", type=float, default=5)


class Steps:
    """Tells each step as it is done, with its number."""

    def __init__(self, count: int) -> None:
        self.count, self.done = count, 0

    def tell(self, what: str) -> None:
        self.done += 1
        print(f"{self.done} of {self.count}: {what}", file=sys.stderr, flush=True)


def read_image(order: argparse.Namespace) -> bytes:
    """The image's bytes, before anything is made; raises Wrong where the desk couldn't take it."""
    upload.named(order.image.name)
    if (size := order.image.stat().st_size) > upload.LARGEST:
        raise Wrong(
            f"{order.image} has {size:,} bytes, and a desk takes {upload.LARGEST:,}: "
            "fwdesk-ctl firmware-add takes larger ones"
        )
    return order.image.read_bytes()


def make_module(desk: Desk, order: argparse.Namespace, steps: Steps) -> int:
    """The number of the module of this name, type and version: that which is there, or a new one."""
    wanted = {"name": order.name, "type": order.type, "version": order.version}
    there = module.found(desk, wanted)
    made = there or desk.post(module.PATH, [wanted])[0]
    steps.tell(f"module {made['id']}, {order.name} {order.version}{', is there' if there else ''}")
    return made["id"]


def put_image(
    desk: Desk, number: int, order: argparse.Namespace, image: bytes, steps: Steps
) -> None:
    """Puts the image into its module; raises NotDone where the version has another image already."""
    try:
        made = upload.put(desk, number, order.image.name, image)
    except Refused as refusal:
        if refusal.name not in ("exists", "locked"):
            raise
        raise NotDone(
            f"{order.name} {order.version} (module {number}) has another file than "
            f"{order.image.name}: give each image a version of its own"
        ) from None
    steps.tell(
        f"{order.image.name}, {len(image):,} bytes, sha256 {made['hashes']['sha256'][:12]}.."
    )


def make_set(desk: Desk, number: int, order: argparse.Namespace, steps: Steps) -> int:
    """The number of the set of this name and version with this module alone."""
    wanted = {"name": order.name, "version": order.version, "modules": [{"id": number}]}
    alike = [it for it in desk.every(sets.PATH) if it["name"] == order.name]
    there = next((it for it in alike if it["version"] == order.version), None)
    if there and there["modules"] != wanted["modules"]:
        raise NotDone(f"set {there['id']} is {order.name} {order.version} of other modules")
    made = there or desk.post(sets.PATH, [wanted])[0]
    steps.tell(f"set {made['id']}, {order.name} {order.version}{', is there' if there else ''}")
    return made["id"]


def find_rollout(desk: Desk, firmware: int | None, order: argparse.Namespace) -> dict | None:
    """The rollout that this command has planned before: of the name that was asked for, or else of this set to this
    filter. Raises NotDone where the name is another rollout's."""
    there = desk.every(PATH)
    same = [
        it
        for it in there
        if (it["distributionSetId"], it["targetFilterQuery"]) == (firmware, order.to)
    ]
    if not order.rollout:
        return same[-1] if same else None
    named = next((it for it in there if it["name"] == order.rollout), None)
    if named and named not in same:
        raise NotDone(
            f"rollout {named['id']} is called {order.rollout}, and has another set or filter"
        )
    return named


def free_name(desk: Desk, order: argparse.Namespace) -> str:
    """The name for a new rollout: where another filter has got NAME V, NAME V (2) and so on."""
    name, taken = f"{order.name} {order.version}", {it["name"] for it in desk.every(PATH)}
    others = (f"{name} ({it})" for it in range(2, 1002))
    return order.rollout or next(it for it in (name, *others) if it not in taken)


def compare(desk: Desk, rollout: dict, order: argparse.Namespace) -> None:
    """Raises NotDone where a rollout that is gone on with has other groups than were asked for."""
    seen = desk.every(f"{PATH}/{rollout['id']}/deploygroups")
    found = [(it["size"], it["success"], it["error"]) for it in seen]
    _, wanted = canary.cut(rollout["totalTargets"], order.canary)
    if found != [(it, order.success, order.error) for it in wanted]:
        told = ", ".join(f"{size} (success {ok}, error {bad})" for size, ok, bad in found)
        raise NotDone(
            f"rollout {rollout['id']} has this image to this filter already, in other groups: {told}; "
            "say these, or name another one by --rollout"
        )


def plan_new(desk: Desk, firmware: int, order: argparse.Namespace) -> dict:
    """Plans the rollout; gives that of somebody who has planned the same in the same moment."""
    members = desk.get("/rest/v1/targets", q=order.to, limit=1)["total"]
    if not members:
        raise NotDone(f"no device matches {order.to}: nothing is planned")
    wanted, _ = canary.plan_of(free_name(desk, order), firmware, order.to, members, order)
    try:
        return desk.post(PATH, wanted)
    except Refused as refusal:
        same = find_rollout(desk, firmware, order) if refusal.name == "exists" else None
        if not same:
            raise
        return same


def plan(desk: Desk, firmware: int, order: argparse.Namespace, steps: Steps) -> dict:
    """The rollout: that which is there, or one that is planned now."""
    there = find_rollout(desk, firmware, order) or plan_new(desk, firmware, order)
    compare(desk, there, order)
    steps.tell(
        f"rollout {there['id']}, {there['name']}, {there['totalTargets']} devices, {there['status']}"
    )
    return there


def start(desk: Desk, number: int, anyway: bool) -> None:
    """Starts a rollout that is ready; one that somebody else has started meanwhile is started."""
    try:
        words = argparse.Namespace(verb="start", rollout=number, unless_open=not anyway, json=False)
        steer.run(desk, words)
    except Refused as refusal:
        ready = desk.get(f"{PATH}/{number}")["status"] == "ready"
        if refusal.name != "wrong_state" or ready:
            raise


def begin(desk: Desk, number: int, order: argparse.Namespace, until: float, steps: Steps) -> int:
    """Starts a rollout once it may be, and tells by a status whether it is."""
    while (state := desk.get(f"{PATH}/{number}")["status"]) == "waiting_for_approval":
        if order.no_wait or time.monotonic() >= until:
            print(f"it waits for approval: fwdesk-ctl approve {number}", file=sys.stderr)
            return LATE
        desk.close()
        time.sleep(min(order.every, max(0.0, until - time.monotonic())))
    if state == "ready":
        start(desk, number, order.anyway)
    steps.tell(f"rollout {number} {'is started' if state == 'ready' else f'is {state}'}")
    return DENIED if state == "approval_denied" else DONE


def ship(desk: Desk, order: argparse.Namespace, image: bytes) -> int:
    until = time.monotonic() + (float("inf") if order.timeout is None else order.timeout)
    steps = Steps(7 if order.devices else 6)
    if order.devices:
        new, words = add_devices.find_new(desk, order.devices)
        add_devices.add(desk, order.devices, new)
        steps.tell(f"devices of {order.devices}: {words}")
    number = make_module(desk, order, steps)
    put_image(desk, number, order, image, steps)
    rollout = plan(desk, make_set(desk, number, order, steps), order, steps)
    if not order.json:
        print(rollout["id"], flush=True)
    status = begin(desk, rollout["id"], order, until, steps)
    if status or order.no_wait:
        return status
    steps.tell(f"waiting: fwdesk-ctl wait {rollout['id']} does so too")
    left = None if order.timeout is None else max(0.0, until - time.monotonic())
    of_wait = argparse.ArgumentParser()
    wait.options(of_wait)
    given = of_wait.parse_args([str(rollout["id"]), "--every", str(order.every)])
    given.timeout, given.json = left, order.json
    return wait.run(desk, given)


def tell(desk: Desk, order: argparse.Namespace) -> None:
    """What --dry-run tells: the new devices, and the groups or the rollout that is there already."""
    if order.devices:
        new, words = add_devices.find_new(desk, order.devices)
        print(f"devices of {order.devices}: {words}")
        if new:
            print("the new ones are in no number below")
    members = desk.get("/rest/v1/targets", q=order.to, limit=1)["total"]
    chosen, found = canary.cut(members, order.canary)
    alike = [it for it in desk.every(sets.PATH) if it["name"] == order.name]
    there = next((it["id"] for it in alike if it["version"] == order.version), None)
    rollout = there and find_rollout(desk, there, order)
    if rollout:
        print(f"rollout {rollout['id']} has it already: {rollout['status']}")
    else:
        cut = ", ".join(f"{size} ({it} %)" for size, it in zip(found, chosen))
        print(f"{members} devices in groups of {cut}" if members else "no device matches")


def check_words(order: argparse.Namespace) -> None:
    """Raises Wrong where a name or a version can't be one."""
    for it in (order.name, order.version, order.type):
        if not it or len(it.encode()) > 128 or not it.isprintable():
            raise Wrong(
                f"{it!r} is no name, version or type: 1 to 128 bytes without control characters"
            )


def run(desk: Desk, order: argparse.Namespace) -> int:
    check_words(order)
    image = read_image(order)
    if order.dry_run:
        tell(desk, order)
        return DONE
    try:
        return ship(desk, order, image)
    except (KeyboardInterrupt, Unreached):
        print("the same command again goes on from here", file=sys.stderr)
        raise
