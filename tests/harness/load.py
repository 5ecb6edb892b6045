"""The load of tests/e2e/failover/run and tools/image: `load.py FOLDER DEVICES FLEET=ADDRESS..` has an operator of each fleet add numbered
modules, and its devices send numbered feedback, until it is ended. Each command is sent until it is acknowledged, and
then written to FOLDER/FLEET.acks: time, kind, what, how often it was sent. `compared` says how all of it differs from
what a fleet keeps."""
import json
import sys
import threading
import time
from collections import Counter
from pathlib import Path

sys.path.insert(0, str(Path(__file__).resolve().parents[1]))
from harness import http_client

NOTES, MODULES = 100, 900
LOGIN = http_client.login("anna", "secret")
PORT = 8443


class Fleet:
    """A fleet as its clients reach it, over one connection that is made anew where it failed."""

    def __init__(self, name, address, patience=4):
        self.name, self.address, self.patience, self.kept = name, address, patience, None
        self.trusted = http_client.trust_all()

    def asks(self, method, path, body=None, head=LOGIN):
        """Status and body of an answer."""
        try:
            if not self.kept:
                self.kept = http_client.connect(PORT, self.address, self.trusted, seconds=1)
                self.kept.connect()
                self.kept.sock.settimeout(self.patience)
            reply = http_client.exchange(self.kept, method, path, body, head)
            return reply.status, reply.body
        except http_client.BROKEN:
            self.drop()
            raise

    def drop(self):
        if self.kept:
            self.kept.close()
        self.kept = None

    def until_answered(self, method, path, body, head, well):
        """Sends a command until it is answered as it should be, and gives how often it was sent."""
        sent = 0
        while True:
            sent += 1
            try:
                status, told = self.asks(method, path, body, head)
                if status in well and (status != 409 or sent > 1):
                    return sent
                # 408 and 5xx say that it may be kept or not: of the proxy, and of a desk whose store failed
                if status < 500 and status != 408:
                    raise SystemExit(f"{self.name} {method} {path} {body}: {status} {told}")
            except http_client.BROKEN:
                pass
            time.sleep(0.1)

    def answers(self):
        try:
            return self.asks("GET", "/rest/v1/softwaremodules?limit=1")[0] == 200
        except http_client.BROKEN:
            return False

    def looks(self, path, seconds=180):
        """An answer, which is waited for: a kept connection may have ended, and a desk may open just now."""
        ends = time.monotonic() + seconds
        while True:
            try:
                status, told = self.asks("GET", path)
                if status < 500 or time.monotonic() > ends:
                    return status, told
            except http_client.BROKEN:
                if time.monotonic() > ends:
                    raise
            time.sleep(0.2)

    def pages(self, path):
        found = []
        while True:
            status, told = self.looks(f"{path}?limit=500&offset={len(found)}")
            if status != 200:
                raise RuntimeError(f"{self.name} {path}: {status} {told}")
            page = json.loads(told)
            found += page["content"]
            if len(found) >= page["total"]:
                return found


def name_of(fleet, device):
    return f"{fleet}-{device:04}"


def requests_of_a_desk(fleet, devices):
    """What makes a desk of so many targets, each with an action that is offered. An action's number is its device's."""
    plan = {"name": "r", "distributionSetId": 1, "targetFilterQuery": "name==*", "amountGroups": 1}
    plan |= {
        it: {"condition": "THRESHOLD", "expression": "100"}
        for it in ("successCondition", "errorCondition")
    }
    rows = "".join(
        f"{it},{it},tok-{it},\n" for it in (name_of(fleet, n) for n in range(1, devices + 1))
    )
    asked = [
        ("/desk/v1/import", f"controllerid,name,token,tags\n{rows}"),
        ("/rest/v1/softwaremodules", '[{"name":"app","type":"os","version":"1"}]'),
    ]
    asked += [
        ("/rest/v1/distributionsets", '[{"name":"s","version":"1","modules":[{"id":1}]}]'),
        ("/rest/v1/rollouts", json.dumps(plan)),
    ]
    asked += [("/rest/v1/rollouts/1/start", "")]
    return "".join(
        f"POST {path} HTTP/1.1\r\nHost: localhost\r\nContent-Length: {len(body)}\r\n\r\n{body}"
        for path, body in asked
    ), len(asked)


def acknowledged(folder, fleet):
    """What was acknowledged: (time, kind, what, how often it was sent)."""
    try:
        lines = (folder / f"{fleet}.acks").read_text().split("\n")[:-1]
    except FileNotFoundError:
        return []
    return [
        (float(when), kind, what, int(sent)) for when, kind, what, sent in map(str.split, lines)
    ]


def before(folder, fleet, kind):
    """What an earlier run did of a kind, so that this one goes on behind it."""
    return [what for _, it, what, _ in acknowledged(folder, fleet) if it == kind]


def writes(folder, fleet):
    """A line of an acknowledgement, at once: the process may be ended at any time,
    and a line that is cut short doesn't count."""
    acks = open(folder / f"{fleet}.acks", "ab", buffering=0)
    return lambda *words: acks.write(
        " ".join(map(str, (f"{time.time():.3f}", *words, "\n"))).replace(" \n", "\n").encode()
    )


def adds_modules(folder, fleet, pause, _):
    wrote = writes(folder, fleet.name)
    # past the one that an earlier run may have sent without an answer
    done = max((int(it[1:]) + 1 for it in before(folder, fleet.name, "module")), default=0)
    for n in range(done + 1, MODULES):
        # sent again after an answer that was lost, a module is there already
        sent = fleet.until_answered(
            "POST",
            "/rest/v1/softwaremodules",
            json.dumps([{"name": f"m{n:04}", "type": "os", "version": "1"}]),
            LOGIN,
            (201, 409),
        )
        wrote("module", f"m{n:04}", sent)
        time.sleep(pause)


def reports(folder, fleet, pause, devices):
    wrote = writes(folder, fleet.name)
    done = max((int(it.split("/")[0]) for it in before(folder, fleet.name, "note")), default=0)
    for device in range(done + 1, devices + 1):
        name = name_of(fleet.name, device)
        path, head = (
            f"/DEFAULT/controller/v1/{name}/deploymentBase/{device}/feedback",
            http_client.token(name),
        )
        for n in range(1, NOTES + 1):
            body = {
                "number": n,
                "status": {
                    "execution": "proceeding",
                    "result": {"finished": "none"},
                    "details": [f"note {n}"],
                },
            }
            sent = fleet.until_answered("POST", path, json.dumps(body), head, (200,))
            wrote("note", f"{device}/{n}", sent)
            time.sleep(pause)


def kept_notes(fleet, devices):
    """The feedback that a fleet keeps of these devices, and what of it has another text than was sent."""
    found, other = Counter(), []
    for device in devices:
        for entry in fleet.pages(
            f"/rest/v1/targets/{name_of(fleet.name, device)}/actions/{device}/status"
        ):
            found[f"{device}/{entry['number']}"] += 1
            if entry["details"] != [f"note {entry['number']}"]:
                other.append(f"{device}/{entry['number']}")
    return found, other


def compared(folder, fleet, most):
    """How what was acknowledged is kept: a dictionary of how many, and of faults. Under way may be one of each kind in
    each run of the load, whose answer nobody waited for: they are `besides`."""
    acks = acknowledged(folder, fleet.name)
    modules = {what for _, kind, what, _ in acks if kind == "module"}
    notes = {what for _, kind, what, _ in acks if kind == "note"}
    kept = Counter(it["name"] for it in fleet.pages("/rest/v1/softwaremodules"))
    # of the device that comes next, too: its first report may be there without an answer
    devices = {int(it.split("/")[0]) for it in notes}
    found, other = kept_notes(fleet, sorted(devices | {min(max(devices, default=0) + 1, most)}))
    lost = sorted((modules - kept.keys()) | (notes - found.keys()))
    twice = sorted(it for it, n in (kept + found).items() if n != 1)
    besides = sorted((kept.keys() - modules - {"app"}) | (found.keys() - notes))
    many = {
        "modules": len(modules),
        "notes": len(notes),
        "again": sum(sent > 1 for *_, sent in acks),
    }
    return many | {"lost": lost, "twice": twice, "other": other, "besides": besides}


def main():
    folder, devices, fleets = (
        Path(sys.argv[1]),
        int(sys.argv[2]),
        [it.split("=") for it in sys.argv[3:]],
    )
    works = [
        (work, Fleet(*it), pause)
        for it in fleets
        for work, pause in ((adds_modules, 0.5), (reports, 0.02))
    ]
    threads = [
        threading.Thread(target=work, args=(folder, fleet, pause, devices), daemon=True)
        for work, fleet, pause in works
    ]
    for it in threads:
        it.start()
    for it in threads:
        it.join()


if __name__ == "__main__":
    main()
