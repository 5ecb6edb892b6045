"""A reload of the edge under load: what was acknowledged is kept, nothing is done twice, and nobody is told 5xx."""

import json
import threading
import time
from collections import Counter

import pytest
from .crowd import load
from harness.processes import eventually
from .stage import Stage, token

pytestmark = [pytest.mark.e2e]


def note(words: str) -> bytes:
    """A device's note that it goes on."""
    status = {"execution": "proceeding", "result": {"finished": "none"}, "details": [words]}
    return json.dumps({"status": status}).encode()


def actions(stage: Stage) -> dict[int, int]:
    """The action of each device that has one which runs."""
    table = stage.look("/desk/v1/rollouts/1/actions").decode().splitlines()[1:]
    rows = [it.split(",") for it in table]
    return {int(row[1].removeprefix("dev-")): int(row[0]) for row in rows}


@pytest.mark.gate
def test_reload_loses_no_note(quiet: Stage, size: int) -> None:
    """Notes of devices, each sent once over a connection that is kept until a reply ends it, beside reloads: each is
    acknowledged, and there once."""
    own = actions(quiet)
    assert len(own) > 8
    sent: dict[str, int] = {}
    over = threading.Event()

    def device(number: int, action: int) -> None:
        path = (
            f"{quiet.base}/DEFAULT/controller/v1/dev-{number:02}/deploymentBase/{action}/feedback"
        )
        link, count = None, 0
        while not over.is_set() and count < 90:
            count += 1
            words = f"{time.monotonic_ns()} of {number}"
            fields: dict[str, str] = {}
            try:
                link = link or quiet.open(timeout=60)
                sent[words], fields, _ = link.ask("POST", path, token(number), note(words))
            except OSError:
                sent[words] = 0
            if link and (sent[words] != 200 or fields.get("connection", "").lower() == "close"):
                link.close()
                link = None
            # an action takes a hundred notes, which are to last for all reloads
            time.sleep(0.03 * size)

    those = [threading.Thread(target=device, args=it) for it in own.items()]
    for it in those:
        it.start()
    turns = 3 * size
    for _ in range(turns):
        time.sleep(1)
        quiet.edge.reload()
    time.sleep(1)
    eventually("some notes", lambda: [*sent.values()].count(200) >= 5)
    over.set()
    for it in those:
        it.join()
    kept: Counter[str] = Counter()
    for number, action in own.items():
        path = f"/rest/v1/targets/dev-{number:02}/actions/{action}/status?limit=500"
        kept.update(" ".join(it["details"]) for it in quiet.look(path)["content"])
    told = Counter(sent.values())
    print(f"{quiet.form}: {turns} reloads, {len(sent)} notes: {dict(told)}; {load()}")
    assert told[200] >= 5
    assert not [it for it, status in sent.items() if status == 200 and not kept[it]]
    assert not [it for it, count in kept.items() if it in sent and count > 1]
    assert not told.keys() - {200}, told
